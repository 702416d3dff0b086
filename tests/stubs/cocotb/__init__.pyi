"""The names of cocotb 1.x that examples/cocotb uses, by its documentation."""
from typing import Any, Awaitable, Callable, Coroutine, TypeVar

_Test = TypeVar("_Test", bound=Callable[[Any], Coroutine[Any, Any, None]])
_Result = TypeVar("_Result")

def test() -> Callable[[_Test], _Test]: ...
def start_soon(task: Coroutine[Any, Any, _Result]) -> Awaitable[_Result]: ...
