"""Starts the commands of this project that are written in Python, each in its own process, for the tests that run one
many times.

A process that has loaded the modules of the commands is forked for each run. So a run takes a few milliseconds, and
not the tenth of a second in which Python starts and compiles the command. It has the streams, the folder, the
environment and the end of any process. Whether a command finds its modules is seen by the tests that start it as users
do.
"""

import atexit
import fcntl
import functools
import gc
import io
import json
import os
import signal
import socket
import subprocess
import sys
import traceback
import types
from importlib.machinery import SourceFileLoader
from pathlib import Path
from typing import IO, Any, Dict, List, Mapping, NoReturn, Optional, Sequence, Tuple, Union

ROOT = Path(__file__).resolve().parent.parent.parent
MODEL = ROOT / "tlbridge-model"
SCRIPTS = {str(ROOT / name) for name in ("sv/compare", "tlbridge-trace", "tlbridge-model", "tlexplain-model")}
PACKAGE = "tlbridge.waves"  # which `python3 -m` runs
MAIN = str(ROOT / "python" / "tlbridge" / "waves" / "__main__.py")
MODULES = ("tlbridge.compare", "tlbridge.waves.command", "argparse", "itertools")
Word = Union[str, bytes, Path, int]


def command_of(words: Sequence[Word]) -> Optional[List[str]]:
    """The script of this project with its arguments, without the Python in front of it; None of another command."""
    shown = [os.fsdecode(word) if isinstance(word, bytes) else str(word) for word in words]
    if shown[0] == sys.executable:
        shown = [MAIN, *shown[3:]] if shown[1:3] == ["-m", PACKAGE] else shown[1:]
    return shown if shown and (shown[0] in SCRIPTS or shown[0] == MAIN) else None


class Starter:
    """The process that is forked. `seconds` is the processor time of all runs."""

    def __init__(self) -> None:
        self.seconds = 0.0
        self.socket, theirs = socket.socketpair(socket.AF_UNIX, socket.SOCK_SEQPACKET)
        environment = {**os.environ, "LC_ALL": "C.UTF-8", "PYTHONPATH": str(ROOT / "python")}
        with theirs, open(os.devnull, "r+b") as null:
            self.process = subprocess.Popen(
                [sys.executable, __file__, str(theirs.fileno())],
                pass_fds=[theirs.fileno()],
                stdin=null,
                stdout=null,
                env=environment,
                start_new_session=True,  # so that only pytest sees a ^C
            )
        atexit.register(self.close)

    def close(self) -> None:
        self.socket.close()
        self.process.wait()

    def answer(self, timeout: Optional[float]) -> Any:
        self.socket.settimeout(timeout)
        said = self.socket.recv(1000)
        assert said, "the process that starts commands has ended"
        return json.loads(said)

    def run(
        self,
        words: Sequence[str],
        streams: Sequence[int],
        closed: Sequence[int],
        folder: Union[str, Path],
        environment: Mapping[str, str],
        timeout: float,
    ) -> int:
        """Runs a command to its end, with the three streams except those that are closed. Returns its status."""
        request = {"words": words, "closed": closed, "folder": str(folder), "environment": dict(environment)}
        socket.send_fds(self.socket, [json.dumps(request).encode()], list(streams))
        process = self.answer(None)
        try:
            status, seconds = self.answer(timeout)
        except socket.timeout as error:
            os.kill(process, signal.SIGKILL)
            self.answer(None)
            raise subprocess.TimeoutExpired(list(words), timeout) from error
        self.seconds += seconds
        return int(status)


@functools.lru_cache(maxsize=None)
def starter() -> Starter:
    """The starter of this process, which the first run begins."""
    return Starter()


def seconds_of_runs() -> float:
    """The processor time of all runs so far."""
    return starter().seconds if starter.cache_info().currsize else 0.0


def run(
    words: Sequence[Word],
    *,
    cwd: Union[str, Path, None] = None,
    env: Optional[Mapping[str, str]] = None,
    text: bytes = b"",
    stdout: Optional[IO[bytes]] = None,
    closed: Sequence[int] = (),
    timeout: float = 300,
) -> "subprocess.CompletedProcess[bytes]":
    """Runs a command of SCRIPTS, with this text on standard input. Both outputs are kept, unless `stdout` is a file.
    The streams with the numbers `closed` are closed.
    """
    command = command_of(words)
    assert command, words
    with temporary() as given, temporary() as output, temporary() as error:
        given.write(text)
        given.seek(0)
        streams = [file.fileno() for file in (given, stdout or output, error)]
        status = starter().run(command, streams, closed, cwd or Path.cwd(), os.environ if env is None else env, timeout)
        output.seek(0)
        error.seek(0)
        return subprocess.CompletedProcess(command, status, output.read(), error.read())


def run_text(words: Sequence[Word], folder: Path, timeout: float = 300) -> "subprocess.CompletedProcess[str]":
    """Runs a command of SCRIPTS in a folder, with its outputs as text."""
    done = run(words, cwd=folder, timeout=timeout)
    return subprocess.CompletedProcess(done.args, done.returncode, done.stdout.decode(), done.stderr.decode())


def temporary() -> IO[bytes]:
    """A file without a name."""
    return os.fdopen(os.memfd_create("stream"), "w+b")


# ---- the process that is forked


Codes = Dict[str, Tuple[int, types.CodeType]]


def code_of(path: str, codes: Codes) -> types.CodeType:
    """The code of a script, which is compiled once."""
    changed = os.stat(path).st_mtime_ns
    if codes.get(path, (0, None))[0] != changed:
        codes[path] = changed, compile(Path(path).read_bytes(), path, "exec")
    return codes[path][1]


def stream(number: int) -> Optional[io.TextIOWrapper]:
    """A standard stream as Python opens it: None if it is closed."""
    try:
        os.fstat(number)
    except OSError:
        return None
    errors = "backslashreplace" if number == 2 else "surrogateescape"
    file = open(number, "rb" if number == 0 else "wb", closefd=False)
    return io.TextIOWrapper(file, "utf-8", errors, line_buffering=number == 2)


def set_streams(files: Sequence[int]) -> None:
    """Makes these files the standard streams, whichever numbers they have."""
    for number, file in enumerate([fcntl.fcntl(file, fcntl.F_DUPFD, 10) for file in files]):
        os.dup2(file, number)
        os.close(file)


def run_code(code: types.CodeType, words: Sequence[str]) -> NoReturn:
    """Runs a script with these words as the main module, and ends the process as Python does: without the time that
    Python takes to free all objects.
    """
    sys.argv = list(words)
    sys.path[0] = os.path.dirname(words[0])
    main = sys.modules["__main__"] = types.ModuleType("__main__")
    main.__file__ = words[0]
    main.__package__ = PACKAGE if words[0] == MAIN else None
    status = 0
    try:
        exec(code, main.__dict__)
    except SystemExit as ended:
        status = ended.code if isinstance(ended.code, int) else int(ended.code is not None)
        if isinstance(ended.code, str):
            print(ended.code, file=sys.stderr)
    except BaseException:
        traceback.print_exc()
        status = 1
    atexit._run_exitfuncs()
    try:
        for output in (sys.stdout, sys.stderr):
            if output:
                output.flush()
    except (OSError, ValueError):
        status = 120
    os._exit(status)


class Model:
    """The unverified model as a process that a command starts. It is forked, too."""

    def __init__(
        self, code: types.CodeType, words: Sequence[str], stdin: IO[bytes], stdout: IO[bytes], stderr: int
    ) -> None:
        reading, writing = os.pipe()
        self.process = os.fork()
        if not self.process:
            atexit._clear()  # which are those of the command
            set_streams([stdin.fileno(), stdout.fileno(), writing])
            run_code(code, words)
        os.close(writing)
        self.stderr = open(reading, "rb")

    def wait(self) -> int:
        return os.waitstatus_to_exitcode(os.waitpid(self.process, 0)[1])


def fork_models(codes: Codes) -> None:
    """Makes the judge of tlbridge-compare and tlbridge-trace start the unverified model by a fork, and gives its code
    to tlexplain-model, which loads it.
    """
    from tlbridge import judge

    code = code_of(str(MODEL), codes)
    compiled: Any = SourceFileLoader.source_to_code

    def loaded(loader: Any, data: Any, path: Any) -> Any:
        return code if path == str(MODEL) else compiled(loader, data, path)

    def started(words: Sequence[str], **streams: Any) -> Any:
        is_model = words[0] == str(MODEL)
        return Model(code, words, **streams) if is_model else subprocess.Popen(words, **streams)

    names = types.SimpleNamespace(Popen=started, PIPE=subprocess.PIPE)
    setattr(judge, "subprocess", names)
    setattr(SourceFileLoader, "source_to_code", loaded)


def serve(number: int) -> Optional[Tuple[types.CodeType, List[str]]]:
    """Forks for each request. Returns what has to run in a child, and None if there is no more request."""
    for name in MODULES:
        __import__(name)
    gc.freeze()  # so that a child does not copy what it only reads
    codes: Codes = {}
    with socket.socket(fileno=number) as channel:
        while True:
            said, files, _, _ = socket.recv_fds(channel, 1 << 20, 3)
            if not said:
                return None
            request = json.loads(said)
            code, _ = code_of(request["words"][0], codes), code_of(str(MODEL), codes)
            process = os.fork()
            if not process:
                break
            for file in files:
                os.close(file)
            channel.send(json.dumps(process).encode())
            _, status, used = os.wait4(process, 0)
            channel.send(json.dumps((os.waitstatus_to_exitcode(status), used.ru_utime + used.ru_stime)).encode())
    fork_models(codes)
    set_streams(files)
    for file in (*files, *request["closed"]):
        os.close(file)
    os.chdir(request["folder"])
    os.environ.clear()
    os.environ.update(request["environment"])
    for number, name in enumerate(("stdin", "stdout", "stderr")):
        setattr(sys, name, stream(number))
    return code, request["words"]


if __name__ == "__main__":
    task = serve(int(sys.argv[1]))
    if task:
        run_code(*task)
