"""What python/hatch_build.py puts into a wheel and into a source archive. Nothing is built."""

import sysconfig
from pathlib import Path
from typing import Any, Dict

import pytest
from project import ROOT, script


@pytest.fixture
def hatch() -> Any:
    """The module."""
    pytest.importorskip("hatchling", reason="there is no hatchling (`tools/install-tools` names its package)")
    return script(ROOT / "python" / "hatch_build.py")


def built(hatch: Any, target: str, monkeypatch: pytest.MonkeyPatch) -> Dict[str, Any]:
    """The settings of a build after the hook."""
    hook = hatch.CustomBuildHook.__new__(hatch.CustomBuildHook)
    monkeypatch.setattr(hatch.CustomBuildHook, "target_name", target)
    settings: Dict[str, Any] = {"force_include": {}}
    hook.initialize("standard", settings)
    return settings


def test_the_library_that_a_variable_names(hatch: Any, tmp_path: Path, monkeypatch: pytest.MonkeyPatch) -> None:
    """It is put into the wheel, which is then for this platform. If it is missing, no wheel is made."""
    library = tmp_path / "own.so"
    library.write_bytes(b"own")
    monkeypatch.setenv("TLBRIDGE_LIBRARY", str(library))
    platform = sysconfig.get_platform().replace("-", "_").replace(".", "_")
    assert built(hatch, "wheel", monkeypatch) == {
        "force_include": {str(library.resolve()): "tlbridge/libtlbridge.so"},
        "pure_python": False,
        "tag": f"py3-none-{platform}",
    }
    assert built(hatch, "sdist", monkeypatch) == {"force_include": {str(ROOT / "VERSION"): "VERSION"}}
    monkeypatch.setenv("TLBRIDGE_LIBRARY", str(tmp_path / "missing.so"))
    with pytest.raises(FileNotFoundError):
        built(hatch, "wheel", monkeypatch)


def test_a_wheel_without_a_library(hatch: Any, tmp_path: Path, monkeypatch: pytest.MonkeyPatch) -> None:
    """It is for each platform."""
    monkeypatch.delenv("TLBRIDGE_LIBRARY", raising=False)
    monkeypatch.setattr(hatch, "HERE", tmp_path / "lib" / "python")
    assert built(hatch, "wheel", monkeypatch) == {"force_include": {}}
    (tmp_path / "lib" / "out").mkdir(parents=True)
    (tmp_path / "lib" / "out" / "libtlbridge.so").write_bytes(b"made")
    made = built(hatch, "wheel", monkeypatch)["force_include"]
    assert made == {str(tmp_path / "lib" / "out" / "libtlbridge.so"): "tlbridge/libtlbridge.so"}
