"""What hatchling needs besides pyproject.toml: the version, and the shared library in the wheel.

If the shared library is found, it goes into the wheel. It is looked for at the path in TLBRIDGE_LIBRARY, in the tree
that `make install` made around this folder, and in out/ of the repository. Otherwise the wheel is for every machine,
and the library is looked for when it is used. The source archive has no library.
"""
import os
import sysconfig
from pathlib import Path
from typing import Any, Dict, Optional

from hatchling.builders.hooks.plugin.interface import BuildHookInterface

HERE = Path(__file__).resolve().parent


def version_file() -> Path:
    """Returns the file VERSION of the source archive, or of the repository or the installed tree around this folder."""
    own = HERE / "VERSION"
    return own if own.is_file() else HERE.parent / "VERSION"


def version() -> str:
    """Returns the version of the project."""
    return version_file().read_text(encoding="utf-8").strip()


def library() -> Optional[Path]:
    """Returns the path of the shared library, or None. Raises FileNotFoundError if TLBRIDGE_LIBRARY names no file."""
    named = os.environ.get("TLBRIDGE_LIBRARY")
    if named:
        return Path(named).resolve(strict=True)
    places = [*(folder / "lib" for folder in list(HERE.parents)[2:3]), HERE.parent / "out"]
    return next((place / "libtlbridge.so" for place in places if (place / "libtlbridge.so").is_file()), None)


class CustomBuildHook(BuildHookInterface[Any]):  # hatchling looks for a class of this name
    def initialize(self, version: str, build_data: Dict[str, Any]) -> None:
        """Adds the version to the source archive, and the library to the wheel, which is then for this platform."""
        if self.target_name == "sdist":
            build_data["force_include"][str(version_file())] = "VERSION"
            return
        found = library()
        if found:
            platform = sysconfig.get_platform().replace("-", "_").replace(".", "_")
            build_data["force_include"][str(found)] = "tlbridge/libtlbridge.so"
            build_data.update(pure_python=False, tag=f"py3-none-{platform}")
