"""Makes the package and the shared modules of the tests importable: a bench imports this first."""
import sys
from pathlib import Path

ROOT = Path(__file__).resolve().parent.parent
sys.dont_write_bytecode = True
sys.path[:0] = [str(ROOT / "tests" / "lib"), str(ROOT / "python")]
