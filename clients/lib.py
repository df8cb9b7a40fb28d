"""The package that the scripts share: its modules are in tests/lib."""
from pathlib import Path

__path__ = [str(Path(__file__).resolve().parents[1] / "tests" / "lib")]
