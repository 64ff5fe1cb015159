"""The launcher's parts: what `./iox` does beside the program that it runs. Python's standard library only."""
import sys
from pathlib import Path

VERSION = "0.1.0"
TOP = Path(__file__).resolve().parent.parent
# The Python model and the spelling of lines are imported from there.
sys.path.insert(0, str(TOP / "model"))
