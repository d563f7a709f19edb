"""The program that tests compare the tool with: the built one, or the one that the variable FLOWVISOR names."""
import os
import pathlib
import subprocess
import unittest

import running  # noqa: F401  (puts tools/ on the path)
from sunworsted import PROGRAM as BUILT

PROGRAM = pathlib.Path(os.environ.get("FLOWVISOR", BUILT))
needs_program = unittest.skipUnless(PROGRAM.exists(), f"there is no program {PROGRAM}")


def run_program(*words):
    """Runs the program; its outputs are bytes."""
    return subprocess.run([PROGRAM, *words], capture_output=True, check=False)
