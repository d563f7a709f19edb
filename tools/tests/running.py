"""How tests run flowvisor-tool: in this process, or by itself."""
import contextlib
import io
import pathlib
import subprocess
import sys
from dataclasses import dataclass

TOOLS = pathlib.Path(__file__).resolve().parent.parent
ROOT = TOOLS.parent
EXAMPLES = ROOT / "examples"
SCRIPT = TOOLS / "flowvisor-tool"
if str(TOOLS) not in sys.path:
    sys.path.insert(0, str(TOOLS))

from flowvisor_tool import command  # noqa: E402


@dataclass
class Outcome:
    """What a run ended with."""

    status: int
    out: str
    err: str


def run_tool(*words):
    """Runs the tool in this process."""
    out, err = io.StringIO(), io.StringIO()
    with contextlib.redirect_stdout(out), contextlib.redirect_stderr(err):
        try:
            status = command.main([str(word) for word in words])
        except SystemExit as exit_:
            status = exit_.code or 0
    return Outcome(status, out.getvalue(), err.getvalue())


def run_script(*words, **options):
    """Runs the tool by itself."""
    return subprocess.run([SCRIPT, *words], capture_output=True, text=True, check=False, **options)
