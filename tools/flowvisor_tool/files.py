"""Files as the subcommands open and write them."""
import contextlib
import os
import pathlib
import sys

from .captures import PCAP_MAGICS, SECTION_HEADER
from .faults import Fault
from .recordings import MAGIC

CAPTURE_MAGICS = {*PCAP_MAGICS, SECTION_HEADER}


def is_capture(file):
    """Whether a file, of which nothing was read, begins as a capture does."""
    return file.peek(4)[:4] in CAPTURE_MAGICS


def is_recording(file, name):
    """Whether a file, of which nothing was read, begins as a recording does. A fault tells of one that is a capture."""
    if is_capture(file):
        raise Fault("is a capture, not a recording: see from-pcap", name)
    return file.peek(len(MAGIC))[: len(MAGIC)] == MAGIC


@contextlib.contextmanager
def opened_recording(name):
    """The file of a recording. A fault tells of one that is something else."""
    with open(name, "rb") as file, named(name):
        if not is_recording(file, name) and file.peek(1):
            raise Fault("is no recording", name)
        yield file


@contextlib.contextmanager
def named(name, in_the_place_of=None):
    """Has the system's faults tell what they are of, where they don't, or where they tell of a file in the place of another."""
    try:
        yield
    except OSError as error:
        if error.filename in (None, in_the_place_of):
            error.filename = str(name)
        raise


def say(lines):
    """Prints each of the lines, and has all of them written."""
    for line in lines:
        with named("standard output"):
            print(line)
    with named("standard output"):
        sys.stdout.flush()


@contextlib.contextmanager
def replaced(path, *sources):
    """A file to be written, which takes the place of the one at the path once it is whole; else all is left as it was."""
    name, path = path, pathlib.Path(os.path.realpath(path))
    # What is a symbolic link even now is one of a loop.
    if path.is_symlink() or path.exists() and not path.is_file():
        raise Fault("can't be written: it is no file", name)
    if path.exists() and any(path.samefile(source) for source in sources):
        raise Fault("can't be written: it is read", name)
    # The file's own name may be as long as names can be.
    part = path.with_name(f".{os.getpid()}.part")
    with named(name, in_the_place_of=str(part)), open(str(part), "xb") as file:
        try:
            yield file
            file.flush()
            os.replace(part, path)
        except BaseException:
            part.unlink(missing_ok=True)
            raise
