"""The proved archive of the elementary functions, linked with tools/c/elementary.c into one static x86-64 program."""
import atexit, shutil, tempfile
from pathlib import Path

import library
from library import NATIVE


def command():
    """The words that run the program, built anew; under an emulator where the machine is no x86-64."""
    compiler = library.COMPILER["c99"]
    library.wanted(compiler, *library.EMULATOR)
    archive = library.built("elementary_c")
    folder = tempfile.mkdtemp(prefix="elementary")
    atexit.register(shutil.rmtree, folder, ignore_errors=True)
    program = Path(folder) / "elementary"
    library.told([compiler, "-O2", "-fno-builtin", "-static", "tools/c/elementary.c", "-Wl,--whole-archive", archive, "-Wl,--no-whole-archive", "-lm", "-o", program])
    return [*library.EMULATOR, str(program)]
