"""usage: python3 tools/library.py find FILE..
       python3 tools/library.py released FILE..
The proved C library by its archives, for the tools and the Makefile: found, built, and linked into static x86-64 programs; natively on x86-64, elsewhere with a
cross compiler and an emulator. A FILE is an archive (libglmm_c.a) or a program (fitjob).
find prints where each is: in release/ where that is of these sources, else in its crate's out/ where it is newer than every source; else it says what to run, status 1.
released prints those of release/ alone, or nothing."""
import functools, os, platform, re, shutil, subprocess, sys
from pathlib import Path

sys.dont_write_bytecode = True
ROOT = Path(__file__).resolve().parent.parent
sys.path.insert(0, str(ROOT / "tools" / "glmm"))
import program as programs
from usage import asked, wrong

NATIVE = platform.machine() == "x86_64"
EMULATOR = [] if NATIVE else ["qemu-x86_64-static"]
COMPILER = {"c99": "gcc" if NATIVE else "x86_64-linux-gnu-gcc", "c++11": "g++"}
STRICT = ["-Wall", "-Wextra", "-pedantic", "-Werror"]
EITHER = "-Wl,-z,muldefs"  # two archives have some functions both, the same ones: the linker may take either


def say(text):
    """What is being done, on standard error."""
    print(f"{Path(sys.argv[0]).name}: {text}", file=sys.stderr, flush=True)


def told(words, **more):
    """Runs a command in the repository's root; what it says of a failure is told, and ends the run."""
    done = subprocess.run(list(map(str, words)), cwd=ROOT, capture_output=True, text=True, **more)
    if done.returncode:
        sys.exit(f"{' '.join(map(str, words))}\n{done.stdout}{done.stderr}")
    return done.stdout


def wanted(*tools):
    """Ends the run where one of these programs is missing."""
    for tool in tools:
        if not shutil.which(tool):
            sys.exit(f"{Path(sys.argv[0]).name}: {tool} is missing")


# ---- where the archives are

def released(file):
    """The file of release/ where it is of these sources, else None."""
    return programs.released(file)


def made(file):
    """The file in its crate's out/ where it is newer than every source, else None."""
    place = programs.place(file)
    if not place.is_file():
        return None
    last = max(os.stat(ROOT / source).st_mtime for crate in programs.listed() for source in programs.files(crate))
    return place if place.stat().st_mtime >= last else None


def found(file):
    place = released(file) or made(file)
    if place is None:
        crate = programs.crate_of(file)
        sys.exit(f"{file}: neither in release/ for these sources nor in crates/{crate}/out/ since they changed; to prove and build it: (cd crates/{crate} && {' '.join(programs.building(file))})")
    return place


@functools.cache
def built(crate):
    """The archive of a crate: the released one where it is of these sources, else the one of its out/ where no source has changed since; else it is proved and built."""
    file = f"lib{crate}.a"
    place = released(file) or made(file)
    if place:
        say(f"{file}: that of {place.parent.relative_to(ROOT)}/")
        return place
    if not shutil.which("rt"):
        sys.exit(f"{Path(sys.argv[0]).name}: the Rattle toolchain (rt) is missing, and {file} is neither in release/ for these sources nor in crates/{crate}/out/ since they changed")
    say(f"{file}: proving and building {crate} and what it stands on; a minute where that is proved, up to half an hour where nothing is (docs/TIMES.md)")
    proving(programs.building(file), ROOT / "crates" / crate)
    return programs.place(file)


def proving(words, folder):
    """Runs rt in a crate's folder, and tells each crate that it has proved."""
    with subprocess.Popen(words, cwd=folder, stdin=subprocess.DEVNULL, stdout=subprocess.PIPE, stderr=subprocess.STDOUT, text=True) as work:
        lines = []
        for line in work.stdout:
            lines.append(line)
            proved = programs.proved_in(line)
            if proved:
                say(f"{proved} proved")
    if work.returncode:
        sys.exit(f"{' '.join(words)} in {folder.relative_to(ROOT)}\n{''.join(lines[-20:])}")


# ---- what is made of them

def header_compiles():
    """The header alone, without a warning, as C99 and as C++."""
    for language, name in (("c99", "c"), ("c++11", "c++")):
        told([COMPILER[language], f"-std={language}", *STRICT, "-fsyntax-only", "-x", name, "include/glmm.h"])


def program(source, folder, *archives):
    """The words that run a C program over the library: over glmm_c's archive, unless others are named."""
    wanted(COMPILER["c99"], *EMULATOR)
    target, libraries = Path(folder) / Path(source).stem, list(map(built, archives or ["glmm_c"]))
    either = [EITHER] if len(libraries) > 1 else []
    told([COMPILER["c99"], "-std=c99", *STRICT, "-O2", "-Iinclude", "-static", source, *libraries, *either, "-o", target])
    return [*EMULATOR, str(target)]


def main():
    asked(__doc__)
    if len(sys.argv) < 3 or sys.argv[1] not in ("find", "released"):
        wrong(__doc__)
    for file in sys.argv[2:]:
        place = found(file) if sys.argv[1] == "find" else released(file)
        if place:
            print(place)


if __name__ == "__main__":
    main()
