"""`fitjob`, `fitmany` and the C archives: which are released, whether the built one is of the sources as they are, and how a program is run.

docs/RELEASE.md gives each released file its sha256 and the sum of its sources: the sha256 of what `sha256sum` prints of every .rt and .antt file of its crate and
of all crates below that, in the order of their paths, and then of these crates' lines of crates.txt, in their order there. No git and no toolchain is needed for it."""
import hashlib, os, platform, re, shutil, subprocess
from pathlib import Path

ROOT = Path(__file__).resolve().parents[2]
MADE = ROOT / "target"
RELEASE = ROOT / "release"
PAGE = ROOT / "docs" / "RELEASE.md"
LOADER = "ld-linux-x86-64.so.2"
HOMES = [Path("/lib64"), Path("/usr/x86_64-linux-gnu/lib")]  # where a loader of x86-64 programs stands; the second is Debian's libc6-amd64-cross
EMULATORS = ["qemu-x86_64", "qemu-x86_64-static"]
VERSIONS = {1, 2}  # of the jobs that `fitjob` reads
NO_TEXT = re.compile(rb"[\x00-\x08\x0e-\x1f]")


def begins_as_job(data):
    """Whether bytes are a job: by their first four bits, the version, and by a byte that no text has; in version 2, whose first byte is a sign of texts (#), also by
    the seven zero bits that end its header."""
    version = data[0] >> 4 if data else 0
    return version in VERSIONS and NO_TEXT.search(data) is not None and (version == 1 or data[6:7] in (b"", b"\x00", b"\x80"))


def crate_in(line):
    """The crate of a line of crates.txt, without what it is built as; '' of a line that names none."""
    head, colon, _ = line.split("#")[0].partition(":")
    return head.split()[0] if colon else ""


def listed():
    """The crates of crates.txt, each with those that it stands on; the kit's own libraries are left out."""
    lines = {crate_in(line): line.split("#")[0].partition(":")[2] for line in (ROOT / "crates.txt").read_text().splitlines() if crate_in(line)}
    return {name: [below for below in line.split() if below in lines] for name, line in lines.items()}


def crates(name="fitjob"):
    """A crate and all that it stands on, in the order in which they are proved: what stands on nothing first."""
    known, heights = listed(), {}

    def height(crate):
        if crate not in heights:
            heights[crate] = 1 + max(map(height, known[crate]), default=0)
        return heights[crate]
    if name in known:
        height(name)
    return sorted(heights, key=lambda crate: (heights[crate], list(known).index(crate)))


def programs():
    """The crates that are programs of their own, not tests."""
    return [name for name in listed() if (ROOT / "crates" / name / "src" / "main.rt").is_file() and not name.startswith("cases_")]


def files(crate):
    """The sources of a crate, by their paths from the root; what rt keeps in out/ is none."""
    for top, folders, names in os.walk(ROOT / "crates" / crate):
        folders[:] = [folder for folder in folders if folder != "out"]
        yield from (os.path.relpath(os.path.join(top, name), ROOT) for name in names if name.endswith((".rt", ".antt")))


def sum_of(data):
    return hashlib.sha256(data).hexdigest()


def sha256(file):
    return sum_of(Path(file).read_bytes())


def sources(name="fitjob"):
    """The sum of everything that a crate's program or archive is proved and built from."""
    wanted = crates(name)
    paths = sorted(path for crate in wanted for path in files(crate))
    lines = [line for line in (ROOT / "crates.txt").read_text().splitlines() if crate_in(line) in wanted]
    return sum_of("".join([*(f"{sha256(ROOT / path)}  {path}\n" for path in paths), *(f"{line}\n" for line in lines)]).encode())


def crate_of(file):
    """The crate that a released file is built from: `fitjob`, or `glmm_c` of libglmm_c.a."""
    return file.removeprefix("lib").removesuffix(".a") if file.endswith(".a") else file


def page_rows():
    """What the release page says of each file: its bytes, its sha256 and the sum of its sources ('' where it is a source itself)."""
    text = PAGE.read_text() if PAGE.is_file() else ""
    found = re.findall(r"(?m)^\| `([\w./]+)` \| ([\d,]+) \| `([0-9a-f]{64})` \| `?([0-9a-f]*)`? ?\|$", text)
    return {name: (int(size.replace(",", "")), sha, made) for name, size, sha, made in found}


def page_says(name):
    """A line of the page's first table: sources, toolchain, built for; without the remark behind it."""
    found = re.search(rf"(?m)^\| {name} \| (.*?)(?:: what | \(|; what ).*\|$", PAGE.read_text() if PAGE.is_file() else "")
    return found[1].replace("`", "") if found else "not told"


def release_fault(name):
    """Why a file of release/ is not to be used here, or None: it has the page's sum, and the tree has the page's sources."""
    _, sha, made = page_rows().get(name, (0, "", ""))
    if not made:
        return f"docs/RELEASE.md gives no sums of {name}"
    if not (RELEASE / name).is_file():
        return f"there is no release/{name}"
    if sha256(RELEASE / name) != sha:
        return f"release/{name} has not the sha256 of docs/RELEASE.md"
    return None if sources(crate_of(name)) == made else f"the sources are not those of release/{name}"


def released(name):
    """The file of release/ where it is that of the page and of the sources as they are, else None."""
    return None if release_fault(name) else RELEASE / name


def place(file="fitjob"):
    """Where rt leaves a program or an archive that it has built."""
    return ROOT / "crates" / crate_of(file) / "out" / file


def building(file="fitjob"):
    """The command that proves and builds a program or an archive, in its crate's folder, for any x86-64 processor. A program is run then, on nothing."""
    return ["rt", "lib" if file.endswith(".a") else "run", "--cpu", "x86-64"]


def proved_in(line):
    """The crate of which a line of rt says that its check has ended, or ''."""
    found = re.match(r"crate (\w+): modules loaded=", line)
    return found[1] if found else ""


def note(name):
    """Where it is noted what the program there was built from."""
    return MADE / f"{name}.sum"


def fresh(name="fitjob"):
    """Whether the program in its crate's out/ was built from the sources as they are."""
    return place(name).is_file() and note(name).is_file() and note(name).read_text().split() == [sources(name), sha256(place(name))]


def settled(made, name="fitjob"):
    """Notes that the program in its crate's out/ was built from the sources of this sum."""
    MADE.mkdir(exist_ok=True)
    note(name).write_text(f"{made} {sha256(place(name))}\n")


def usable(name="fitjob"):
    """The program to be run: the fresh one of its crate's out/, else the released one, else None."""
    return place(name) if fresh(name) else released(name)


def kit_words():
    """The words before an x86-64 program by which the toolchain runs it, or None where there is no toolchain."""
    said = subprocess.run(["rt", "doc"], capture_output=True, text=True).stdout.split() if shutil.which("rt") else []
    if not said:
        return None
    kit = Path(said[-1]).parent
    homes = [home for home in (kit / "on" / platform.machine() / "toolchain" / "lib", kit / "toolchain" / "lib") if (home / LOADER).exists()]
    emulator = [] if platform.machine() == "x86_64" else [str(found) for found in kit.glob("**/bin/qemu-x86_64")][:1]
    if not homes or not emulator and platform.machine() != "x86_64":
        return None
    return [*emulator, str(homes[0] / LOADER), "--library-path", str(homes[0])]


def machine_words():
    """The same without the toolchain: by the machine's own loader, elsewhere under an emulator; None where it has none."""
    emulator = [] if platform.machine() == "x86_64" else [found for found in map(shutil.which, EMULATORS) if found][:1]
    homes = [home for home in HOMES if (home / LOADER).exists()]
    if platform.system() != "Linux" or not homes or not emulator and platform.machine() != "x86_64":
        return None
    return [*emulator, str(homes[0] / LOADER), *(["--library-path", str(homes[0])] if homes[0] != HOMES[0] else [])]


def run_words(file):
    """The words that run an x86-64 program here, or None."""
    before = kit_words() or machine_words()
    return before and [*before, str(file)]


def command(name="fitjob"):
    """The words that run a program: the fresh one of its crate's out/, else the released one, else what was last built there; None where there is none."""
    file = usable(name) or (place(name) if place(name).is_file() else None)
    return file and run_words(file)
