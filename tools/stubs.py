"""A tree of stubs for tools/test_fit: a copy of ./fit and of what it needs, over three small crates, with a toolchain of scripts in place of the true one."""
import hashlib, os, shutil, signal, subprocess, sys, time
from pathlib import Path

ROOT = Path(__file__).resolve().parent.parent
CRATES = "base:\nother: base\nfitjob: base io\nfitmany: base io\n"
SOURCES = {"crates/base/src/lib.rt": "fn one() -> u64 { 1 }\n", "crates/base/specs/Lib.antt": "one = 1\n", "crates/fitjob/src/main.rt": "fn main() {}\n",
           "crates/fitmany/src/main.rt": "fn main() {}\n", "crates/other/src/lib.rt": "fn two() -> u64 { 2 }\n"}
BELOW = ["crates/base/specs/Lib.antt", "crates/base/src/lib.rt", "crates/fitjob/src/main.rt"]  # what fitjob is built from, by paths
TIMES = "| crate | seconds | under way | edits |\n|---|---|---|---|\n| base | 600 | 1 | |\n| fitjob | 120 | 2 | |\n| fitmany | 120 | 2 | |\n"

# What rt does here: it proves two crates and builds the true program, whatever its name; where the file hold is, it waits for the file go, beside a process of its own; where the
# file broken is, it fails.
RT = """case $1 in doc) echo {top}/kit/START-HERE.md; exit;; version) echo a stub; exit;; esac
echo $$ >> {top}/started
if [ -e {top}/hold ]; then sleep 300 & echo $! >> {top}/started; while [ ! -e {top}/go ]; do sleep 0.05; done; kill $!; fi
[ -e {top}/broken ] && echo 'rt: base is not proved' && exit 1
crate=${PWD##*/}; echo 'crate base: modules loaded=1 checked=1'; echo "crate $crate: modules loaded=1 checked=1"; mkdir -p out; cp {top}/true out/$crate
"""
# The loader keeps the job and prints the answer that is laid down for it, or runs the program where there is none; `fitmany` is the reading in Python here, which
# keeps what it was handed one behind another, and takes its time where the file slow is.
LOADER = """shift 2
case $1 in */fitmany) [ -e {top}/slow ] && sleep 1.1; tee -a {top}/handed | {python} {root}/tools/reference responses; exit;; esac
if [ -e {top}/answer ]; then cat > {top}/read; cat {top}/answer; else exec {loader} "$@"; fi
"""


class Tree:
    """The tree, below a folder; `true` is the program that is built and released here."""

    def __init__(self, folder, true, loader):
        self.top = Path(folder)
        for name in ("fit", "tools/glmm", "docs/NUMBERS.md", "examples"):
            (self.top / name).parent.mkdir(parents=True, exist_ok=True)
            (shutil.copytree if (ROOT / name).is_dir() else shutil.copy)(ROOT / name, self.top / name)
        for name, text in {**SOURCES, "crates.txt": CRATES, "docs/TIMES.md": TIMES}.items():
            self.write(name, text)
        shutil.copy(true, self.top / "true")
        self.script("bin/rt", RT)
        self.script("kit/toolchain/lib/ld-linux-x86-64.so.2", LOADER.replace("{loader}", loader).replace("{root}", str(ROOT)).replace("{python}", sys.executable))
        self.script("kit/bin/qemu-x86_64", 'exec "$@"\n')
        self.script("emulated/qemu-x86_64", ': > {top}/emulated/used\nexec "$@"\n')
        (self.top / "bare").mkdir()

    def write(self, name, text):
        (self.top / name).parent.mkdir(parents=True, exist_ok=True)
        (self.top / name).write_bytes(text.encode() if isinstance(text, str) else text)

    def script(self, name, text):
        self.write(name, "#!/bin/sh\n" + text.replace("{top}", str(self.top)))
        (self.top / name).chmod(0o755)

    def remove(self, *names):
        for name in names:
            file = self.top / name
            shutil.rmtree(file) if file.is_dir() else file.unlink(missing_ok=True)

    def release(self):
        """A release of the true program: the sums are reckoned here apart from tools/glmm/program.py."""
        self.write("release/fitjob", (self.top / "true").read_bytes())
        data = (self.top / "true").read_bytes()
        lines = "".join(f"{hashlib.sha256((self.top / name).read_bytes()).hexdigest()}  {name}\n" for name in BELOW) + "base:\nfitjob: base io\n"
        self.write("docs/RELEASE.md", "| sources | crates/ `abc`: what git prints |\n| toolchain | `a stub` (`rt version`) |\n"
                   f"| `fitjob` | {len(data):,} | `{hashlib.sha256(data).hexdigest()}` | `{hashlib.sha256(lines.encode()).hexdigest()}` |\n")

    def words(self, *words, under=()):
        return [*under, sys.executable, str(self.top / "fit"), *words]

    def ways(self, path):
        """The environment: with the stubs' rt ('bin'), with nothing ('bare'), or with an emulator alone ('emulated')."""
        return {**os.environ, "PATH": f"{self.top}/bin:/usr/bin:/bin" if path == "bin" else f"{self.top}/{path}"}

    def fit(self, *words, given=b"", path="bin", under=(), out=subprocess.PIPE):
        """Status, output and what was said of a run."""
        done = subprocess.run(self.words(*words, under=under), cwd=self.top, env=self.ways(path), input=given, stdout=out, stderr=subprocess.PIPE)
        return done.returncode, (done.stdout or b"").decode(), done.stderr.decode()

    def start(self, name, *words):
        """A run that is not waited for; what it prints and says goes into files of that name."""
        with open(self.top / f"{name}.out", "wb") as out, open(self.top / f"{name}.said", "wb") as said:
            return subprocess.Popen(self.words(*words), cwd=self.top, env=self.ways("bin"), stdin=subprocess.DEVNULL, stdout=out, stderr=said)

    def said(self, name):
        """What a run has said, once it has said something."""
        soon(lambda: (self.top / f"{name}.said").stat().st_size)
        return (self.top / f"{name}.said").read_text()

    def started(self, count):
        """The processes that rt has noted, once there are so many."""
        def noted():
            return list(map(int, (self.top / "started").read_text().split())) if (self.top / "started").is_file() else []
        soon(lambda: len(noted()) >= count)
        return noted()


def soon(test):
    """Whether a test holds, at once or within some seconds."""
    for _ in range(200):
        if test():
            return True
        time.sleep(0.05)
    return False


def ended(run):
    """The status of a run that should end now; it is ended by force where it does not."""
    try:
        return run.wait(20)
    except subprocess.TimeoutExpired:
        run.kill()
        return run.wait()


def alive(number):
    """Whether a process is there, and not only waited for."""
    try:
        return Path(f"/proc/{number}/stat").read_text().rsplit(")", 1)[1].split()[0] != "Z"
    except OSError:
        return False


def gone(numbers):
    """Whether all processes have ended, at once or soon; those that have not are ended."""
    good = soon(lambda: not any(map(alive, numbers)))
    for number in filter(alive, numbers):
        os.kill(number, signal.SIGKILL)
    return good
