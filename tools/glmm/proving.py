"""`fitjob` or `fitmany` proved and built by the Rattle toolchain (rt): one run at a time, with the time to be expected, how far it is, and nothing left behind when it is ended."""
import collections, contextlib, fcntl, os, re, shutil, signal, subprocess, sys, time
import program

TIMES = program.ROOT / "docs" / "TIMES.md"
ENDINGS = [signal.SIGINT, signal.SIGTERM, signal.SIGHUP]
UNKNOWN = 15  # seconds of a crate that docs/TIMES.md does not name
SURE = 60  # seconds of expected work that must be done before its pace is believed


class Failed(Exception):
    """Why there is no program to be run."""


def say(text, over=False):
    """A line on standard error; on a terminal the next one is written over it, if so wished."""
    over = over and sys.stderr.isatty()
    print(f"\r\033[Kfit: {text}" if sys.stderr.isatty() else f"fit: {text}", file=sys.stderr, end="" if over else "\n", flush=True)


def about(seconds):
    return "about a minute" if seconds < 90 else f"about {round(seconds / 60)} minutes"


def expected():
    """Seconds of each crate, about: those of docs/TIMES.md, shared out among the checks that were under way."""
    rows = re.findall(r"(?m)^\| (\w+) \| (\d+) \| (\d+) \|", TIMES.read_text() if TIMES.is_file() else "")
    return {name: int(seconds) / max(int(beside), 1) for name, seconds, beside in rows}


def stamp_of(crate):
    """What rt leaves of a crate that is proved: of a library its stamp, of a program the program itself."""
    folder = program.ROOT / "crates" / crate
    return program.place(crate) if (folder / "src" / "main.rt").is_file() else folder / "out" / "rlib" / "stamp"


def changed(crate):
    """Whether a crate is not proved yet, or has a source that is newer than its proof."""
    stamp = stamp_of(crate)
    return not stamp.is_file() or any((program.ROOT / file).stat().st_mtime > stamp.stat().st_mtime for file in program.files(crate))


def unproved(crates):
    """Those of the crates that rt will prove, as far as can be seen without it: what has changed, and all that stands on it."""
    below, found = program.listed(), set()
    for crate in crates:
        if changed(crate) or found.intersection(below[crate]):
            found.add(crate)
    return found


class Progress:
    """The crates that are left, and what is told of them."""

    def __init__(self, name):
        crates, seconds = program.crates(name), expected()
        new = unproved(crates)
        self.total, self.began, self.done = len(crates), time.monotonic(), 0
        self.left = [crate for crate in crates if crate in new]
        self.work = {crate: seconds.get(crate, UNKNOWN) for crate in self.left}  # the seconds of what is to be proved

    def rest(self):
        """The seconds that are left, at the pace so far where enough is done to know it."""
        rest, gone = sum(self.work.values()), time.monotonic() - self.began
        return rest * gone / self.done if self.done >= SURE else rest

    def take(self, line):
        """What a line of rt says of the work."""
        crate = program.proved_in(line)
        if crate not in self.left:
            return
        self.left.remove(crate)
        self.done += self.work.pop(crate)
        then = f"; next {self.left[0]}, {about(self.rest())} left" if self.left else ""
        say(f"{self.total - len(self.left)} of {self.total} proved: {crate}{then}", over=bool(self.left))

    def close(self):
        """What comes next stands in a line of its own."""
        if self.left and sys.stderr.isatty():
            print(file=sys.stderr)


def end_quietly():
    """A signal that ends the run does so without a word; what was started is ended on the way out. A signal that is ignored stays so."""
    for number in ENDINGS:
        if signal.getsignal(number) != signal.SIG_IGN:
            signal.signal(number, lambda number, _: sys.exit(128 + number))


def end_group(leader):
    """Ends a process and all of its group, by force where asking does not help."""
    for number in ENDINGS:
        signal.signal(number, signal.SIG_IGN)
    for number in (signal.SIGTERM, signal.SIGKILL):
        with contextlib.suppress(ProcessLookupError):
            os.killpg(leader.pid, number)
        with contextlib.suppress(subprocess.TimeoutExpired):
            leader.wait(3)


@contextlib.contextmanager
def running(words, folder):
    """A command in a session of its own, of which nothing is left where this run ends before it. A signal that comes while it starts is kept until it can be ended."""
    kept = []
    before = {number: signal.signal(number, lambda number, _: kept.append(number)) for number in ENDINGS if callable(signal.getsignal(number))}
    with subprocess.Popen(words, cwd=folder, stdin=subprocess.DEVNULL, stdout=subprocess.PIPE, stderr=subprocess.STDOUT, text=True, start_new_session=True) as work:
        try:
            for number, handler in before.items():
                signal.signal(number, handler)
            for number in kept:
                before[number](number, None)
            yield work
        except BaseException:
            end_group(work)
            raise


@contextlib.contextmanager
def alone():
    """One run builds at a time; another waits."""
    program.MADE.mkdir(exist_ok=True)
    with open(program.MADE / "fit.lock", "w") as lock:
        try:
            fcntl.flock(lock, fcntl.LOCK_EX | fcntl.LOCK_NB)
        except BlockingIOError:
            say("another ./fit is building; waiting")
            fcntl.flock(lock, fcntl.LOCK_EX)
        yield


def prove(name, cause):
    """A program proved and built, telling how far it is."""
    if not shutil.which("rt"):
        raise Failed(f"{cause}, and the Rattle toolchain (rt), which proves and builds {name}, is missing")
    made, progress, last = program.sources(name), Progress(name), collections.deque(maxlen=12)
    say(f"{cause}: proving and building {name} and what it stands on, {progress.total} crates, {len(progress.work)} of them new: "
        f"{about(progress.rest())} on two free cores")
    try:
        with running(program.building(name), program.ROOT / "crates" / name) as work:
            for line in work.stdout:
                last.append(line)
                progress.take(line)
    finally:
        progress.close()
    if work.returncode != 0 or not program.place(name).is_file():
        raise Failed(f"{name} could not be proved and built; rt said last:\n" + "".join(last).rstrip())
    program.settled(made, name)


def ready(name="fitjob"):
    """The program that is to be run; it is proved and built first where there is none of the sources as they are."""
    found = program.usable(name)
    if not found:
        with alone():
            if not program.fresh(name):
                prove(name, program.release_fault(name))
    return found or program.place(name)


def differs(name):
    """What the page and this toolchain say of each other, where the bytes are not the release's."""
    here = subprocess.run(["rt", "version"], capture_output=True, text=True).stdout.strip()
    return f"crates/{name}/out/{name} has other bytes than the release, from the same sources; docs/RELEASE.md was made with {program.page_says('toolchain')}, here is {here}"


def compared(name="fitjob"):
    """Proves and builds, and says whether the bytes are those of release/; whether there is nothing amiss."""
    with alone():
        prove(name, "as asked")
    _, sha, made = program.page_rows().get(name, (0, "", ""))
    found, fault, same = program.sha256(program.place(name)), program.release_fault(name), made == program.sources(name)
    if found == sha and not fault:
        say(f"proved; crates/{name}/out/{name} and release/{name} have the same bytes, sha256 {sha}")
    elif not same:
        say(f"proved and built, sha256 {found}; not compared with the release: {fault}")
    elif found == sha:
        say(f"proved; crates/{name}/out/{name} has the sha256 of docs/RELEASE.md, {sha}, but {fault}")
    else:
        say(differs(name))
    return not same or found == sha and not fault
