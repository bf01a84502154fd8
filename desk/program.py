"""The proved job program: found, built where it must be, and run.

An older program is never run, since what it prints could be read otherwise: it is proved and built anew when a crate has changed. The
variable RUN_JOB names another program in its place.
"""
import contextlib
import os
import platform
import shlex
import shutil
import subprocess
import sys
import threading
import time
from pathlib import Path

from desk.outcome import Reader
from desk.packed import Wrong, value

HOME = Path(__file__).resolve().parent.parent
NATIVE = platform.machine() in ("x86_64", "AMD64")  # rt builds for it; elsewhere the same module is compiled for the processor at hand
# run_job is the desk's; replay is what a caller's own program talks to (docs/OWN-RIGHT-SIDES.md), and is built with it.
BUILT = {name: HOME / (f"crates/{name}/out/{name}" if NATIVE else f"target/native-{name}") for name in ("run_job", "replay")}
PATIENCE = 1.0  # seconds before the first word of progress


def command():
    """The job program as a command, built first if that was not done since its crates last changed."""
    given = os.environ.get("RUN_JOB")
    if given:
        return [given] if os.path.exists(given) else words_of(given)
    if not current():
        build()
    return [str(BUILT["run_job"])]


def words_of(given):
    try:
        words = shlex.split(given)
    except ValueError:
        words = []
    if not words:
        raise Wrong(f"RUN_JOB is {given!r}, which is no command")
    return words


def current():
    """Whether both programs are newer than every file of the crates."""
    if not all(os.access(path, os.X_OK) for path in BUILT.values()):
        return False
    age = min(path.stat().st_mtime for path in BUILT.values())
    return all(path.stat().st_mtime <= age for path in sources())


def sources():
    """Every file of the crates but what was made of them."""
    for folder, below, names in os.walk(HOME / "crates"):
        below[:] = [name for name in below if name != "out"]
        yield from (Path(folder, name) for name in names)


def build():
    if shutil.which("rt") is None:
        raise Wrong("the job program is not built, and the Rattle kit's command rt, which proves and builds it, is not on the PATH")
    log, begun = HOME / "target" / "programs.log", time.time()
    print("proving the programs and what they stand on (some minutes, the first time only) ..", file=sys.stderr, flush=True)
    try:
        log.parent.mkdir(exist_ok=True)
        with open(log, "wb") as file:
            done = all(made(step, folder, file) for step, folder in steps())
    except OSError as fault:
        raise Wrong(f"the programs could not be built: {fault.filename}: {fault.strerror}")
    if not done:
        raise Wrong(f"the programs could not be proved and built; {log.relative_to(HOME)} says why")
    for path in BUILT.values():
        os.utime(path, (begun, begun))  # a file that was changed meanwhile is newer


def made(step, folder, file):
    return subprocess.run(step, cwd=folder, stdin=subprocess.DEVNULL, stdout=file, stderr=subprocess.STDOUT).returncode == 0


def steps():
    """The commands that prove and build, one after another, each with the folder that it is given in. `rt run` runs what it built, too: on
    nothing, which either program ends on."""
    for name in BUILT:
        yield ["rt", "run"], HOME / "crates" / name
    for name, path in BUILT.items() if not NATIVE else ():
        yield [str(HOME / "bench" / "native"), "program", name, str(path)], HOME


def run(words, job, doing, printed=None):
    """The outcome of a job by a command. `doing` says what is being run, for whoever waits; `printed` takes the lines, where they are wanted."""
    try:
        process = subprocess.Popen(words, stdin=subprocess.PIPE, stdout=subprocess.PIPE)
    except OSError as fault:
        raise Wrong(f"{words[0]}: {fault.strerror}")
    with process:
        try:
            with contextlib.suppress(BrokenPipeError):  # it stopped reading; what it printed says the rest
                process.stdin.write(job.packed())
                process.stdin.close()
            return listen(process, job, doing, printed)
        except BaseException:
            process.kill()
            raise


def listen(process, job, doing, printed):
    reader, believed = Reader(job), True
    with Progress(lambda: f"{doing}: {reader.count:,} steps{share(reader.x(), job)}"):
        for line in process.stdout:
            believed = believed and reader.take(line)
            if printed is not None:
                printed.append(line)
    return reader.end(process.wait())


class Progress:
    """Says on standard error of whatever takes longer than a second how far it is: on a terminal in one line that is written over,
    elsewhere ever more rarely."""

    def __init__(self, words):
        self.words, self.over, self.terminal = words, threading.Event(), sys.stderr.isatty()

    def __enter__(self):
        self.thread = threading.Thread(target=self.tell, daemon=True)
        self.thread.start()

    def tell(self):
        wait, told = PATIENCE, False
        while not self.over.wait(wait):
            line = f".. {self.words()}"
            print(f"\r{line[:78]:<78}" if self.terminal else line, end="" if self.terminal else "\n", file=sys.stderr, flush=True)
            wait, told = wait if self.terminal else 2 * wait, True
        if told and self.terminal:
            print(f"\r{'':<78}\r", end="", file=sys.stderr, flush=True)

    def __exit__(self, *_):
        self.over.set()
        self.thread.join()


def share(x, job):
    """How far x is, where that can be said."""
    x0, xend = value(job.x0), value(job.xend)
    part = (x - x0) / (xend - x0) if x is not None and xend != x0 else -1.0
    return f", {100 * part:.1f} % of the way" if 0 <= part <= 1 else ""
