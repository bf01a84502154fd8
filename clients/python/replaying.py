"""The solver's process, `replay`: found, started, talked to and ended. Words go in, lines come out (docs/transcript.md)."""
import contextlib
import os
import platform
import select
import shlex
import struct
import subprocess
import time
import weakref
from pathlib import Path

HOME = Path(__file__).resolve().parents[2]
BUILT = HOME / ("crates/replay/out/replay" if platform.machine() in ("x86_64", "AMD64") else "target/native-replay")
FIRST = b"3FF8000000000000\n"  # what it first answers
PATIENCE = 20  # seconds for the first answer of a program


class Broken(RuntimeError):
    """The solver's process is not there, ended before its run, or said what cannot be understood."""


def command(program=None):
    """The program as a command: what is given, what the environment's CUZZIMBRA_REPLAY names, or the one that is built."""
    given = program or os.environ.get("CUZZIMBRA_REPLAY")
    if given:
        return [str(given)] if os.path.exists(given) else words_of(str(given))
    if not os.access(BUILT, os.X_OK):
        raise Broken("the solver is not built: run ./cuzzimbra run once, which proves and builds it")
    return [str(BUILT)]


def words_of(given):
    with contextlib.suppress(ValueError):
        if given.split():
            return shlex.split(given)
    raise Broken(f"{given!r} is no command")


ALL = weakref.WeakSet()  # every Process there is


class Process:
    """Starts with the first word that is sent to it. It belongs to the Python that started it: one that is forked from that has none of it."""

    def __init__(self, program=None):
        self.words, self.process = command(program), None
        ALL.add(self)

    @property
    def pid(self):
        """The number of the process, None where there is none."""
        return self.process.pid if self.process else None

    def start(self):
        """In a session of its own, so that Ctrl-C reaches Python alone, which then ends it. Its first answer shows that it is the right
        program: an older one says nothing before the end of its input, and would be waited for without end."""
        if self.process:
            return
        pipe = subprocess.PIPE
        try:
            self.process = subprocess.Popen(self.words, stdin=pipe, stdout=pipe, start_new_session=True)
        except OSError as fault:
            raise Broken(f"the solver cannot be started: {self.words[0]}: {fault.strerror}") from None
        self.send(struct.pack(">Qd", 1, 2.25))  # kind 1, a square root
        answer, until = b"", time.monotonic() + PATIENCE
        while len(answer) < len(FIRST):
            if not select.select([self.process.stdout], [], [], max(until - time.monotonic(), 0))[0]:
                raise Broken(f"{self.words[0]} does not answer as replay does: is it one of an earlier edition?")
            more = os.read(self.process.stdout.fileno(), len(FIRST) - len(answer))
            if not more:
                raise self.ended()
            answer += more
        if answer != FIRST:
            raise Broken(f"{self.words[0]} is not the program replay: it does not know the square root of 2.25")

    def send(self, data):
        try:
            stdin = self.there().stdin
            stdin.write(data)
            stdin.flush()
        except OSError:
            raise self.ended() from None

    def there(self):
        if self.process is None:
            raise Broken("the solver was closed during its run")
        return self.process

    def line(self):
        found = self.there().stdout.readline()
        if not found.endswith(b"\n"):
            raise self.ended()
        return found

    def ended(self):
        """The error that says how the process ended by itself: where it was only on its way, it has a second."""
        with contextlib.suppress(subprocess.TimeoutExpired):
            status = self.there().wait(1)
            how = f"it was killed by signal {-status}" if status < 0 else f"its exit status is {status}"
            return Broken(f"the solver ended before its run: {how}")
        return Broken("the solver ended before its run: it closed its input or output")

    def close(self):
        """Ends the process. Nothing is lost by it: whatever it told was read."""
        process, self.process = self.process, None
        if process:
            process.kill()
            for stream in (process.stdin, process.stdout):
                with contextlib.suppress(OSError):  # words that nobody reads any more
                    stream.close()
            process.wait()

    def forget(self):
        """In a Python that was forked: the pipe is the other's, and so is the process."""
        process, self.process = self.process, None
        for stream in (process.stdin, process.stdout) if process else ():
            with contextlib.suppress(OSError):
                stream.close()
        if process:
            process.returncode = 0  # nothing here is to wait for it

    def __del__(self):
        if getattr(self, "process", None):
            self.close()


def forget_all():
    for one in list(ALL):
        one.forget()


if hasattr(os, "register_at_fork"):
    os.register_at_fork(after_in_child=forget_all)
