#!/usr/bin/env python3
"""agree.py WRITE_JOB RUN_JOB COUNT SEED: puts forms to the proved writer of job files, to the desk and to the job program, and
compares what they make of them.

Every form goes to the writer and to the desk's rules: both refuse it by the same number, or both make the same bytes of it, and nothing
else in the slice that is lent changes. What was written is read and written again, to the same bytes. The job program refuses none
of it; what is refused, as far as bytes can say it, it refuses by the same number. As a text, as far as one can say it, the form comes
to the same. Damaged files are put to all but `make` as well. Each bound and every two refusals are put once, and COUNT forms and half as
many files at random.

Each bound and every two refusals are also made by the desk's `make` from their texts, in a folder of their own: it leaves a file of the same
bytes, or refuses by the same number and leaves no file, or an older job file as it was.

Prints a table. Exit status 1 where one differs: the first that does is kept below target/agree/ with what each said; 2 where it could
not be run.
"""
import contextlib
import functools
import io
import itertools
import os
import random
import re
import shutil
import subprocess
import sys
import tempfile
from pathlib import Path

sys.dont_write_bytecode = True
sys.path[:0] = [str(Path(__file__).resolve().parents[2])]

import forms
from desk import circuit, filing, packed
from samples import first

SAME, DIFFERING, NOT_RUN = 0, 1, 2
BATCH = 500  # cases for one process of the writer
UNTOUCHED = b"\xa5"  # what every byte of a slice is before the call
OLDER = first().packed()  # the file that is there already
PATIENCE = 300  # seconds
NO_CASE = "streams that are no cases"
ROOM = Path(__file__).resolve().parent.parent / "target" / "agree"


def main(args):
    if len(args) != 4 or not all(re.fullmatch("[0-9]{1,18}", arg) for arg in args[2:]):
        print(__doc__, end="", file=sys.stderr)
        return NOT_RUN
    writer, runner = map(os.path.abspath, args[:2])
    shutil.rmtree(ROOM, ignore_errors=True)
    try:
        rows = compare(writer, runner, cases(random.Random(int(args[3])), int(args[2])))
        rows[NO_CASE] = streams_that_are_no_cases(writer)
    except OSError as fault:
        print(f"agree.py: {fault.filename}: {fault.strerror}", file=sys.stderr)
        return NOT_RUN
    print_table(rows)
    if not any(row.differing for row in rows.values()):
        return SAME
    print("the first that differs: target/agree/first.txt")
    return DIFFERING


class Case:
    """What is put to the writer, and what the desk says of it: the number of a refusal, or the bytes of the job."""

    def __init__(self, row, words, room, number, data):
        self.row, self.stream, self.room = row, words, room
        self.number, self.data = number, data
        self.file = data  # what is put to the job program
        self.text = None
        self.made = False  # whether the text is also made by the desk

    def answer(self):
        """What the writer is to say, and the slice as it is to stand then. That a slice is too short is looked at last."""
        number = self.number or (25 if self.room < len(self.data) else None)
        if number:
            return f"R {number}", UNTOUCHED * self.room
        return f"W {len(self.data)}", self.data + UNTOUCHED * (self.room - len(self.data))

    def run(self):
        """What the job program is to say of the file."""
        return f"R {self.number}" if self.number else "E"

    def told(self):
        """What the desk is to say of the text, where it refuses it."""
        return f"R {self.number}, with its line"

    def left(self, older):
        """What `make` is to say of the text, and the file that it is to leave where there was an older one, or none."""
        if self.number is None:
            return "saved", ("t.job", self.data)
        return (self.told(),) if older is None else (self.told(), ("t.job", older))


def cases(draw, count):
    spellings = (packed.written, forms.by_its_digits)
    for row, form, room in itertools.chain(forms.each_bound(draw), forms.each_two(draw)):
        case = of_form(f"forms: {row}", form, room, draw.choice(spellings))
        case.made = case.text is not None
        yield case
    for row, form, room in forms.some_forms(draw, count):
        yield of_form(f"forms: {row}", form, room, draw.choice(spellings))
    for row, data, room in forms.some_files(draw, count // 2):
        yield of_file(f"files: {row}", data, room)


def of_form(row, form, room, spelling):
    found = packed.refusal(form)
    fields = [0, room, form.n, form.max_steps, form.newton_maxiter, form.automatic, form.x0, form.xend, form.first_step, form.rtol, form.atol]
    stream = words(fields + [len(form.y0), len(form.a), *form.y0, *form.a])
    if not found:
        case = Case(row, stream, room, None, form.packed())
        case.text = form.text()
        return case
    case = Case(row, stream, room, found[0], None)
    case.file = forms.packing(form)
    case.text = forms.spelled(form, spelling)
    return case


def of_file(row, data, room):
    number = None
    try:
        found = packed.refusal(packed.of_bytes(data, "a file"))
        number = found and found[0]
    except packed.Wrong as wrong:
        number = wrong.number
    case = Case(row, file_stream(data, room), room, number, None if number else data)
    case.file = data
    return case


def words(numbers):
    return b"".join(number.to_bytes(8, "big") for number in numbers)


def file_stream(data, room):
    return words([1, room, len(data)]) + data


def compare(writer, runner, every):
    """The rows of the table. The first case that differs is kept."""
    rows = {}
    for batch in iter(lambda: list(itertools.islice(every, BATCH)), []):
        said = written(writer, [case.stream for case in batch], [case.room for case in batch])
        again = [case for case in batch if case.data is not None]
        back = written(writer, [file_stream(case.data, len(case.data) + 3) for case in again], [len(case.data) + 3 for case in again])
        backs = dict(zip(map(id, again), back))
        for case, answer in zip(batch, said):
            compared = said_by_each(case, answer, backs.get(id(case)), runner)
            rows.setdefault(case.row, Row()).count(case, differs(compared))
            if differs(compared):
                keep(case, compared)
    return rows


def written(writer, streams, rooms):
    """The writer's line and slice for each case; "no answer" from the first on that it did not answer."""
    if not rooms:
        return []
    output = put(writer, b"".join(streams))
    answers, at = [], 0
    for i, room in enumerate(rooms):
        line = re.compile(rb"([WR] [0-9]{1,20})\n").match(output, at)
        if not line or len(output) < line.end() + room:
            rest = output[at : at + 40]
            return answers + [(f"no answer, but {rest!r}", b"")] * (len(rooms) - i)
        at = line.end() + room
        answers.append((line[1].decode(), output[line.end() : at]))
    if output[at:]:
        answers[-1] = (f"{answers[-1][0]} and more, {output[at : at + 40]!r}", answers[-1][1])
    return answers


def put(program, data):
    """What a program prints, and then how it ended where that is not by exit status 0."""
    try:
        done = subprocess.run([program], input=data, stdout=subprocess.PIPE, timeout=PATIENCE)
    except subprocess.TimeoutExpired:
        return b"still running\n"
    if done.returncode < 0:
        return done.stdout + b"ended by a signal\n"
    return done.stdout + (b"exit status %d\n" % done.returncode if done.returncode else b"")


@functools.lru_cache(maxsize=BATCH)
def ran(runner, data):
    """The refusal that the job program printed, or E where it ran to an end; otherwise what it printed."""
    output = put(runner, data)
    if re.fullmatch(rb"R [0-9]{1,3}\n", output):
        return output[:-1].decode()
    if re.search(rb"(^|\n)E [^\n]*\n$", output) and not re.search(rb"(^|\n)R", output):
        return "E"
    return repr(output[-200:])


def said_by_each(case, said, back, runner):
    """Who, what was said, and what was expected by the desk's rules."""
    compared = [("WRITE_JOB", said, case.answer())]
    if case.data is not None:
        compared.append(("WRITE_JOB of the file", back, (f"W {len(case.data)}", case.data + 3 * UNTOUCHED)))
    if case.file is not None:
        compared.append(("RUN_JOB", ran(runner, case.file), case.run()))
    if case.text is not None:
        compared.append(("the desk of the text", of_text(case.text), case.data if case.number is None else case.told()))
    if case.made:
        compared.append(("make", made(case.text, None), case.left(None)))
        compared.append(("make over an older job file", made(case.text, OLDER), case.left(OLDER)))
    return compared


def differs(compared):
    return any(came != expected for _, came, expected in compared)


def of_text(text):
    """The bytes, or the number of the refusal and whether it is told with a line."""
    try:
        return packed.to_save(circuit.of_text(text, "t"), "t")
    except packed.Wrong as wrong:
        return told(wrong, "t")


def told(wrong, name):
    line = "with its line" if re.match(re.escape(name) + ", line [0-9]+: ", str(wrong)) else "without a line"
    return f"R {wrong.number}, {line}" if wrong.number else str(wrong)


@functools.lru_cache(maxsize=BATCH)
def made(text, older):
    """What `make` says of a text, and every file that is beside it afterwards, with its bytes."""
    with tempfile.TemporaryDirectory() as folder:
        source, to = Path(folder, "t"), Path(folder, "t.job")
        source.write_bytes(text.encode())
        if older is not None:
            to.write_bytes(older)
        try:
            with contextlib.redirect_stdout(io.StringIO()):
                filing.make(str(source), str(to))
            said = "saved"
        except packed.Wrong as wrong:
            said = told(wrong, str(source))
        return (said, *((path.name, path.read_bytes()) for path in sorted(Path(folder).iterdir()) if path != source))


def keep(case, compared):
    """The first that differs: what each said, and the files with which it can be put again."""
    if ROOM.exists():
        return
    ROOM.mkdir(parents=True)
    files = {"first.stream": case.stream, "first.job": case.file, "first-text.txt": case.text and case.text.encode()}
    files = {name: data for name, data in files.items() if data is not None}
    for name, data in files.items():
        (ROOM / name).write_bytes(data)
    lines = [f"{case.row}; beside this: {', '.join(files)}"]
    for who, came, expected in compared:
        lines += [f"{who} {'said' if came == expected else 'DIFFERS, it said'}", f"  {shown(came)}"]
        lines += [] if came == expected else ["expected was", f"  {shown(expected)}"]
    (ROOM / "first.txt").write_text("\n".join(lines) + "\n")


def shown(what):
    """In one line. The end of a slice that was left as it was is only counted."""
    if isinstance(what, tuple):
        return ", ".join(map(shown, what))
    if not isinstance(what, bytes):
        return str(what)
    touched = what.rstrip(UNTOUCHED)
    return f"{touched.hex() or 'nothing'} and {len(what) - len(touched)} times {UNTOUCHED.hex()}"


def streams_that_are_no_cases(writer):
    """Each has a good case before it, which is answered; then comes X, and nothing more. Of an empty stream nothing is printed."""
    good = words([0, 0, 33] + [0] * 10)
    head = [0, 0, 1, 1, 4, 0, 0, 0, 0, 0, 0]
    unfit = [words([2, 0]), words([forms.MOST]), words([0, 8_801] + [0] * 11), words([0, 0, 0, 0, 0, 2] + [0] * 7), words([1, 8_801, 0])]
    unfit += [words(head + [65, 0] + [0] * 65), words(head + [0, 1_101] + [0] * 1_101), words([1, 0, 8_801] + [0] * 1_101)]
    unfit += [words(head[:5]), words(head + [1, 1, 0]), words([1, 0, 9, 0]), words([1]), b"\0\0\0"]
    row = Row()
    for stream, answer in [(b"", b"")] + [(good + stream, b"R 1\nX\n") for stream in unfit]:
        compared = [("WRITE_JOB", repr(put(writer, stream)), repr(answer))]
        row.put += 1
        row.differing += differs(compared)
        if differs(compared):
            keep(Case(NO_CASE, stream, 0, None, None), compared)
    return row


class Row:
    """How many were put, how often each answer was expected, and how many differ."""

    COLUMNS = ("count", "R 1", "R 5..8", "R 17", "R 25", "written", "run", "texts", "made", "differing")

    def __init__(self):
        self.put = self.files = self.texts = self.made = self.differing = 0
        self.answers = {}

    def count(self, case, differing):
        answer = case.answer()[0]
        kind = "R 5..8" if answer in ("R 5", "R 6", "R 7", "R 8") else "written" if answer[0] == "W" else answer
        self.answers[kind] = self.answers.get(kind, 0) + 1
        self.put += 1
        self.files += case.file is not None
        self.texts += case.text is not None
        self.made += case.made
        self.differing += differing

    def fields(self):
        return [self.put, *(self.answers.get(kind, 0) for kind in self.COLUMNS[1:6]), self.files, self.texts, self.made, self.differing]


def print_table(rows):
    print(f"{'put to all':28}" + "".join(f" {head:>9}" for head in Row.COLUMNS))
    for name, row in sorted(rows.items()):
        print(f"{name:28}" + "".join(f" {count:9}" for count in row.fields()))


if __name__ == "__main__":
    sys.exit(main(sys.argv[1:]))
