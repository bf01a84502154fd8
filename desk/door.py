"""The one door: `cuzzimbra run|check|show|make|read FILE ..`."""
import argparse
import math
import os
import sys

from desk import filing, program, running, verdict
from desk.packed import Wrong
from desk.verdict import MISTAKE, REFUSED, SETTLED, STATUS, UNFINISHED, USUAL
from desk.words import plain

HELP = """\
Runs circuits that are written as text, by a solver that is proved, and never lets an unfinished run look finished.

  cuzzimbra run                    the diode ladder of the examples, and the same ladder with too few steps
  cuzzimbra run my-circuit.txt     runs a circuit twice, says how it ended and whether it is settled, and draws it
  cuzzimbra check my-circuit.txt   reads it and says what is wrong with it, by its line; nothing is run
  cuzzimbra make a.txt a.job       packs it into a job file
  cuzzimbra show a.job             shows a job file as text
  cuzzimbra read a.lines a.txt     reads lines that the job program printed earlier

How to write a circuit: README.md. What the words mean: docs/FOR-EDITORS.md.
Each command has its own help: cuzzimbra run --help
"""
STATUSES = """\
Exit status: 0 if every file ended in Success and is settled ({}: ended in Success), 3 if one is unfinished, overflowed or not
settled, 4 if one is refused, 2 for a mistake in what was given or a file that could not be saved. All files are run; of several the worst
decides: 2, then 4, then 3. The last line sums up file by file.
"""
RUN_HELP = """\
Runs each circuit, and then a second time at tolerances 100 times finer. The first line says how it ended:

  Success, and settled     the end was reached, and in the second run nothing moved by more than 1 in 100 of its size
  Success, NOT SETTLED     the end was reached, but the values are not to be trusted: ask for more exactness (smaller rtol or atol)
  Success, unchecked       the end was reached; with --once there is no second run
  Success, but OVERFLOWED  a value became infinite on the way: do not use it
  .. UNFINISHED ..         the end was NOT reached; the last value is not the end's
  REFUSED by number ..     nothing was computed

Below it stands by how much each component moved, at the end and at most between, as a part of its size (its largest value, or its swing
where that is smaller) and in units of the tolerance that was asked; then some rows of the run and its counters. The picture is saved beside
the circuit: a.txt makes a.svg. Nothing that is not of our own making is replaced: if there is another a.svg, it is a-2.svg. Without a file
it runs two examples, one of which stops early on purpose.
"""
READ_HELP = """\
Reads lines that the job program printed earlier for a circuit, and says of them what `run` says. They are held against the whole job: where
it begins, its limits, its counters, and then every line against what the program prints for it now. Lines that are cut off, thinned out or
another job's never look finished. With --alone they are held against the job's beginning, limits and counters only: lines of the same job with
another A would pass, and are called unchecked.
"""
CHECK_HELP = """\
Reads circuits or job files and says what is wrong, with the line, or that they can be run. Nothing is run and nothing is saved.
"""
SHOW_HELP = """\
Shows a job file as text. Packed again by `make` it is the same file, byte for byte.
"""
MAKE_HELP = """\
Packs a circuit, or a job file anew, into a job file: whole or not at all. What would be refused is not saved, and a file that is there is only
replaced if it is a job file itself, or empty.
"""


def main(args):
    try:
        if args[:1] in (["--help"], ["-h"], ["help"]):
            print(HELP, end="", flush=True)
            return 0
        commands = doors()
        if not args or args[0] not in commands:
            what = f"'{plain(args[0])}' is no command\n\n" if args else ""
            print(f"{what}{HELP}", end="", file=sys.stderr)
            return STATUS[MISTAKE]
        asked = commands[args[0]].parse_intermixed_args(args[1:])
        status = asked.act(asked)
        sys.stdout.flush()
        return status
    except Wrong as wrong:
        return tell(wrong)
    except OSError as fault:
        return unheard(fault)
    except KeyboardInterrupt:
        print("\nstopped; what was not said to be saved is not saved", file=sys.stderr)
        return 130


def unheard(fault):
    """Of what is read and saved every fault is told where it happens: this is one of standard output."""
    if not isinstance(fault, BrokenPipeError):  # whoever read it has stopped reading, and knows
        print(f"standard output cannot be written: {fault.strerror}", file=sys.stderr)
    os.dup2(os.open(os.devnull, os.O_WRONLY), sys.stdout.fileno())  # for what is still to be written at the exit
    return STATUS[MISTAKE]


def doors():
    """A parser for each command."""
    run = door("run", "[FILE ..] [--once] [--within PART] [--csv] [--log AXES] [--out FOLDER]", RUN_HELP, STATUSES.format("with --once"), run_all)
    run.add_argument("files", nargs="*", metavar="FILE", help="a circuit as text, or a job file (its name ends in .job)")
    run.add_argument("--once", action="store_true", help="leave the second run out; the first line then says 'unchecked'")
    how_to_judge_and_save(run)
    read = door("read", "LINES FILE [--alone] [--within PART] [--csv] [--log AXES] [--out FOLDER]", READ_HELP, STATUSES.format("with --alone"), read_one)
    read.add_argument("lines", metavar="LINES", help="what the job program printed")
    read.add_argument("file", metavar="FILE", help="the circuit or job file that it was printed for")
    read.add_argument("--alone", action="store_true", help="run nothing: hold the lines against the job alone; the first line then says 'unchecked'")
    how_to_judge_and_save(read)
    check = door("check", "FILE ..", CHECK_HELP, "Exit status: 0 if all can be run, 4 refused, 2 a mistake.\n", check_all)
    check.add_argument("files", nargs="+", metavar="FILE", help="a circuit as text, or a job file (its name ends in .job)")
    show = door("show", "FILE ..", SHOW_HELP, "Exit status: 0, 4 for a job file that is damaged, 2 for a mistake.\n", show_all)
    show.add_argument("files", nargs="+", metavar="FILE", help="a job file (its name ends in .job), or a circuit as text")
    make = door("make", "FILE JOB", MAKE_HELP, "Exit status: 0 if it was saved, 4 refused, 2 a mistake.\n", make_one)
    make.add_argument("file", metavar="FILE", help="a circuit as text, or a job file")
    make.add_argument("job", metavar="JOB", help="the job file to save; its name ends in .job")
    return {"run": run, "check": check, "show": show, "make": make, "read": read}


def door(name, usage, words, after, act):
    plainly = argparse.RawDescriptionHelpFormatter
    parser = argparse.ArgumentParser(f"cuzzimbra {name}", f"cuzzimbra {name} {usage}", words, after, formatter_class=plainly, allow_abbrev=False)
    parser.set_defaults(act=act)
    return parser


def how_to_judge_and_save(parser):
    within = "settled means: nothing moves by more than this part of its size; 0.01 unless given, 0.1 at most"
    parser.add_argument("--within", type=part, default=USUAL, metavar="PART", help=within)
    parser.add_argument("--csv", action="store_true", help="also save every step as numbers, beside the picture: a.csv")
    parser.add_argument("--log", choices=("x", "y", "xy", "never"), help="logarithmic axes in the picture; without it only where a linear one shows nothing")
    parser.add_argument("--out", metavar="FOLDER", help="save the picture and the numbers there; it is made if it is not there")


def part(text):
    """So that nobody who means 1 in 100 writes 1, and anything is settled."""
    try:
        x = float(text)
    except ValueError:
        x = math.nan
    if not 0 < x <= 0.1:
        raise argparse.ArgumentTypeError(f"{text}: write a part above 0 and at most 0.1, such as 0.01 for 1 in 100")
    return x


def made_folder(path):
    if os.path.exists(path) and not os.path.isdir(path):
        raise Wrong(f"{path}: this is no folder")
    try:
        os.makedirs(path, exist_ok=True)
    except (OSError, ValueError) as fault:
        raise Wrong(f"'{path}': this folder could not be made: {getattr(fault, 'strerror', None) or fault}")
    return path


def options(asked):
    if asked.out is not None:
        made_folder(asked.out)
    log = None if asked.log is None else set() if asked.log == "never" else set(asked.log)
    return running.Options(asked.within, getattr(asked, "once", False), asked.csv, asked.out, log)


def run_all(asked):
    how = options(asked)
    if not asked.files:
        return demonstration(how)
    program.command()  # built before the first file is named
    found = [(path, one(path, how, len(asked.files) > 1)) for path in asked.files]
    return sum_up([(path, one_found.kind, one_found.in_short) for path, one_found in found])


def one(path, how, named=True):
    """The verdict on a file; a mistake in it does not stop the others. Where there are several, its name stands above."""
    if named:
        print(f"== {plain(path)}", flush=True)
    try:
        found = running.run(path, how)
    except Wrong as wrong:
        tell(wrong)
        running.name_older(path, how.out, ".svg", "picture")
        running.name_older(path, how.out, ".csv", "sheet")
        found = verdict.Verdict(MISTAKE if wrong.number is None else REFUSED, str(wrong))
    print(flush=True)
    return found


def demonstration(how):
    """The ladder that reaches its end, and the one that is meant to stop: that it does is no failure of this command."""
    ends, stops = (os.path.relpath(program.HOME / "examples" / name) for name in ("diode-ladder.txt", "diode-ladder-stops.txt"))
    if how.out is None:
        how.out = made_folder(os.path.relpath(program.HOME / "target" / "pictures"))
    program.command()
    first = one(ends, how)
    print("The next has too few steps on purpose, to show what an unfinished run looks like.", flush=True)
    second = one(stops, how)
    kind = SETTLED if second.kind == UNFINISHED else MISTAKE
    words = "UNFINISHED, as it is meant to be" if kind == SETTLED else f"{second.in_short}, and it should have been UNFINISHED"
    return sum_up([(ends, first.kind, first.in_short), (stops, kind, words)])


def sum_up(found):
    """One line for all files, and the worst exit status."""
    print("In all: " + "; ".join(f"{plain(path)}: {words}" for path, _, words in found), flush=True)
    return STATUS[max((kind for _, kind, _ in found), key=list(STATUS).index)]


def read_one(asked):
    how = options(asked)
    found = running.read(asked.lines, asked.file, how, asked.alone)
    print(flush=True)
    return sum_up([(asked.lines, found.kind, found.in_short)])


def for_each(files, act):
    """The worst of all."""
    worst = 0
    for path in files:
        try:
            act(path)
        except Wrong as wrong:
            worst = max(worst, tell(wrong), key=[0, STATUS[REFUSED], STATUS[MISTAKE]].index)
    return worst


def check_all(asked):
    return for_each(asked.files, filing.check)


def show_all(asked):
    return for_each(asked.files, filing.show)


def make_one(asked):
    filing.make(asked.file, asked.job)
    return 0


def tell(wrong):
    """Says what is wrong. A refusal by number is told apart from a mistake."""
    sys.stdout.flush()
    print(plain(str(wrong)), file=sys.stderr, flush=True)
    return STATUS[MISTAKE if wrong.number is None else REFUSED]
