"""`run` and `read`: a circuit is run, and run again at finer tolerances; what may be said of it is printed first, then a table; its picture and
sheet are saved."""
import itertools
import math
import os
import stat
import sys

from desk import causes, circuit, outcome, picture, program, saving, settled, sheet, table, verdict
from desk.packed import Wrong, bits_of
from desk.words import plain

COLOURS = {verdict.SETTLED: 32, verdict.NOT_SETTLED: 33, verdict.OVERFLOWED: 31, verdict.UNFINISHED: 31, verdict.REFUSED: 31}


class Options:
    """What `run` and `read` were asked: the part by which anything may move, whether there is a second run, and what is saved where."""

    def __init__(self, within=verdict.USUAL, once=False, csv=False, out=None, log=None):
        self.within, self.once, self.csv, self.out, self.log = within, once, csv, out, log


def run(path, options):
    """The verdict on a file, when all of it was said and saved."""
    job = circuit.of_file(path)
    words = program.command()
    came = program.run(words, job, plain(path))
    return report(path, came, judged(came, words, options), options, words)


def read(lines, path, options, alone):
    """The same for lines that the job program printed earlier. They are held against the job, and then against what the program prints for
    it now; alone, against the job only."""
    job = circuit.of_file(path)
    given = lines_of(lines)
    came = outcome.read(job, given)
    if alone:
        found = verdict.of_run(came) or verdict.unchecked("the lines were read alone, and not held against what the program prints")
        return report(lines, came, found, options)
    words, printed = program.command(), []
    program.run(words, job, plain(path), printed)
    if came.fault is None and given != printed:
        came.fault = f"{first_difference(given, printed)} is not what the program prints for this job: another job's lines, or another edition's"
    return report(lines, came, judged(came, words, options), options, words)


def lines_of(path):
    try:
        if stat.S_ISCHR(os.stat(path).st_mode):
            raise Wrong(f"{path}: this is a device, and has no end")
        with open(path, "rb") as file:
            return list(file)
    except (OSError, ValueError) as fault:
        raise Wrong(f"{path}: {getattr(fault, 'strerror', None) or fault}")


def first_difference(given, printed):
    for count, (one, other) in enumerate(zip(given, printed), 1):
        if one != other:
            return f"line {count}"
    return f"line {min(len(given), len(printed)) + 1}"


def judged(came, words, options):
    """By a second run, where the first one by itself leaves that open."""
    found = verdict.of_run(came)
    if found:
        return found
    if options.once:
        return verdict.unchecked("--once")
    why = "its tolerances have none to be compared with (rtol must be below 1, and both finite and not 0)"
    for second in settled.seconds(came):
        other = program.run(words, second.job, f"the second run, at tolerances {second.words}")
        if verdict.of_run(other) is None or short_by_a_hair(other):
            with program.Progress(lambda: "comparing the two runs"):
                return verdict.of_two(settled.moved(came, other), second, options.within, settled.growing(came))
        why = f"at tolerances {second.words} the second run has no end to compare with ({verdict.of_run(other).line})"
    return verdict.cannot_be_checked(why)


def short_by_a_hair(other):
    """A second run that rounding stopped a hair short of xend serves as well as one that reached it."""
    stopped = other.fault is None and other.ended is not None and other.ended[0] == "3" and causes.is_hair(other)
    return stopped and all(map(math.isfinite, itertools.chain(*other.ys)))


def ends_at(came, words):
    """Whether the job of a run, with another xend, ends in Success."""
    return lambda xend: program.run(words, came.job.but(xend=bits_of(xend)), "another xend").finished


def report(path, came, found, options, words=None):
    """Says what may be said before anything else. What cannot be saved is a mistake, whatever the run came to."""
    lines = [coloured(plain(found.line), found.kind), *verdict.table(found.moved)]
    if found.kind == verdict.UNFINISHED:
        lines += causes.why_unfinished(came, ends_at(came, words) if words else lambda xend: False)
    elif found.kind != verdict.REFUSED:
        lines += [f"Note: {cause}." for cause in causes.unusual(came.job)]
    lines += [plain(came.title), *table.table(came)]
    print("\n".join(lines), flush=True)
    came.source = os.path.basename(path)
    svg = saving.marked(picture.draw(came, found, options.log), "<!-- {} -->", path, options.out)
    faults = [save(path, options.out, ".svg", svg, "picture")]
    if options.csv:
        numbers = saving.marked(sheet.sheet(came), f"# {saving.bare(plain(found.line))} ({{}})", path, options.out)
        faults.append(save(path, options.out, ".csv", numbers, "sheet"))
    else:
        name_older(path, options.out, ".csv", "sheet")
    fault = next(filter(None, faults), None)
    return verdict.not_saved(found, fault) if fault else found


def name_older(path, folder, ending, what):
    """What stands there from an earlier run could be taken for this one's."""
    older = saving.older(path, folder, ending)
    if older:
        print(f"(the {what} {plain(older)} is of an earlier run)", flush=True)


def save(path, folder, ending, text, what):
    """What is in the way, in a sentence that was also said; None where it was saved."""
    try:
        to = saving.place(path, folder, ending)
        saving.saved(text.encode(saving.UTF_8, saving.ESCAPED), to)
        print(f"{what}: {plain(to)}", flush=True)
        return None
    except Wrong as wrong:
        print(f"{plain(str(wrong))} (--out FOLDER saves it elsewhere)", file=sys.stderr, flush=True)
        return str(wrong)


def coloured(line, kind):
    """Green, amber or red on a terminal, unless that is not wanted (the custom of NO_COLOR)."""
    if kind not in COLOURS or not sys.stdout.isatty() or os.environ.get("NO_COLOR"):
        return line
    return f"\x1b[1;{COLOURS[kind]}m{line}\x1b[0m"
