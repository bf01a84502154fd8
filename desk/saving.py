"""Files are saved whole or not at all, and nothing of others is replaced.

A file is made beside its destination under another name, and renamed when all of it is on the disk. Until then an older file stays as it
was. Only a file of our own is replaced: one whose first line bears our mark and its source, and that nobody has changed since; or a job file
by a job file. A picture or sheet whose name is taken by anything else gets the next free name.
"""
import contextlib
import hashlib
import os
import secrets
import shutil

from desk.packed import Wrong, of_bytes

MARK = "made by cuzzimbra from"
MOST_NAMES = 99
LONGEST_LINE = 10_000
UTF_8, ESCAPED = "utf-8", "backslashreplace"


def save(data, path):
    """Puts a file in its place whole. Where it fails, the other file is taken away; only a process that is killed can leave it, and
    never under the name asked for.

    A link stays a link: the file that it points to is the one that is replaced. An older file's permissions stay; where there was
    none, the file has those of any new one."""
    to = os.path.realpath(path)
    before = os.path.lexists(to)
    if before:
        refuse_to_replace(to, path)
    part = os.path.join(os.path.dirname(to), f".cuzzimbra-{secrets.token_hex(8)}.part")
    file = open(part, "xb")  # never one that is already there
    try:
        with file:
            if before:
                shutil.copymode(to, part)  # while there is nothing in it to read
            file.write(data)
            file.flush()
            os.fsync(file.fileno())
        put(part, to, before)
    except BaseException:
        with contextlib.suppress(OSError):
            os.remove(part)
        raise


def put(part, to, before):
    """Where there was no file, one that came meanwhile stays: it is another's."""
    if before or not hasattr(os, "link"):
        os.replace(part, to)
        return
    try:
        os.link(part, to)
    except FileExistsError:
        raise
    except OSError:  # not every disk has links
        os.replace(part, to)
        return
    os.remove(part)


def refuse_to_replace(to, path):
    """A rename would also take the place of a device or of a file that was protected, which opening it would not."""
    if not os.path.isfile(to):
        what = "a folder" if os.path.isdir(to) else "something else than a file"
        raise Wrong(f"{path}: it was not saved: there is {what} of this name")
    if not os.access(to, os.W_OK):
        raise Wrong(f"{path}: it was not saved: the file that is there is protected from being changed")


def saved(data, path):
    """Saves, and says in a sentence what is in the way."""
    try:
        save(data, path)
    except (OSError, ValueError) as fault:
        raise Wrong(f"{path}: it was not saved: {getattr(fault, 'strerror', None) or fault}")


def save_job(data, path):
    """A job file has no room for a mark: it is replaced where it is itself a job. Of an empty file nothing is lost."""
    if os.path.isfile(path):
        try:
            with open(path, "rb") as file:
                before = file.read(10_000)  # more than any job has
            if before:
                of_bytes(before, path)
        except OSError as fault:
            raise Wrong(f"{path}: it was not saved: the file that is there cannot be read: {fault.strerror}")
        except Wrong:
            raise Wrong(f"{path}: it was not saved: the file that is there is no job file, and stays as it is")
    saved(data, path)


def marked(text, line, source, folder):
    """A text with its first line, in which our mark stands: from which source it was made, and the sum of all that follows. So a file that
    someone has changed since is not taken for ours. The source is told by where it stands as seen from the folder, and not by that path
    itself, which is nobody else's business."""
    return f"{line.format(f'{origin(source, folder)}, sum {summed(text.encode(UTF_8, ESCAPED))}')}\n{text}"


def bare(words):
    """Words that `format` leaves as they are."""
    return words.replace("{", "{{").replace("}", "}}")


def origin(source, folder):
    seen = os.path.relpath(os.path.realpath(source), os.path.realpath(folder_for(source, folder)))
    return f"{MARK} {summed(os.fsencode(seen))}"


def summed(data):
    return hashlib.sha256(data).hexdigest()[:16]


def folder_for(source, folder):
    """Beside the source, unless a folder was given; of what is no file, as a pipe, in the folder where one is."""
    if folder is not None:
        return folder
    return (os.path.dirname(source) if os.path.isfile(source) else "") or "."


def place(source, folder, ending):
    """Where a file that is made from a source is saved: under the source's name, or the next one that is free or its own."""
    stem = os.path.splitext(os.path.basename(source))[0]
    own = origin(source, folder)
    for count in range(1, MOST_NAMES + 1):
        path = os.path.join(folder_for(source, folder), stem + ("" if count == 1 else f"-{count}") + ending)
        if not os.path.lexists(path) or bears(path, own):
            return path
    raise Wrong(f"{path}: it was not saved: this name and {MOST_NAMES - 1} before it are taken by other files")


def bears(path, own):
    """Whether a file is ours, from this source, and as it was saved."""
    try:
        if not os.path.isfile(path):
            return False  # a device, or a pipe, is not even opened
        with open(path, "rb") as file:
            first = file.readline(LONGEST_LINE)
            return own.encode() in first and f", sum {summed(file.read())}".encode() in first
    except OSError:
        return False


def older(source, folder, ending):
    """What was made from a source before, where there is any: it shows another run."""
    with contextlib.suppress(Wrong):
        path = place(source, folder, ending)
        return path if os.path.lexists(path) else None
