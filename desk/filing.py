"""`check`, `show` and `make`: circuits are read, shown and packed, and nothing is run."""
from desk import causes, circuit, saving
from desk.packed import Wrong, to_save, value
from desk.words import plain


def check(path):
    """Says what a file holds; what is wrong is raised with its line. A packed job is held to the writer's rules as well."""
    job = circuit.of_file(path)
    to_save(job, path)
    plural = "" if job.n == 1 else "s"
    print(f"{plain(path)}: {job.n} component{plural}, x from {value(job.x0)!r} to {value(job.xend)!r}: it can be run")
    for cause in causes.unusual(job):
        print(f"{plain(path)}: but {cause}")


def show(path):
    print("\n".join(map(plain, circuit.of_file(path).text().split("\n"))), end="")


def make(source, to):
    """Packs a text, or a job file anew."""
    if not circuit.is_job(to):
        raise Wrong(f"{to}: a job file's name ends in .job")
    data = to_save(circuit.of_file(source), source)
    saving.save_job(data, to)
    print(f"{plain(to)}: {len(data)} bytes")
