"""The set of asks: a list, and an archive with the files of each ask."""
import csv
import io
import os
import tarfile
from typing import NamedTuple

HERE = os.path.dirname(os.path.abspath(__file__))
LIST = os.path.join(HERE, "set", "list.csv")
ARCHIVE = os.path.join(HERE, "set", "asks.tar.xz")
FILES = ("machine.toml", "script.txt", "snapshot.json", "answer.txt")


class SetFault(Exception):
    """The set is not there or is damaged, or has no ask of this name."""


class Ask(NamedTuple):
    """An ask of the set.

    The answer is `end T`, `none` or `open A B`. `files` has the texts of FILES; `answer.txt` has the records of the plan that
    ends at T or B, or of the none.
    """

    name: str
    family: str
    size: int
    seed: int
    live: int
    answer: str
    budget: int
    tree_lines: int
    seconds: float
    files: dict

    def machine(self):
        return self.files["machine.toml"]

    def script(self):
        return self.files["script.txt"]

    def snapshot(self):
        return self.files["snapshot.json"]

    def script_before(self):
        """The script without the ask."""
        return "".join(self.script().splitlines(keepends=True)[:-1])

    def line(self):
        """The line of the ask."""
        return self.script().splitlines()[-1]

    def ticks(self):
        """The numbers of the answer."""
        return [int(word) for word in self.answer.split(" ")[1:]]


def name_of(family, size, seed):
    return f"{family}-{size}-{seed}"


def read_set():
    """All asks of the set, by families and sizes."""
    try:
        files = read_archive()
        with open(LIST, encoding="utf-8", newline="") as file:
            rows = list(csv.DictReader(file))
        return [ask_of(row, files[row["ask"]]) for row in rows]
    except (OSError, KeyError, ValueError, tarfile.TarError) as fault:
        raise SetFault(f"the set cannot be read: {fault}") from fault


def ask_of(row, files):
    name = row["ask"]
    family, size, seed = name.split("-")
    return Ask(name, family, int(size), int(seed), int(row["live"]), row["answer"], int(row["budget"]),
               int(row["tree_lines"]), float(row["seconds"]), files)


def find(name):
    """The ask of this name."""
    return find_all([name])[0]


def find_all(names):
    """The asks of these names, or all asks if there are none."""
    asks = {ask.name: ask for ask in read_set()}
    for name in names:
        if name not in asks:
            raise SetFault(f"the set has no ask {name}")
    return [asks[name] for name in names] if names else list(asks.values())


def read_archive():
    """The files of each ask by its name."""
    found = {}
    with tarfile.open(ARCHIVE, "r:xz") as archive:
        for member in archive:
            name, _, file = member.name.partition("/")
            found.setdefault(name, {})[file] = archive.extractfile(member).read().decode("utf-8")
    return found


def write_set(asks):
    """Writes the list and the archive."""
    os.makedirs(os.path.dirname(LIST), exist_ok=True)
    with open(LIST, "w", encoding="utf-8", newline="") as file:
        rows = csv.writer(file, lineterminator="\n")
        rows.writerow(["ask", "live", "answer", "budget", "tree_lines", "seconds"])
        for ask in asks:
            rows.writerow([ask.name, ask.live, ask.answer, ask.budget, ask.tree_lines, f"{ask.seconds:.2f}"])
    with tarfile.open(ARCHIVE, "w:xz", preset=9, format=tarfile.USTAR_FORMAT) as archive:
        for file in FILES:
            for ask in asks:
                add_member(archive, f"{ask.name}/{file}", ask.files[file].encode("utf-8"))


def add_member(archive, name, data):
    """Adds a file without a time or an owner, so that equal sets have equal bytes."""
    member = tarfile.TarInfo(name)
    member.size = len(data)
    archive.addfile(member, io.BytesIO(data))
