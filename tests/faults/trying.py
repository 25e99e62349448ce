"""A program that is tried, what a run of it gave, and the count of what went wrong."""
import os
import subprocess
from concurrent.futures import ThreadPoolExecutor
from dataclasses import dataclass

TOP = os.path.dirname(os.path.dirname(os.path.dirname(os.path.abspath(__file__))))

# Longer than any run of a small text takes, in seconds.
PATIENCE = 60

DONE, MEMORY, MACHINE, SHELF, SOURCE, SINK, TOO_LONG, REJECTED, SNAPSHOT, RACK, FARM = 0, 1, 3, 4, 5, 6, 7, 8, 9, 10, 11


def at_top(name):
    """The path of a file of the repository."""
    return os.path.join(TOP, name)


def read(name):
    """The bytes of a file of the repository."""
    with open(at_top(name), "rb") as file:
        return file.read()


@dataclass
class Run:
    """How a run ended, and the texts of its two outputs. The status is below 0 if a signal ended it, and None if it took too long."""

    status: int | None
    log: bytes
    said: bytes = b""


class Program:
    """The printer, and a folder for what is made while it is tried."""

    def __init__(self, path, folder):
        self.path, self.folder = path, folder

    def file(self, name, content):
        """The path of a new file of the folder."""
        path = os.path.join(self.folder, name)
        with open(path, "wb") as file:
            file.write(content)
        return path

    def run(self, words, script=b"", env=None):
        """One run, in the top folder of the repository, so that words name its files."""
        try:
            done = subprocess.run(
                [self.path, *words],
                input=script,
                stdout=subprocess.PIPE,
                stderr=subprocess.PIPE,
                env={**os.environ, **(env or {})},
                cwd=TOP,
                timeout=PATIENCE,
            )
        except subprocess.TimeoutExpired as late:
            return Run(None, late.stdout or b"", late.stderr or b"")
        return Run(done.returncode, done.stdout, done.stderr)

    def log_of(self, machine, script):
        """The log with bounds of a script."""
        return self.run(["run", "--bounds", machine], script).log

    def snapshot_of(self, machine, script):
        """The snapshot that a saved script ends with."""
        last = self.run(["save", machine], script).log.splitlines()[-1]
        return last.removeprefix(b"= ")


class Count:
    """How much was tried, and how much of it went wrong."""

    def __init__(self):
        self.tried, self.failed = 0, 0

    def tell(self, what, wrongs, tried):
        """Counts these, and prints a line of them, and the first few that went wrong."""
        self.tried += tried
        self.failed += len(wrongs)
        print(f"{what}: {tried} tried, {len(wrongs)} failed", flush=True)
        for wrong in wrongs[:5]:
            print(f"    {wrong}", flush=True)


def side_by_side(work, items):
    """What `work` returns for each item, on all processors, without the Nones, by which it says that all is right."""
    with ThreadPoolExecutor(os.cpu_count()) as pool:
        return [wrong for wrong in pool.map(work, items) if wrong is not None]
