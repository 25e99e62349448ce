"""Real files, pipes and devices that fail."""
import os
import subprocess
import threading

from trying import DONE, MACHINE, PATIENCE, SHELF, SINK, SNAPSHOT, SOURCE, TOP, read

DUO = "machines/duo.toml"

SCRIPT = b"job j1 t plain M-:F\nclock 6\n"


def spawned(program, machine, given, taken):
    """The status of a run on these streams."""
    words = [program.path, "run", machine]
    done = subprocess.run(words, stdin=given, stdout=taken, stderr=subprocess.DEVNULL, cwd=TOP, timeout=PATIENCE)
    return done.returncode


def to_full_disk(program):
    with open("/dev/full", "wb") as full, open(program.file("script", SCRIPT), "rb") as script:
        return spawned(program, DUO, script, full)


def to_closed_pipe(program):
    reader, writer = os.pipe()
    os.close(reader)
    try:
        with open(program.file("script", SCRIPT), "rb") as script:
            return spawned(program, DUO, script, writer)
    finally:
        os.close(writer)


def by_shell(line):
    """The status of a line of the shell, in which $0 is the printer."""

    def status(program):
        return subprocess.run(["sh", "-c", line, program.path], stderr=subprocess.DEVNULL, cwd=TOP, timeout=PATIENCE).returncode

    return status


def with_machine(path):
    return lambda program: program.run(["run", path], SCRIPT).status


def with_snapshot(path):
    return lambda program: program.run(["resume", path], SCRIPT).status


def from_fifo(program):
    path = os.path.join(program.folder, "fifo")
    os.mkfifo(path)

    def feed():
        with open(path, "wb") as fifo:
            fifo.write(read(DUO))

    writer = threading.Thread(target=feed)
    writer.start()
    status = program.run(["run", path], SCRIPT).status
    writer.join()
    return status


def from_shrinking_file(program):
    """A machine text of a megabyte loses its second half while it is read."""
    text = read(DUO)
    path = program.file("shrinking", b"#\n" * ((1_000_000 - len(text)) // 2) + text)
    cutter = threading.Timer(0.002, os.truncate, (path, 500_000))
    cutter.start()
    status = program.run(["run", path], SCRIPT).status
    cutter.join()
    return status


ROWS = [
    ("a disk that is full", to_full_disk, {SINK}),
    ("a pipe that is closed", to_closed_pipe, {SINK}),
    ("no output", by_shell(f'exec "$0" run {DUO} <scripts/duo.txt >&-'), {SINK}),
    # The machine text may take the number of the input, and is at its end then: as good as an empty script.
    ("no input", by_shell(f'exec "$0" run {DUO} <&- >/dev/null'), {DONE, SOURCE}),
    ("a folder for input", by_shell(f'exec "$0" run {DUO} </ >/dev/null'), {SOURCE}),
    ("a folder for a machine text", with_machine("machines"), {SHELF}),
    ("a name that is no file's", with_machine("machines/none.toml"), {SHELF}),
    ("a device for a machine text", with_machine("/dev/null"), {MACHINE}),
    ("a folder for a snapshot", with_snapshot("machines"), {SHELF}),
    ("a name that is no snapshot's", with_snapshot("machines/none.json"), {SHELF}),
    ("a machine text for a snapshot", with_snapshot(DUO), {SNAPSHOT}),
    ("a device for a snapshot", with_snapshot("/dev/null"), {SNAPSHOT}),
    ("a folder for a log", by_shell(f'exec "$0" check {DUO} </ >/dev/null'), {SOURCE}),
    ("a pipe for a machine text", from_fifo, {DONE}),
]


def outside(program, count):
    wrongs = []
    for name, status, wanted in ROWS:
        told = status(program)
        if told not in wanted:
            wrongs.append(f"{name}: status {told}")
    for _ in range(100):
        told = from_shrinking_file(program)
        if told not in {DONE, MACHINE, SHELF}:
            wrongs.append(f"a file that shrinks: status {told}")
    count.tell("files, pipes and devices", wrongs, len(ROWS) + 100)
