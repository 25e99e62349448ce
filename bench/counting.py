"""What a run takes, as far as other load on the machine does not change it: instructions, by callgrind of valgrind, and processor time."""
import re
import shutil
import subprocess


def has_valgrind():
    return shutil.which("valgrind") is not None


def count_instructions(words, script):
    """The instructions of a run of these words on a script of bytes."""
    words = ["valgrind", "--tool=callgrind", "--callgrind-out-file=/dev/null", *words]
    run = subprocess.run(words, input=script, stdout=subprocess.DEVNULL, stderr=subprocess.PIPE)
    found = re.search(rb"refs: *([0-9,]+)", run.stderr)
    if run.returncode or not found:
        raise RuntimeError(f"{' '.join(words)}: status {run.returncode}: {run.stderr.decode(errors='replace')[-300:]}")
    return int(found[1].replace(b",", b""))


def processor_seconds(pid):
    """The seconds for which a process has run on a processor."""
    with open(f"/proc/{pid}/schedstat", encoding="utf-8") as file:
        return int(file.read().split()[0]) / 1e9
