#!/usr/bin/env python3
"""usage: examples/online.py PROGRAM MACHINE < SCRIPT

Drives a printer on line, over pipes: sends one event, reads its whole answer, and only then sends the next. Prints each event with the
number of its records and the milliseconds that the answer took."""

import subprocess
import sys
import time


class Printer:
    """A running `printer run OPTIONS MACHINE`. A line that is no event marks where an answer ends: it changes nothing."""

    MARK = "?"

    def __init__(self, program, machine, *options):
        words = [program, "run", *options, machine]
        self.process = subprocess.Popen(words, stdin=subprocess.PIPE, stdout=subprocess.PIPE, text=True, bufsize=1)

    def answer(self, event):
        """The log's lines of the event, its echo first."""
        self.process.stdin.write(f"{event}\n{self.MARK}\n")
        self.process.stdin.flush()
        lines = [self.line()]
        while (line := self.line()) != "> ?":
            lines.append(line)
        self.line()
        return lines

    def line(self):
        line = self.process.stdout.readline()
        if not line:
            sys.exit(self.process.wait())
        return line.rstrip("\n")

    def close(self):
        """Ends the script, and waits for the program's end. Its status is the answer."""
        self.process.stdin.close()
        return self.process.wait()


def main():
    if len(sys.argv) != 3:
        sys.exit(__doc__.split("\n")[0])
    printer = Printer(*sys.argv[1:])
    for line in sys.stdin:
        event = line.strip()
        if event and not event.startswith("#"):
            began = time.monotonic()
            lines = printer.answer(event)
            print(f"{event}: {len(lines) - 1} records, {1000 * (time.monotonic() - began):.1f} ms")
    sys.exit(printer.close())


if __name__ == "__main__":
    main()
