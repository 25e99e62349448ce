"""Solvers that answer a model: those that MiniZinc drives, and CP-SAT of OR-tools."""
import importlib.util
import os
import re
import resource
import shutil
import subprocess
import sys
import tempfile
from typing import NamedTuple

HERE = os.path.dirname(os.path.abspath(__file__))
MINIZINC = {"gecode": "org.gecode.gecode", "chuffed": "org.chuffed.chuffed"}
NAMES = (*MINIZINC, "cpsat")


class SolverFault(Exception):
    """The solver is not installed, or it failed."""


class Solved(NamedTuple):
    """What a solver says in its time: `end N`, `none`, or `none in time`; and the seconds of a processor."""

    answer: str
    seconds: float


def spent():
    usage = resource.getrusage(resource.RUSAGE_CHILDREN)
    return usage.ru_utime + usage.ru_stime


class Solver:
    """A solver by its name, with a limit in seconds of a processor for each model. Writing a model's text counts as well."""

    def __init__(self, name, seconds):
        self.name, self.seconds = name, seconds
        self.folder = tempfile.TemporaryDirectory()
        fault = self.lacks()
        if fault:
            raise SolverFault(fault)

    def lacks(self):
        """Why the solver cannot be called, or None."""
        if self.name == "cpsat":
            return None if importlib.util.find_spec("ortools") else "OR-tools is not installed"
        if shutil.which("minizinc") is None:
            return "MiniZinc is not installed"
        listed = subprocess.run(["minizinc", "--solvers"], capture_output=True, text=True, check=False).stdout
        return None if MINIZINC[self.name] in listed else f"MiniZinc has no solver {self.name}"

    def call(self, words):
        """The output of a call, each of whose processes is stopped at the limit, and the seconds that they took."""
        begin, limit = spent(), self.seconds
        run = subprocess.run(words, capture_output=True, text=True, check=False,
                             preexec_fn=lambda: resource.setrlimit(resource.RLIMIT_CPU, (limit, limit + 1)))
        return run.stdout, spent() - begin

    def file(self, name, text):
        path = os.path.join(self.folder.name, name)
        with open(path, "w", encoding="utf-8") as file:
            file.write(text)
        return path

    def minizinc(self, model, data):
        """What the solver says of a model of this folder, with the text of its data."""
        words = ["minizinc", "--solver", MINIZINC[self.name], os.path.join(HERE, model), self.file("data.dzn", data)]
        output, seconds = self.call(words)
        return self.solved(output, seconds, "==========")

    def cpsat(self, text):
        """What CP-SAT says of the text of a model."""
        words = [sys.executable, os.path.join(HERE, "cpsat_solve"), self.file("ask.pb.txt", text), str(self.seconds)]
        output, seconds = self.call(words)
        return self.solved(output, seconds, "optimal")

    def solved(self, output, seconds, mark):
        found, answer = re.findall(r"(?m)^end ([0-9]+)$", output), "none in time"
        if seconds <= self.seconds and re.search(r"(?m)^(=+UNSATISFIABLE=+|none)$", output):
            answer = "none"
        elif seconds <= self.seconds and found and mark in output:
            answer = f"end {found[-1]}"
        return Solved(answer, seconds)
