"""Long scripts: how memory and time go as the past grows."""
import os
import random
import subprocess
import threading

from trying import TOP

ENGINES = [f"ENG{k}" for k in range(1, 9)]

# More than a job's name, its row and its place in the index of names take together.
JOB_BYTES = 250

MODULES = ENGINES + ["FEED1", "FEED2", "OUT", "DUMP"]


def random_events(number, seed):
    """Jobs, clocks, jams, modules off and on, and refills, on the rack of eight engines."""
    draw = random.Random(seed)
    now = 0
    for at in range(number):
        kind = draw.randrange(100)
        if kind < 40:
            media, ink = draw.choice(["plain", "plain", "glossy"]), draw.choice(["M", "M", "C"])
            yield f"job j{at} t {media} {draw.randrange(3) + 1}*{ink}-:F"
        elif kind < 78:
            now += draw.randrange(1, 60)
            yield f"clock {now}"
        elif kind < 79:
            yield f"jam {draw.choice(ENGINES)}"
        elif kind < 81:
            yield f"off {draw.choice(ENGINES)}"
        elif kind < 98:
            yield f"on {draw.choice(MODULES)}"
        else:
            yield f"refill f1 {draw.randrange(100) + 1}"


def small_jobs(number):
    """Jobs of a sheet, each with a clock behind it that lets it come out."""
    for at in range(number // 2):
        yield f"job j{at} t plain M-:F"
        yield f"clock {20 * (at + 1)}"


def worked(pid):
    """The seconds that the processors have spent on a process."""
    with open(f"/proc/{pid}/stat") as file:
        ticks = file.read().rsplit(")", 1)[1].split()[11:13]
    return sum(map(int, ticks)) / os.sysconf("SC_CLK_TCK")


def resident(pid):
    """The kilobytes of memory that a process touches, or 0 if the system does not tell them."""
    with open(f"/proc/{pid}/status") as file:
        for line in file:
            if line.startswith("VmRSS:"):
                return int(line.split()[1])
    return 0


class Watched:
    """A run whose events are counted as they are answered. Its input stays open until the last one is, so that it lives while it is read."""

    def __init__(self, program, words, events):
        self.process = subprocess.Popen([program.path, *words], stdin=subprocess.PIPE, stdout=subprocess.PIPE, cwd=TOP)
        self.events, self.is_over = events, threading.Event()

    def feed(self):
        try:
            for event in self.events:
                self.process.stdin.write(event.encode() + b"\n")
            self.process.stdin.flush()
            self.is_over.wait()
            self.process.stdin.close()
        except BrokenPipeError:
            pass  # The run has ended too soon, and its status says why.

    def each(self, step, number):
        """For each `step` events of `number`: how many, the seconds of work on the last ones, and the memory in kilobytes."""
        feeder = threading.Thread(target=self.feed)
        feeder.start()
        answered, last = 0, 0.0
        for line in self.process.stdout:
            if line.startswith(b"> "):
                answered += 1
                if answered % step == 0:
                    now = worked(self.process.pid)
                    yield answered, now - last, resident(self.process.pid)
                    last = now
                if answered == number:
                    self.is_over.set()
        self.is_over.set()
        feeder.join()
        self.status = self.process.wait()


def wrong_end(run, rows, wanted):
    """What is wrong with a run that was watched: its status, or its readings of seconds and kilobytes."""
    wrongs = [f"status {run.status}"] if run.status else []
    if len(rows) != wanted:
        wrongs.append(f"{len(rows)} readings of {wanted}")
    if not all(kilobytes for _, kilobytes in rows):
        wrongs.append("a reading of memory is 0")
    return wrongs


def load(program, count):
    """A hundred thousand random events in one process. Behind the first quarter an event takes no more time, but for a half, and
    a job no more memory than its name and its row want."""
    number, step = 100_000, 1000
    events = list(random_events(number, 1))
    run = Watched(program, ["run", "machines/rack.toml"], events)
    rows = []
    for answered, seconds, kilobytes in run.each(step, number):
        rows.append((seconds, kilobytes))
        print(f"    {answered} events: {1000 * seconds / step:.3f} ms an event, {kilobytes} kB", flush=True)
    wrongs = wrong_end(run, rows, number // step) or growth(rows, events, step)
    count.tell("a hundred thousand events", wrongs, number)


def growth(rows, events, step):
    """What grows that may not, of rows with the seconds and the kilobytes of each `step` events."""
    wrongs, quarter = [], len(rows) // 4
    early, late = (sum(seconds for seconds, _ in part) for part in (rows[quarter : 2 * quarter], rows[-quarter:]))
    if late > 1.5 * early:
        wrongs.append(f"the time of an event grows by {late / early:.2f}")
    jobs = sum(event.startswith("job ") for event in events[quarter * step :])
    grown = 1024 * (rows[-1][1] - rows[quarter - 1][1]) / jobs
    print(f"    {grown:.0f} bytes a job", flush=True)
    if grown > JOB_BYTES:
        wrongs.append("memory grows")
    return wrongs


def checked(program, count):
    """The log of as many random events, with bounds, is accepted while it is written."""
    number, machine = 100_000, "machines/rack.toml"
    writer = subprocess.Popen([program.path, "run", "--bounds", machine], stdin=subprocess.PIPE, stdout=subprocess.PIPE, cwd=TOP)
    checker = subprocess.Popen([program.path, "check", machine], stdin=writer.stdout, stdout=subprocess.PIPE, cwd=TOP)
    writer.stdout.close()
    for event in random_events(number, 1):
        writer.stdin.write(event.encode() + b"\n")
    writer.stdin.close()
    summary = checker.communicate()[0].decode()
    print(f"    {summary.strip()}", flush=True)
    wrongs = [f"status {status}" for status in (writer.wait(), checker.returncode) if status]
    if not summary.startswith(f"accepted {number} events "):
        wrongs.append("the log is not accepted")
    count.tell("the log of a hundred thousand events is checked", wrongs, number)


def lines(program, count):
    """As many lines as a script may have: the second half takes as much work as the first one, but for a half."""
    number = 1_000_000
    run = Watched(program, ["run", "machines/duo.toml"], small_jobs(number))
    halves = [(seconds, kilobytes) for _, seconds, kilobytes in run.each(number // 2, number)]
    wrongs = wrong_end(run, halves, 2)
    for seconds, kilobytes in halves:
        print(f"    {number // 2} lines: {seconds:.1f} s, {kilobytes} kB", flush=True)
    if not wrongs and halves[1][0] > 1.5 * halves[0][0]:
        wrongs.append("the second half takes more work")
    count.tell("a million lines", wrongs, number)
