"""Times three programs on the same jobs and prints a table: measure.py FOLDER RUNS RUNNER..

The programs are ours, peer and naive in the folder, tests/driver.c over three implementations; the runner's words stand before
each. Every line is read once and its call made so often that a run of all lines takes about a second. A time is the best of
some runs of the whole program, its start, reading and printing too; nothing is subtracted. It is processor time, since another
process may hold the machine. The exit status is 0 if the answers are equal."""

import os
import subprocess
import sys
from pathlib import Path

from jobs import jobs

SECONDS = 1.0


def run(command, times, cases, answers):
    """The seconds that one run takes, each call made so often."""
    words = [*command, "--times", str(times)]
    with open(cases, "rb") as given, open(answers, "wb") as written:
        process = subprocess.Popen(words, stdin=given, stdout=written)
        _, status, usage = os.wait4(process.pid, 0)
    process.returncode = os.waitstatus_to_exitcode(status)
    if process.returncode:
        raise subprocess.CalledProcessError(process.returncode, words)
    return usage.ru_utime + usage.ru_stime


def enough(command, cases):
    """How often the calls have to be made for a run of about a second."""
    times, took = 1, 0.0
    while took < SECONDS / 4:
        took = run(command, times, cases, os.devnull)
        times *= 1 if took >= SECONDS / 4 else 4
    return max(1, round(times * SECONDS / took))


def same(folder, commands, cases):
    """Whether the programs answer every case alike."""
    answers = []
    for place, command in enumerate(commands):
        path = folder / f"answers{place}"
        run(command, 1, cases, path)
        answers.append(path.read_bytes())
    return all(a == answers[0] for a in answers) and answers[0].strip() and b"bad" not in answers[0]


def settled(times):
    """The best time was reached twice, so it is no accident and no longer waits for a quiet moment."""
    return len(times) > 1 and sorted(times)[1] < 1.02 * min(times)


def best(commands, times, cases, runs):
    """The programs take turns, so that a slow moment of the machine does not fall on one of them alone."""
    rounds = []
    while len(rounds) < runs or (len(rounds) < 2 * runs and not all(map(settled, zip(*rounds)))):
        rounds.append([run(command, times, cases, os.devnull) for command in commands])
    return [min(took) for took in zip(*rounds)]


def timed(cases, runs, job, commands):
    """Microseconds a call of each program, over calls that take the first of them about a second."""
    times = enough(commands[0], cases)
    return [1e6 * took / (times * len(job.cases)) for took in best(commands, times, cases, runs)]


def measure(folder, runs, job, ours, peer, naive):
    """The figures of ours, the peer and, where it can finish, the naive search; none where the answers differ."""
    cases = folder / "cases"
    cases.write_text("".join(f"{case}\n" for case in job.cases))
    if not same(folder, [ours, peer, naive] if job.naive else [ours, peer], cases):
        return None
    slow = timed(cases, 2, job, [naive]) if job.naive else [None]
    return timed(cases, runs, job, [ours, peer]) + slow


def line(job, figures):
    if figures is None:
        return f"{job.name:45} the answers differ"
    ours, peer, naive = figures
    text = f"{job.name:45}{ours:10.1f}{peer:10.1f}{ours / peer:8.2f}"
    return text + (f"{naive:12.1f}{naive / ours:10.0f}" if naive else f"{'-':>12}{'-':>10}")


def main():
    folder, runs, runner = Path(sys.argv[1]), int(sys.argv[2]), sys.argv[3:]
    programs = [[*runner, str(folder / name)] for name in ("ours", "peer", "naive")]
    print(f"{'microseconds a call':45}{'ours':>10}{'C':>10}{'ratio':>8}{'naive C':>12}{'to ours':>10}")
    equal = True
    for job in jobs():
        figures = measure(folder, runs, job, *programs)
        equal = equal and figures is not None
        print(line(job, figures), flush=True)
    return 0 if equal else 1


sys.exit(main())
