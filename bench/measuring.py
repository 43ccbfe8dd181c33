"""What the benchmarks measure with: rounds, processor times, peaks, instructions, and bars."""

import contextlib
import os
import pathlib
import statistics
import subprocess
import sys
import tempfile

# Runs a program as a child of a small process, since a child's peak begins at that of its parent, and
# writes the processor times in microseconds, the peak in KB, and the wait status.
LAUNCHER = r"""
#include <stdio.h>
#include <sys/resource.h>
#include <sys/wait.h>
#include <unistd.h>

static long micros(struct timeval time) { return time.tv_sec * 1000000L + time.tv_usec; }

int main(int count, char **words) {
    struct rusage usage;
    int status;
    pid_t child = fork();
    (void)count;
    if (child == 0) {
        execvp(words[1], words + 1);
        _exit(127);
    }
    wait4(child, &status, 0, &usage);
    fprintf(stderr, "\n%ld %ld %d\n", micros(usage.ru_utime) + micros(usage.ru_stime), usage.ru_maxrss, status);
    return 0;
}
"""

# A writer of small programs that counts the bytes it takes and keeps none.
COUNTER = """\
//! A writer that counts.

use std::io::{self, Write};

#[derive(Drop)]
pub struct Counter {
    pub bytes: usize,
}

impl Write for Counter {
    fn write(&mut self, buf: &[u8]) -> io::Result<usize> {
        self.bytes = self.bytes.wrapping_add(buf.len());
        Ok(buf.len())
    }

    fn flush(&mut self) -> io::Result<()> {
        Ok(())
    }
}
"""


class Launcher:
    """Runs programs, and measures the processor time (user and system) and the peak of each."""

    def __init__(self, folder):
        source, self.built = folder / "launch.c", folder / "launch"
        source.write_text(LAUNCHER)
        subprocess.run(["cc", "-O1", "-o", self.built, source], check=True)

    def run(self, command, source=os.devnull):
        """The seconds and the peak in bytes of a run over a file. Its output goes to the null device."""
        with open(source, "rb") as given:
            return self.run_over(command, given)

    def run_over(self, command, given):
        """The same over what is open already, as a pipe."""
        run = subprocess.run(
            [self.built, *map(str, command)],
            stdin=given,
            stdout=subprocess.DEVNULL,
            stderr=subprocess.PIPE,
            env={**os.environ, "LC_ALL": "C.UTF-8"},
        )
        time, peak, status = map(int, run.stderr.split()[-3:])
        if status != 0:
            code = os.waitstatus_to_exitcode(status)
            sys.exit(f"{' '.join(map(str, command))} ended with {code}")
        return time / 1e6, peak * 1024


@contextlib.contextmanager
def launcher():
    with tempfile.TemporaryDirectory() as folder:
        yield Launcher(pathlib.Path(folder))


def output(command, source=os.devnull):
    """What a run prints."""
    with open(source, "rb") as given:
        return subprocess.run(command, stdin=given, stdout=subprocess.PIPE, check=True).stdout


def interleaved(rounds, calls):
    """What each call returns in each round. A host may be slow for some seconds, so all take turns."""
    found = {name: [] for name in calls}
    for _ in range(rounds):
        for name, call in calls.items():
            found[name].append(call())
    return found


def timed(launch, rounds, commands):
    """For each command, which has a file, the shortest and the median time, and the median peak."""
    calls = {name: lambda it=it: launch.run(*it) for name, it in commands.items()}
    return {name: summary(runs) for name, runs in interleaved(rounds, calls).items()}


def summary(runs):
    times, peaks = zip(*runs)
    return min(times), statistics.median(times), statistics.median(peaks)


def peak_of(process):
    """The peak of a running process in bytes."""
    for line in pathlib.Path(f"/proc/{process.pid}/status").read_text().splitlines():
        if line.startswith("VmHWM:"):
            return int(line.split()[1]) * 1024
    return sys.exit("the system doesn't say the peak of a process")


def own_clock(command):
    """A run of a program that prints its nanoseconds and its bytes, and then waits for the end of its
    input. Returns these and its peak, or nothing if it fails."""
    words = list(map(str, command))
    with subprocess.Popen(words, stdin=subprocess.PIPE, stdout=subprocess.PIPE, text=True) as process:
        line = process.stdout.readline()
        peak = peak_of(process) if line else 0
        process.stdin.close()
        if process.wait() != 0 or not line:
            print(f"{' '.join(words[1:])} ended with {process.returncode}", flush=True)
            return None
    time, size = map(int, line.split())
    return time, size, peak


def instructions(command, source=os.devnull):
    """The instructions of a run, by valgrind."""
    valgrind = ["valgrind", "--tool=callgrind", "--callgrind-out-file=/dev/null"]
    with open(source, "rb") as given:
        run = subprocess.run(
            [*valgrind, *map(str, command)], stdin=given, capture_output=True, check=True
        )
    (line,) = (line for line in run.stderr.splitlines() if b"Collected" in line)
    return int(line.split()[-1])


class Bars:
    """The bars of a script. It ends with 1 if one is missed, or if none was looked at."""

    # A bar that is further from what was measured than this says little.
    LOOSE = 1.3

    def __init__(self):
        self.held = []

    def at_most(self, what, value, most):
        """Prints whether a value is within its bar. A value that is missing isn't."""
        self.note(what, value, most, value is not None and value <= most, value and most / value)

    def at_least(self, what, value, least):
        self.note(what, value, least, value is not None and value >= least, value and value / least)

    def true(self, what, is_true):
        self.held.append(is_true)
        print(f"  {what}: {'yes' if is_true else 'NO'}", flush=True)

    def note(self, what, value, bar, is_held, distance):
        self.held.append(is_held)
        loose = f" (loose: {distance:.1f} times)" if is_held and distance and distance > self.LOOSE else ""
        held = "yes" if is_held else "NO"
        print(f"  {what}: {shown(value)} of {shown(bar)}: {held}{loose}", flush=True)

    def end(self):
        missed = self.held.count(False)
        print(f"{len(self.held)} bars, {missed} missed")
        sys.exit(0 if self.held and not missed else 1)


def shown(value):
    """A number with three digits, or all of those before the point."""
    if value is None:
        return "none"
    return f"{value:,.0f}" if value >= 1_000 else f"{value:.3g}"


def share(value, base):
    return None if value is None or not base else value / base
