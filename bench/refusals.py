#!/usr/bin/env python3
"""Makes each allocation of each call fail in turn, and checks what the call returns and leaves.

A small library before the C library's allocator counts the allocations, and has the one with a given
number fail: this script builds it with `cc`. Each call that `test_cases names` lists is made anew with its
first allocation failing, its second, and so on, until a run needs fewer. `test_cases` itself compares what
is left with what has to be left; here its outcomes are counted: `refused` (with Memory, and the state that
is wanted), `whole` (it does without that allocation), and `elsewhere` (the allocation was one of the setup
or of the check, before or after the call). `tabprint` is run so over two inputs for each list of arguments:
it has to end with Memory after a beginning of its output, or with all of it.

Printed are the counts of each call and run, those of each kind of call, and the calls of which no
allocation was one of their own. The exit status is 1 if anything else is found.
"""

import collections
import subprocess

import building
import measuring

# More allocations than any of the calls makes.
MOST = 10_000

OUTCOMES = ("refused", "whole", "elsewhere")

ALLOCATOR = r"""
#include <errno.h>
#include <stdio.h>
#include <stdlib.h>

void *__libc_malloc(size_t);
void *__libc_calloc(size_t, size_t);
void *__libc_realloc(void *, size_t);
void *__libc_memalign(size_t, size_t);

static unsigned long allocations;
static unsigned long failing;

__attribute__((constructor)) static void begin(void) {
    const char *number = getenv("FAILING_ALLOCATION");
    failing = number ? strtoul(number, 0, 10) : 0;
    allocations = 0;
}

/* The number of allocations goes into a file, and none of its own fails. */
__attribute__((destructor)) static void end(void) {
    char line[32];
    failing = 0;
    int length = snprintf(line, sizeof line, "allocations %lu\n", allocations);
    const char *name = getenv("ALLOCATIONS");
    FILE *file = name ? fopen(name, "w") : 0;
    if (file && length > 0) {
        fwrite(line, 1, length, file);
        fclose(file);
    }
}

static int fails(void) {
    allocations++;
    if (allocations == failing)
        errno = ENOMEM;
    return allocations == failing;
}

void *malloc(size_t size) { return fails() ? 0 : __libc_malloc(size); }
void *calloc(size_t count, size_t size) { return fails() ? 0 : __libc_calloc(count, size); }
void *realloc(void *old, size_t size) { return fails() ? 0 : __libc_realloc(old, size); }
void *memalign(size_t align, size_t size) { return fails() ? 0 : __libc_memalign(align, size); }
void *aligned_alloc(size_t align, size_t size) { return fails() ? 0 : __libc_memalign(align, size); }

int posix_memalign(void **place, size_t align, size_t size) {
    if (fails())
        return ENOMEM;
    *place = __libc_memalign(align, size);
    return *place ? 0 : ENOMEM;
}
"""

# The lists of arguments of `tabprint`.
PLANS = [
    "",
    "--stream",
    *(f"--wrap {columns}{words}" for columns in (9, 40) for words in ("", " --words")),
    *(f"--wrap 9 --priority {name}" for name in ("none", "min", "max", "left", "right")),
    *(f"--cut {columns}" for columns in (9, 40)),
    *(f"--cut 9 --priority {name}" for name in ("none", "min", "max", "left", "right")),
    "--wrap 0",
    "--cut 0",
]

INPUTS = {
    "two rows": "a\tbb\nccc\t\n",
    "texts": (
        "city\tpeople\tstands on\nЧелябинск\t1 100 000\tMiass, behind the Ural\n"
        "北京\t21 893 095\nHamburg\t1 787 000\tElbe\n"
    )
    * 3,
}


class Failing:
    """Runs programs before the allocator that fails."""

    def __init__(self, folder):
        self.library = folder / "failing.so"
        self.counted = folder / "allocations"
        source = folder / "failing.c"
        source.write_text(ALLOCATOR)
        compiler = ["cc", "-O1", "-Werror", "-shared", "-fPIC"]
        subprocess.run([*compiler, "-o", self.library, source], check=True)

    def run(self, command, number, text=""):
        """The finished process, and how many allocations it made, or the number if it didn't end by itself."""
        environment = {
            "LD_PRELOAD": str(self.library),
            "FAILING_ALLOCATION": str(number),
            "ALLOCATIONS": str(self.counted),
        }
        self.counted.unlink(missing_ok=True)
        done = subprocess.run(command, input=text.encode(), capture_output=True, env=environment, timeout=60)
        made = int(self.counted.read_text().split()[1]) if self.counted.exists() else number
        return done, made

    def sweep(self, command, text, outcome):
        """The outcomes with each allocation failing in turn, counted, the number of allocations if none
        fails, and the outcome of the last run, which made fewer than the number that was to fail."""
        counts = collections.Counter()
        whole, allocations = self.run(command, 0, text)
        for number in range(1, MOST):
            done, made = self.run(command, number, text)
            if made < number:
                return counts, allocations, outcome(whole, done)
            counts[outcome(whole, done)] += 1
        return counts, allocations, "no end"


def call_outcome(_whole, done):
    """What the program says of a call. An allocation that its own arguments or lines need ends it with 1."""
    said = done.stdout.decode().strip()
    if done.returncode == 0:
        return said
    if done.returncode == 1 and not said and done.stderr:
        return "elsewhere"
    return f"status {done.returncode}: {said}"


def run_outcome(whole, done):
    """What became of a run: the word Memory and a beginning of the output, or all of it."""
    if (done.returncode, done.stdout, done.stderr) == (0, whole.stdout, b""):
        return "whole"
    if (done.returncode, done.stderr) == (1, b"Memory\n") and whole.stdout.startswith(done.stdout):
        return "refused"
    return f"status {done.returncode}, {done.stderr}"


def check(bars, name, found, allowed):
    """Prints the counts of a call or a run, and whether they are as they have to be. Returns them."""
    counts, allocations, last = found
    shown = ", ".join(f"{count} {outcome}" for outcome, count in sorted(counts.items()))
    right = last == "whole" and set(counts) <= allowed and sum(counts.values()) >= allocations
    end = "" if right else f"; at the end {last}"
    bars.true(f"{name}: {allocations} allocations: {shown}{end}", right)
    return counts


def try_calls(bars, failing, test_cases):
    """Each call. Those that don't allocate, and a compact table into a buffer, may not fail."""
    kinds = collections.defaultdict(collections.Counter)
    untested = []
    for line in measuring.output([test_cases, "names"]).decode().splitlines():
        kind, number, name = line.split(" ", 2)
        spares = kind == "sparing" or (kind, name) == ("room", "Compact")
        allowed = {"elsewhere"} if spares else set(OUTCOMES)
        found = failing.sweep([test_cases, kind, number], "", call_outcome)
        counts = check(bars, f"{kind}, {name}", found, allowed)
        kinds[kind] += counts + collections.Counter(calls=1)
        if not spares and not counts["refused"] + counts["whole"]:
            untested.append(f"{kind}, {name}")
    show_kinds(kinds)
    count = f"calls that may fail, and of which no allocation was their own: {len(untested)}"
    print(count, *untested, sep="\n  ")


def show_kinds(kinds):
    """How many allocations failed where, for each kind of call and for all."""
    kinds["all"] = sum(kinds.values(), collections.Counter())
    outcomes = "".join(f"{outcome:>11}" for outcome in OUTCOMES)
    print(f"{'kind':12} {'calls':>6} {'allocations':>12}{outcomes}")
    for kind, counts in kinds.items():
        allocations = counts.total() - counts["calls"]
        outcomes = "".join(f"{counts[outcome]:11,}" for outcome in OUTCOMES)
        print(f"{kind:12} {counts['calls']:6,} {allocations:12,}{outcomes}")


def try_runs(bars, failing, tabprint):
    all_counts = collections.Counter()
    for name, text in INPUTS.items():
        for plan in PLANS:
            found = failing.sweep([tabprint, *plan.split()], text, run_outcome)
            command = f"tabprint {plan}".rstrip()
            all_counts += check(bars, f"{command}, {name}", found, {"whole", "refused"})
    print(f"tabprint: {all_counts.total():,} allocations: {dict(all_counts)}")


def main():
    asked = building.parser(__doc__).parse_args()
    bars = measuring.Bars()
    with building.builder(asked) as build:
        failing = Failing(build.folder)
        try_calls(bars, failing, build.of_repository("test_cases"))
        try_runs(bars, failing, build.of_repository("tabprint"))
    bars.end()


main()
