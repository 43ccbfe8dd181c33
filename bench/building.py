"""Builds what the benchmarks measure: programs of this repository and small ones that a script holds,
both proved by `rt run`, and the baseline, by `cargo`."""

import argparse
import contextlib
import pathlib
import shutil
import subprocess
import sys
import tempfile

TOP = pathlib.Path(__file__).resolve().parent.parent

# What each program of the repository is run with once it is built. It ends with status 0 then.
HARMLESS = {"tabprint": [], "tabview": ["--help"], "test_cases": ["names"]}


def standing_on(*crates):
    """The crates and all of the repository's that they stand on, lowest first."""
    below = {}
    for line in (TOP / "crates.txt").read_text().splitlines():
        if ":" in line:
            name, _, named = line.partition(":")
            below[name] = named.split()
    wanted, open_ones = set(), list(crates)
    while open_ones:
        name = open_ones.pop()
        if name in below and name not in wanted:
            wanted.add(name)
            open_ones += below[name]
    return tuple(name for name in below if name in wanted)


# What a program of tables stands on.
TABLED = standing_on("tabled")


def run(command, folder):
    done = subprocess.run(
        command, cwd=folder, stdin=subprocess.DEVNULL, capture_output=True, text=True
    )
    if done.returncode != 0:
        sys.exit(done.stdout + done.stderr)


class Builder:
    """Builds in a folder. A program that was given is taken as it is."""

    def __init__(self, folder, given):
        self.folder = folder
        self.given = given

    def taken(self, name):
        """The program that was given, if one was."""
        path = self.given.get(name)
        if path and not path.exists():
            sys.exit(f"{path}: no such program")
        return path

    def of_repository(self, name):
        """A program of the repository, in its crate's `out/`."""
        if found := self.taken(name):
            return found
        own = TOP / "crates" / name
        run(["rt", "run", "--", *HARMLESS[name]], own)
        return own / "out" / name

    def baseline(self):
        """The program by hand that shares are shares of."""
        if found := self.taken("baseline"):
            return found
        target = self.folder / "baseline"
        manifest = TOP / "bench" / "baseline" / "Cargo.toml"
        cargo = ["cargo", "build", "--release", "--offline"]
        run([*cargo, "--manifest-path", manifest, "--target-dir", target], TOP)
        return target / "release" / "baseline"

    def small(self, name, crates, files, used=()):
        """A small program beside copies of the crates. It uses the last of them, or those named."""
        if found := self.taken(name):
            return found
        self.copy(crates)
        self.write_list(name, crates, used or crates[-1:])
        own = self.folder / "crates" / name
        for path, text in files.items():
            (own / path).parent.mkdir(parents=True, exist_ok=True)
            (own / path).write_text(text)
        run(["rt", "run"], own)
        return own / "out" / name

    def copy(self, crates):
        shutil.copy(TOP / "HANDLES", self.folder)
        for crate in crates:
            copy = self.folder / "crates" / crate
            leave = shutil.ignore_patterns("out")
            shutil.copytree(TOP / "crates" / crate, copy, ignore=leave, dirs_exist_ok=True)

    def write_list(self, name, crates, used):
        lines = (TOP / "crates.txt").read_text().splitlines()
        wanted = [line for line in lines if line.split(":")[0] in crates]
        own = f"{name}: {' '.join(used)} anyhow"
        (self.folder / "crates.txt").write_text("\n".join([*wanted, own]) + "\n")


def parser(usage, rounds=None):
    """The arguments that all scripts take, behind their own."""
    arguments = argparse.ArgumentParser(
        description=usage, formatter_class=argparse.RawDescriptionHelpFormatter
    )
    arguments.add_argument("--folder", type=pathlib.Path, help="where to build, else a temporary folder")
    arguments.add_argument(
        "--built", action="append", default=[], metavar="NAME=PATH", help="a program to take as it is"
    )
    if rounds is not None:
        arguments.add_argument("--rounds", type=int, default=rounds, help=f"{rounds} if it isn't given")
    return arguments


@contextlib.contextmanager
def builder(asked):
    """A builder for the arguments."""
    given = dict(named.split("=", 1) for named in asked.built)
    with tempfile.TemporaryDirectory() as temporary:
        folder = asked.folder or pathlib.Path(temporary)
        folder.mkdir(parents=True, exist_ok=True)
        yield Builder(folder.resolve(), {name: pathlib.Path(path).resolve() for name, path in given.items()})
