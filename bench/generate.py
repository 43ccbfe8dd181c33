#!/usr/bin/env python3
"""Writes the tab-separated files that the benchmark reads, the same ones each time."""

import pathlib
import random
import sys

WORDS = (
    "amber basin cedar delta ember fjord grove haven inlet jetty knoll ledge mesa nook oasis "
    "plain quay ridge shoal tarn upland vale weir yard"
).split()
CYRILLIC = (
    "север ветер гора долина ель заря искра камень луг море небо озеро поле река снег"
).split()
CHINESE = "山 水 木 火 土 金 天 地 人 风 云 雨 雪 河 海 林 石 田 日 月".split()


def short(rng):
    """A short ASCII cell: a word or a number."""
    return rng.choice(WORDS) if rng.random() < 0.5 else str(rng.randrange(100_000))


def long(rng):
    """A sentence of about two hundred bytes."""
    return " ".join(rng.choice(WORDS) for _ in range(34))


def mixed(rng):
    """A cell of Cyrillic or Chinese text."""
    if rng.random() < 0.5:
        return rng.choice(CYRILLIC)
    return "".join(rng.choice(CHINESE) for _ in range(rng.randrange(1, 6)))


FILES = {
    "short.tsv": (100_000, 6, short),
    "long.tsv": (10_000, 3, long),
    "mixed.tsv": (100_000, 4, mixed),
    "wide.tsv": (200, 2_000, short),
}


def write(folder):
    """Writes the files to a folder, and returns their paths."""
    folder.mkdir(parents=True, exist_ok=True)
    for name, (rows, columns, cell) in FILES.items():
        rng = random.Random(f"fanlightnard {name}")
        with open(folder / name, "w", encoding="utf-8", newline="\n") as file:
            for _ in range(rows):
                file.write("\t".join(cell(rng) for _ in range(columns)) + "\n")
    return [folder / name for name in FILES]


if __name__ == "__main__":
    if len(sys.argv) != 2:
        sys.exit("usage: generate.py FOLDER")
    write(pathlib.Path(sys.argv[1]))
