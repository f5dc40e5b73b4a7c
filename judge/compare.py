#!/usr/bin/env python3
"""Compares the second judge with evroute and evgap on drawn and changed files.

    compare.py PROGRAM [--gap PROGRAM] [--seed N] [--cases N] [--kind KIND]

It draws small instances, lets PROGRAM (a built evroute) write plans,
certificates and proofs of them, changes these files and the instances in many
ways, and asks PROGRAM and evjudge.py about each. Status and printed text have
to be the same; of words that are no job, only the status, since each has a
usage text of its own. There are N cases of each of six kinds, or of one:
check, check-bound, check-route, check-mixed, gap-check, and gap-check-tree,
which is gap-check of a tree that tree_maker.py draws. The last two are asked
of a built evgap: the one that --gap names, or else crates/evgap/out/evgap
where PROGRAM is crates/evroute/out/evroute, or evgap beside PROGRAM; where it
isn't there, they are left out. The same seed draws the same cases, unless
a program takes too long to write a file: then another instance is drawn.

It prints how often each answer came, and the files of each difference are
left in a folder whose name it prints. The exit status is 0 where there is no
difference, and else 1.
"""

from __future__ import annotations

import argparse
import json
import os
import random
import re
import subprocess
import sys
import tempfile
from collections import Counter
from typing import Callable, NamedTuple, Optional

import evjudge
import tree_maker

# How long PROGRAM may take to judge, and to write.
JUDGE_SECONDS = 300
WRITE_SECONDS = 30
# How many cases are made of one drawn instance.
CASES_AN_INSTANCE = 20
Random = random.Random


class Case(NamedTuple):
    """The words of a job, and the files that it reads, by name."""

    words: list[str]
    files: dict[str, bytes]


# --------------------------------------------------------------------------
# Instances that are drawn.
# --------------------------------------------------------------------------


def draw_curve(draw: Random, name: str, full: int) -> dict:
    """Breakpoints that rise, no segment faster than the one before."""
    slopes = [(1, 4), (1, 2), (2, 3), (1, 1), (3, 2), (2, 1), (3, 1), (5, 1)]
    chosen = sorted(draw.sample(range(len(slopes)), draw.randint(1, 4)))
    times, charges = [0], [0]
    for segment in chosen:
        time, charge = slopes[segment]
        steps = draw.randint(1, max(1, full // charge // 2))
        times.append(times[-1] + steps * time)
        charges.append(charges[-1] + steps * charge)
    if charges[-1] < full:
        steps = -(-(full - charges[-1]) // charge)
        times[-1] += steps * time
        charges[-1] += steps * charge
    curve = {"cs_type": name, "time": times, "charge": charges}
    if draw.random() < 0.3:
        curve["plug_time"] = draw.randint(0, 3)
    return curve


def draw_matrices(draw: Random, nodes: int) -> tuple[list, list]:
    """Energies and times by distance, with some noise; of the energies some
    are out of reach."""
    points = [(draw.randint(0, 9), draw.randint(0, 9)) for _ in range(nodes)]
    noise = draw.choice([0, 0, 2])
    energies, times = [], []
    for x, y in points:
        away = [abs(x - u) + abs(y - v) for u, v in points]
        energies.append([d + draw.randint(0, noise) for d in away])
        times.append([d + draw.randint(0, noise) for d in away])
    return energies, times


def draw_instance(draw: Random, most_customers: int = 6) -> dict:
    stations = draw.choice([0, 1, 1, 2, 2, 3])
    customers = min(most_customers, draw.choice([0, 1, 2, 2, 3, 3, 4, 5, 6]))
    nodes = 1 + customers + stations
    full = draw.randint(8, 40)
    energies, times = draw_matrices(draw, nodes)
    names = ["fast", "slow", 7][: draw.randint(1, 3)]
    places = draw.sample(range(1, nodes), stations)
    if draw.random() < 0.2:
        places.append(0)
    css = [{"node_id": p, "cs_type": draw.choice(names)} for p in places]
    instance = {
        "max_q": full,
        "css": css,
        "breakpoints_by_type": [draw_curve(draw, n, full) for n in names],
        "process_times": [draw.randint(0, 4) for _ in range(nodes)],
        "energy_matrix": energies,
        "time_matrix": times,
    }
    if draw.random() < 0.3:
        use_small_units(draw, instance)
    return with_options(draw, instance)


def use_small_units(draw: Random, instance: dict) -> None:
    """Smaller units of charge, so that levels lie far from one another."""
    factor = draw.choice([3, 50, 1000])
    instance["max_q"] *= factor
    for curve in instance["breakpoints_by_type"]:
        curve["charge"] = [factor * charge for charge in curve["charge"]]
    instance["energy_matrix"] = [
        [factor * energy + draw.randrange(factor) for energy in row]
        for row in instance["energy_matrix"]
    ]


def with_options(draw: Random, instance: dict) -> dict:
    """Some of the keys that may be absent."""
    full = instance["max_q"]
    if draw.random() < 0.6:
        instance["t_max"] = draw.randint(15, 90)
    if draw.random() < 0.1:
        instance["max_t"] = draw.choice([None, draw.randint(15, 90)])
    if draw.random() < 0.25:
        instance["min_q"] = draw.randint(0, full // 4)
    if draw.random() < 0.25:
        instance["home_q"] = draw.randint(0, full // 3)
    if draw.random() < 0.2:
        del instance["process_times"][draw.randrange(4) :]
    return instance


def text_of(instance: dict) -> bytes:
    return json.dumps(instance).encode()


# --------------------------------------------------------------------------
# A basis that is too wide, or nearly, which small instances never have.
# --------------------------------------------------------------------------


def star_instance(customers: int) -> dict:
    """No route is cheaper than routes for its customers alone, and each set
    of customers has a route."""
    nodes = range(customers + 1)
    energies = [[int(i != j) for j in nodes] for i in nodes]
    times = [[(i != j) + (i * j > 0 and i != j) for j in nodes] for i in nodes]
    return {
        "max_q": customers + 1,
        "css": [],
        "breakpoints_by_type": [],
        "process_times": [],
        "energy_matrix": energies,
        "time_matrix": times,
    }


def star_columns(draw: Random, customers: int) -> list[list[int]]:
    """Routes over drawn customers, by nodes."""
    everybody = range(1, customers + 1)
    columns = []
    for _ in range(customers + draw.randint(0, 3)):
        chosen = [c for c in everybody if draw.random() < 0.5]
        columns.append(chosen or [draw.choice(everybody)])
    return columns


def star_basis(draw: Random, customers: int, columns: int) -> str:
    entries = [str(number) for number in range(columns)]
    if draw.random() < 0.3:
        draw.shuffle(entries)
    for place in range(len(entries)):
        if draw.random() < draw.choice([0, 0, 0.1]):
            entries[place] = f"h{draw.randint(1, customers)}"
    return " ".join(list(dict.fromkeys(entries))[:customers])


def star_labels(customers: int) -> str:
    full = customers + 1
    labels = [f"label 0 0 - {full}:0\n"]
    for c in range(1, customers + 1):
        labels.append(f"label {c} {c} {c} {full - 1}:1\n")
    return "".join(labels)


def star_case(draw: Random, is_mixed: bool) -> Case:
    """A certificate or a mixed proof with a wide root."""
    customers = draw.randint(30, 47)
    instance = star_instance(customers)
    columns = star_columns(draw, customers)
    kind = "0 " if is_mixed else ""
    lines = [f"root wide {len(columns)}\n"]
    for column in columns:
        stops = " ".join(map(str, [0, *column, 0]))
        lines.append(f"column {kind}{stops}\n")
    lines.append(f"basis {star_basis(draw, customers, len(columns))}\n")
    root, labels = "".join(lines), star_labels(customers)
    count, bound = customers + 1, 2 * customers
    prices = "prices" + " 2" * customers + "\n"
    if is_mixed:
        proof = (
            f"evroute mixed 1\nkinds 1\nbound {bound}\n{root}section 1\n"
            f"{prices}kind 0 {count}\n{labels}"
        )
    else:
        proof = (
            f"evroute certificate 1\nbound {bound}\n{root}sections 1\n"
            f"section 1 0 {count}\n{prices}{labels}leaf 0\n"
        )
    plan = "evroute mixed plan 1\n" if is_mixed else "evroute plan 1\n"
    files = {
        "file": text_of(instance),
        "plan": f"{plan}none\n".encode(),
        "cert": proof.encode(),
    }
    if is_mixed:
        return Case(["check-mixed", "plan", "cert", "file"], files)
    return Case(["check", "file", "plan", "cert"], files)


# --------------------------------------------------------------------------
# Files that the program writes.
# --------------------------------------------------------------------------


class Program:
    """The program, run in a folder of its own."""

    def __init__(self, path: str, folder: str) -> None:
        self.path = os.path.abspath(path)
        self.folder = folder

    def put(self, files: dict[str, bytes]) -> None:
        for name in os.listdir(self.folder):
            os.remove(os.path.join(self.folder, name))
        for name, text in files.items():
            with open(os.path.join(self.folder, name), "wb") as file:
                file.write(text)

    def run(
        self, words: list[str], seconds: int = JUDGE_SECONDS
    ) -> tuple[int, str]:
        """The exit status, and what is put. The second judge's name of what
        evgap judges is another than evgap's own."""
        own = ["check" if word == "gap-check" else word for word in words]
        done = subprocess.run(
            [self.path, *own],
            cwd=self.folder,
            stdin=subprocess.DEVNULL,
            stdout=subprocess.PIPE,
            stderr=subprocess.DEVNULL,
            timeout=seconds,
            check=False,
        )
        return done.returncode, done.stdout.decode("utf-8", "replace")

    def written(self, words: list[str], files: dict[str, bytes]) -> Case:
        """The files with those that the program writes beside them, and no
        words yet."""
        self.put(files)
        self.run(words, WRITE_SECONDS)
        found = dict(files)
        for name in os.listdir(self.folder):
            with open(os.path.join(self.folder, name), "rb") as file:
                found[name] = file.read()
        return Case([], found)


def draw_fleet(draw: Random, program: Program) -> Case:
    if draw.random() < 0.1:
        return star_case(draw, False)
    files = {"file": text_of(draw_instance(draw))}
    words = ["fleet", "file", "plan", "cert"]
    if draw.random() < 0.2:
        words += ["--nodes", str(draw.randint(1, 3))]
    files = program.written(words, files).files
    return Case(["check", "file", "plan", "cert"], files)


def draw_near(draw: Random, program: Program) -> Case:
    files = {"file": text_of(draw_instance(draw, most_customers=4))}
    words = ["bound", "file", "cert", "--near", str(draw.randint(0, 4))]
    files = program.written(words, files).files
    return Case(["check-bound", "file", "cert"], files)


def draw_route(draw: Random, program: Program) -> Case:
    instance = draw_instance(draw)
    nodes = range(1, len(instance["energy_matrix"]))
    inner: list[int] = []
    for _ in range(draw.randint(1, 4)):
        others = [node for node in nodes if inner[-1:] != [node]]
        inner += draw.sample(others, min(1, len(others)))
    route = ",".join(map(str, [0, *inner, 0]))
    options = []
    if draw.random() < 0.3:
        charge = draw.randint(0, instance["max_q"])
        options = ["--charge", str(charge)]
    files = {"file": text_of(instance)}
    words = ["prove", "file", route, "cert", *options]
    files = program.written(words, files).files
    return Case(["check-route", "file", route, "cert", *options], files)


def draw_mixed(draw: Random, program: Program) -> Case:
    if draw.random() < 0.1:
        return star_case(draw, True)
    first = draw_instance(draw)
    files = {"file": text_of(first)}
    for kind in range(1, draw.choice([1, 2, 2, 3])):
        files[f"file{kind}"] = text_of(other_kind(draw, first))
    names = list(files)
    files = program.written(["mixed", "plan", "cert", *names], files).files
    return Case(["check-mixed", "plan", "cert", *names], files)


def other_kind(draw: Random, first: dict) -> dict:
    """An instance with the nodes, customers and curves of another."""
    other = dict(first)
    nodes = len(first["energy_matrix"])
    energies, times = draw_matrices(draw, nodes)
    other["energy_matrix"], other["time_matrix"] = energies, times
    other["min_q"] = draw.randint(0, first["max_q"] // 5)
    if draw.random() < 0.3:
        other["max_q"] -= draw.randint(0, 3)
    return other


def draw_gap(draw: Random, program: Program) -> Case:
    files = {"file": text_of(draw_instance(draw))}
    words = ["plan", "file", "plan", "cert"]
    if draw.random() < 0.3:
        words += ["--seconds", "0"]
    files = program.written(words, files).files
    return Case(["gap-check", "file", "plan", "cert"], files)


def draw_tree(draw: Random, program: Program) -> Case:
    """A plan, and a tree in place of a near proof."""
    files = {"file": text_of(draw_instance(draw, most_customers=5))}
    words = ["plan", "file", "plan", "cert", "--seconds", "0"]
    files = program.written(words, files).files
    instance = evjudge.read_instance(files["file"])
    files["cert"] = tree_maker.tree_text(draw, instance).encode()
    files.setdefault("plan", b"evroute plan 1\nnone\n")
    return Case(["gap-check", "file", "plan", "cert"], files)


Drawing = Callable[[Random, Program], Case]
KINDS: dict[str, Drawing] = {
    "check": draw_fleet,
    "check-bound": draw_near,
    "check-route": draw_route,
    "check-mixed": draw_mixed,
    "gap-check": draw_gap,
    "gap-check-tree": draw_tree,
}


# --------------------------------------------------------------------------
# Changes of a text. Each answers None where there is nothing to change.
# --------------------------------------------------------------------------

Change = Callable[[Random, bytes], Optional[bytes]]

NUMBER = re.compile(rb"[0-9]+")
# The header of a list of labels, with their count at its end.
COUNT = re.compile(rb"^(section|kind|labels)\b.* ([0-9]+)$")
MARKS = b"0123456789 \n+-v:,h\"{}[].eE\\x\x00\xc3\xff"
NUMBERS = [
    0, 1, 2, 3, 5, 9, 10, 127, 128, 400, 401, 10**6 + 1, 10**9, 10**9 + 1,
    10**18, 10**18 + 1, 2**40, 2**40 + 1, 2**64 - 1, 2**64, 2**84, 2**84 + 1,
    2**96, 2**96 + 1, 10**38 - 1, 10**38, 10**45,
]  # fmt: skip
LITERALS = [
    b"NaN", b"-0", b"-1", b"1.0", b"1e2", b"1e400", b"-1e309", b"1e-400",
    b"0e999", b"1.7976931348623157e308", b"1.8e308", b"01", b"1.", b".5",
    b"+1", b"null", b"true", b"nul", b'"x"', b'"\\u0041"', b'"\\ud800"',
    b'"\\ud83d\\ude00"', b'"\\x"', b'"\xc3\xa9"', b'"\xff"', b'"\xc0\x80"',
    b"{}", b"[]", b"[0]", b'{"node_id":1}', b"18446744073709551615",
    b"18446744073709551616", b"1000000000", b"1000000001",
    b"[" * 124 + b"]" * 124, b"[" * 125 + b"]" * 125,
    b"[" * 126 + b"]" * 126, b"[" * 127 + b"]" * 127,
]  # fmt: skip
KEYS = [
    b"max_q", b"css", b"breakpoints_by_type", b"process_times",
    b"energy_matrix", b"time_matrix", b"t_max", b"max_t", b"min_q",
    b"home_q", b"node_id", b"cs_type", b"type", b"time", b"charge",
    b"plug_time", b"other",
]  # fmt: skip


def lines_of(text: bytes) -> list[bytes]:
    return text.splitlines(keepends=True)


def drop_line(draw: Random, text: bytes) -> Optional[bytes]:
    lines = lines_of(text)
    if lines:
        del lines[draw.randrange(len(lines))]
    return b"".join(lines)


def double_line(draw: Random, text: bytes) -> Optional[bytes]:
    lines = lines_of(text)
    if lines:
        place = draw.randrange(len(lines))
        lines.insert(place, lines[place])
    return b"".join(lines)


def exchange_lines(draw: Random, text: bytes) -> Optional[bytes]:
    lines = lines_of(text)
    if len(lines) < 2:
        return None
    i, j = draw.sample(range(len(lines)), 2)
    lines[i], lines[j] = lines[j], lines[i]
    return b"".join(lines)


def exchange_labels(draw: Random, text: bytes) -> Optional[bytes]:
    lines = lines_of(text)
    labels = [i for i, x in enumerate(lines) if x.startswith(b"label ")]
    if len(labels) < 2:
        return None
    i, j = draw.sample(labels, 2)
    lines[i], lines[j] = lines[j], lines[i]
    return b"".join(lines)


def drop_label(draw: Random, text: bytes) -> Optional[bytes]:
    """One label less, and its list's count one less."""
    lines = lines_of(text)
    labels = [i for i, x in enumerate(lines) if x.startswith(b"label ")]
    if not labels:
        return None
    place = draw.choice(labels)
    del lines[place]
    for i in range(place - 1, -1, -1):
        found = COUNT.match(lines[i].rstrip(b"\n"))
        if found:
            count = int(found.group(2)) - 1
            lines[i] = lines[i][: found.start(2)] + b"%d\n" % count
            return b"".join(lines)
    return None


def change_number(draw: Random, text: bytes) -> Optional[bytes]:
    """A number one or a few more or less, or another one."""
    places = list(NUMBER.finditer(text))
    if not places:
        return None
    found = draw.choice(places)
    number = int(found.group()[:50])
    if draw.random() < 0.75:
        number = max(0, number + draw.choice([-1, 1, -1, 1, -2, 2, 7, -7]))
    elif draw.random() < 0.5:
        number = int(draw.choice(places).group()[:50])
    else:
        number = draw.choice(NUMBERS)
    return text[: found.start()] + b"%d" % number + text[found.end() :]


def change_label(draw: Random, text: bytes) -> Optional[bytes]:
    """A label's levels or times all one more or less, or a point less."""
    lines = lines_of(text)
    labels = [i for i, x in enumerate(lines) if x.startswith(b"label ")]
    if not labels:
        return None
    place = draw.choice(labels)
    words = lines[place].split()
    first = next(i for i, word in enumerate(words) if b":" in word)
    points = [list(map(int, word.split(b":"))) for word in words[first:]]
    side, by = draw.choice([(0, 1), (0, -1), (1, 1), (1, -1), (1, -2), (2, 0)])
    if side < 2:
        for point in points:
            point[side] = max(0, point[side] + by)
    elif len(points) > 1:
        del points[draw.randrange(len(points))]
    spelled = [b"%d:%d" % tuple(point) for point in points]
    lines[place] = b" ".join(words[:first] + spelled) + b"\n"
    return b"".join(lines)


def scale_section(draw: Random, text: bytes) -> Optional[bytes]:
    """Weight and prices times two or three; or the weight 0."""
    factor = draw.choice([2, 3, 0])
    parts = re.split(rb"(?m)^(section [0-9]+|prices.*)", text)
    for i in range(1, len(parts), 2):
        name, *numbers = parts[i].split()
        if name == b"section" or factor > 0:
            scaled = [b"%d" % (factor * int(number)) for number in numbers]
            parts[i] = b" ".join([name, *scaled])
    return b"".join(parts)


def raise_price(draw: Random, text: bytes) -> Optional[bytes]:
    """A price and the bound some more, or some less."""
    by = draw.choice([1, 1, -1, 2, 10, -10])
    found = re.search(rb"(?m)^prices (.*)$", text)
    if not found:
        return None
    prices = list(map(int, found.group(1).split()))
    if not prices:
        return None
    place = draw.randrange(len(prices))
    prices[place] = prices[place] + by
    line = b"prices " + b" ".join(b"%d" % price for price in prices)
    text = text[: found.start()] + line + text[found.end() :]
    bound = re.search(rb"(?m)^bound ([0-9]+)$", text)
    if bound and draw.random() < 0.7:
        number = max(0, int(bound.group(1)) + by)
        text = text[: bound.start(1)] + b"%d" % number + text[bound.end() :]
    return text


def forget_bound(draw: Random, text: bytes) -> Optional[bytes]:
    """No bound, no root, no weight; or a bound where there was none."""
    if draw.random() < 0.5:
        return re.sub(rb"(?m)^bound none$", b"bound 0", text)
    text = re.sub(rb"(?m)^bound [0-9]+$", b"bound none", text)
    if draw.random() < 0.7:
        text = re.sub(rb"(?m)^(share|column|basis|tight) .*\n", b"", text)
        text = re.sub(rb"(?m)^root .*$", b"root none", text)
    if draw.random() < 0.5:
        text = re.sub(rb"(?m)^section [0-9]+", b"section 0", text)
    return text


def forbid_pair(draw: Random, text: bytes) -> Optional[bytes]:
    """A forbidden pair more in section 0, or none any more."""
    found = re.search(rb"(?m)^section (\S+) (\S+) (\S+)\n(prices.*\n)", text)
    if not found:
        return None
    weight, count, labels, prices = found.groups()
    pair = b"pair %d %d\n" % (draw.randint(0, 3), draw.randint(0, 3))
    rest = text[found.end() :]
    if draw.random() < 0.5:
        rest, count = pair + rest, b"%d" % (int(count) + 1)
    else:
        rest, count = re.sub(rb"^(pair .*\n)*", b"", rest), b"0"
    head = b"section %s %s %s\n%s" % (weight, count, labels, prices)
    return text[: found.start()] + head + rest


def split_leaf(draw: Random, text: bytes) -> Optional[bytes]:
    """A leaf becomes a split with two leaves of the same section."""
    leaves = list(re.finditer(rb"(?m)^leaf [0-9]+\n", text))
    if not leaves:
        return None
    found = draw.choice(leaves)
    split = b"split %d %d\n" % (draw.randint(1, 4), draw.randint(1, 4))
    tree = split + found.group() + found.group()
    return text[: found.start()] + tree + text[found.end() :]


def change_stop(draw: Random, text: bytes) -> Optional[bytes]:
    """In a line of stops a stop less, twice, elsewhere, or another one."""
    lines = lines_of(text)
    names = (b"route ", b"kind ", b"share ", b"column ", b"tight ")
    routes = [
        i
        for i, line in enumerate(lines)
        if line.startswith(names) and line.endswith(b" 0\n")
    ]
    if not routes:
        return None
    place = draw.choice(routes)
    words = lines[place].split()
    at = draw.randrange(1, len(words))
    kind = draw.randrange(4)
    if kind == 0:
        del words[at]
    elif kind == 1:
        words.insert(at, words[at])
    elif kind == 2:
        other = draw.randrange(1, len(words))
        words[at], words[other] = words[other], words[at]
    else:
        stop = draw.choice([b"v%d", b"%d", b"v%d+1", b"%d+2"])
        words.insert(at, stop % draw.randint(0, 6))
    lines[place] = b" ".join(words) + b"\n"
    return b"".join(lines)


def change_routes(draw: Random, text: bytes) -> Optional[bytes]:
    """A route of a plan less, or twice, and their count with it; or one that
    serves nobody."""
    lines = lines_of(text)
    routes = range(2, len(lines))
    if not routes or not lines[1].startswith(b"routes "):
        return None
    place = draw.choice(routes)
    kind = draw.randrange(3)
    if kind == 0:
        del lines[place]
    elif kind == 1:
        lines.insert(place, lines[place])
    else:
        empty = re.sub(rb"route .*", b"route 0 v%d 0", lines[place])
        lines.insert(place, empty % draw.randint(0, 6))
    lines[1] = b"routes %d\n" % (len(lines) - 2)
    return b"".join(lines)


# The lines of a leaf of a tree.
LEAF = re.compile(rb"(?m)^leaf\n(?:(?:section|prices|near|entry|label)\b.*\n)*")
BRANCH = re.compile(rb"(?m)^(?:split|entries) .*\n")


def draw_branch_line(draw: Random) -> bytes:
    """The line of a branch of a tree, whose customers are near the least."""
    nodes = [draw.randint(1, 6) for _ in range(3)]
    if draw.random() < 0.5:
        return b"split %d %d\n" % (nodes[0], nodes[1])
    members = b",".join(b"%d" % node for node in sorted(set(nodes)))
    return b"entries %d %s\n" % (draw.randint(0, 3), members)


def change_branch(draw: Random, text: bytes) -> Optional[bytes]:
    """Another branch of a tree, or its two customers exchanged."""
    places = list(BRANCH.finditer(text))
    if not places:
        return None
    found = draw.choice(places)
    words = found.group().split()
    line = draw_branch_line(draw)
    if words[0] == b"split" and draw.random() < 0.5:
        line = b"split %s %s\n" % (words[2], words[1])
    return text[: found.start()] + line + text[found.end() :]


def branch_leaf(draw: Random, text: bytes) -> Optional[bytes]:
    """A leaf of a tree becomes a branch with two leaves of the same lines,
    with an entry price more where a set is counted there."""
    leaves = list(LEAF.finditer(text))
    if not leaves:
        return None
    found = draw.choice(leaves)
    line, leaf = draw_branch_line(draw), found.group()
    if line.startswith(b"entries") and draw.random() < 0.8:
        place = leaf.find(b"label ")
        price = b"entry %d\n" % draw.choice([0, 0, 1, -1])
        leaf = leaf[:place] + price + leaf[place:]
    return text[: found.start()] + line + leaf + leaf + text[found.end() :]


def exchange_leaves(draw: Random, text: bytes) -> Optional[bytes]:
    leaves = list(LEAF.finditer(text))
    if len(leaves) < 2:
        return None
    one, other = sorted(draw.sample(range(len(leaves)), 2))
    first, second = leaves[one], leaves[other]
    return (
        text[: first.start()]
        + second.group()
        + text[first.end() : second.start()]
        + first.group()
        + text[second.end() :]
    )


def change_last(draw: Random, text: bytes) -> Optional[bytes]:
    """A label's last is another one, there is one more, or one less."""
    lines = lines_of(text)
    labels = [i for i, x in enumerate(lines) if x.startswith(b"label ")]
    if not labels:
        return None
    lasts = [i for i in labels if len(lines[i].split()) > 5] or labels
    place = draw.choice(draw.choice([labels, lasts]))
    words = lines[place].split()
    last = draw.choice([b"*", b"*", b"0", b"1", b"2", b"3", b"-"])
    kind = draw.randrange(4)
    words[2 : 2 if kind == 0 else 3] = [] if kind == 1 else [last]
    lines[place] = b" ".join(words) + b"\n"
    return b"".join(lines)


def change_set(draw: Random, text: bytes) -> Optional[bytes]:
    """A customer more or less in a set of a line."""
    places = list(re.finditer(rb"(?<= )(?:-|[0-9]+(?:,[0-9]+)*)(?=[ \n])", text))
    if not places:
        return None
    found = draw.choice(places)
    own = {int(node) for node in found.group().split(b",") if node != b"-"}
    own ^= {draw.randint(1, 6)}
    members = b",".join(b"%d" % node for node in sorted(own)) or b"-"
    return text[: found.start()] + members + text[found.end() :]


def change_sign(draw: Random, text: bytes) -> Optional[bytes]:
    """A number below 0 that was above it, or the other way round."""
    places = list(re.finditer(rb"(?<= )-?[0-9]+(?=[ \n])", text))
    if not places:
        return None
    found = draw.choice(places)
    number = b"%d" % -int(found.group())
    return text[: found.start()] + number + text[found.end() :]


def respell_number(draw: Random, text: bytes) -> Optional[bytes]:
    """A number in a spelling that isn't read, or out of every range."""
    places = list(NUMBER.finditer(text))
    if not places:
        return None
    found = draw.choice(places)
    spellings = [b"0%s", b"-%s", b"+%s", b"%s.0", b" %s", b"v%s", b"%s" * 38]
    spelling = draw.choice([*spellings, b"-0", b"", b"00", b"h%s", b"-"])
    number = spelling.replace(b"%s", found.group())
    return text[: found.start()] + number + text[found.end() :]


def change_byte(draw: Random, text: bytes) -> Optional[bytes]:
    if not text:
        return None
    place = draw.randrange(len(text))
    kind = draw.randrange(3)
    mark = bytes([draw.choice(MARKS)])
    if kind == 0:
        mark = b""
    end = place if kind == 1 else place + 1
    return text[:place] + mark + text[end:]


def cut_text(draw: Random, text: bytes) -> Optional[bytes]:
    return text[: draw.randint(0, len(text))]


def cut_behind_mark(draw: Random, text: bytes) -> Optional[bytes]:
    """Cut within or right behind a word or a number."""
    places = [found.end() for found in re.finditer(rb"\w+|\W", text)]
    return text[: draw.choice(places)] if places else None


def add_text(draw: Random, text: bytes) -> Optional[bytes]:
    return text + draw.choice([b"\n", b" ", b"0", b"leaf 0\n", b"\x00"])


def change_head(draw: Random, text: bytes) -> Optional[bytes]:
    """Another version in the first line."""
    numbers = [0, 1, 2, 3, 10**37, 10**38 - 1, 10**38, 10**50]
    number = b"%d" % draw.choice(numbers)
    number = draw.choice([number, number, b"01", b"", b"-1", b"x"])
    return re.sub(rb"^(evroute [a-z ]+ )[0-9]+", rb"\g<1>" + number, text)


def change_literal(draw: Random, text: bytes) -> Optional[bytes]:
    """A literal of JSON becomes another one."""
    places = list(re.finditer(rb'[0-9]+|"[a-z]+"(?!:)|\[[^\]]*\]', text))
    if not places:
        return None
    found = draw.choice(places)
    literal = draw.choice(LITERALS)
    return text[: found.start()] + literal + text[found.end() :]


def change_key(draw: Random, text: bytes) -> Optional[bytes]:
    """A key becomes another one."""
    places = list(re.finditer(rb'"([a-z_]+)": ', text))
    if not places:
        return None
    found = draw.choice(places)
    key = draw.choice(KEYS)
    return text[: found.start(1)] + key + text[found.end(1) :]


def add_member(draw: Random, text: bytes) -> Optional[bytes]:
    """An object has a member more, at its beginning or at its end."""
    key = draw.choice(KEYS)
    if draw.random() < 0.2:
        key = b"\\u%04x" % key[0] + key[1:]
    value = draw.choice([*LITERALS, b"7", b"[0,1]", b'"fast"'])
    member = b'"%s": %s' % (key, value)
    if draw.random() < 0.5:
        places = [found.end() for found in re.finditer(rb"\{", text)]
        parts = member, b","
    else:
        places = [found.start() for found in re.finditer(rb"\}", text)]
        parts = b",", member
    if not places:
        return None
    place = draw.choice(places)
    return text[:place] + b"".join(parts) + text[place:]


def copy_literal(draw: Random, text: bytes) -> Optional[bytes]:
    """A text or a number of JSON is put in the place of another one."""
    places = list(re.finditer(rb'[0-9]+|"[a-z]+"(?!:)', text))
    texts = [found for found in places if found.group().startswith(b'"')]
    if not texts:
        return None
    found = draw.choice(draw.choice([places, texts]))
    literal = draw.choice(draw.choice([places, texts])).group()
    return text[: found.start()] + literal + text[found.end() :]


def copy_station(draw: Random, text: bytes) -> Optional[bytes]:
    """A station or a curve more, as another one or nearly so."""
    places = list(re.finditer(rb"\{[^{}]*\}", text))
    if not places:
        return None
    found = draw.choice(places)
    entry = found.group()
    if draw.random() < 0.5:
        entry = change_number(draw, entry) or entry
    if draw.random() < 0.2:
        entry = (entry + b", ") * 16 + entry
    return text[: found.end()] + b", " + entry + text[found.end() :]


def stretch_curve(draw: Random, text: bytes) -> Optional[bytes]:
    """A curve's charges, or its times, some times as large."""
    key = draw.choice([b"charge", b"charge", b"time"])
    places = list(re.finditer(rb'"%s": (\[[0-9, ]+\])' % key, text))
    if not places:
        return None
    found = draw.choice(places)
    factor = draw.choice([2, 7, 1009, 31337, 99989, 10**7])
    numbers = [factor * number for number in json.loads(found.group(1))]
    stretched = json.dumps(numbers).encode()
    return text[: found.start(1)] + stretched + text[found.end(1) :]


def change_option(draw: Random, text: bytes) -> Optional[bytes]:
    """A key that may be absent has another number."""
    key = draw.choice([b"t_max", b"max_t", b"min_q", b"home_q", b"max_q"])
    number = b"%d" % draw.choice([*range(50), *NUMBERS])
    member = b'"%s": %s' % (key, draw.choice([number, number, b"null"]))
    if b'"%s"' % key in text:
        return re.sub(rb'"%s": \w+' % key, member, text)
    return b"{" + member + b", " + text[1:]


def change_spaces(draw: Random, text: bytes) -> Optional[bytes]:
    places = [found.start() for found in re.finditer(rb"[ ,:\[]", text)]
    if not places:
        return None
    place = draw.choice(places)
    space = draw.choice([b"\t", b"\r\n", b" ", b"\x0b", b"\xc2\xa0"])
    return text[:place] + space + text[place:]


TEXT_CHANGES: list[Change] = [
    drop_line, double_line, exchange_lines, change_number, change_number,
    change_byte, cut_text, cut_behind_mark, add_text, change_head,
    respell_number, respell_number,
]  # fmt: skip
MEANING_CHANGES: list[Change] = [
    drop_label, exchange_labels, change_number, change_label, scale_section,
    raise_price, forget_bound, forbid_pair, split_leaf, change_stop,
]  # fmt: skip
TREE_CHANGES: list[Change] = [
    *MEANING_CHANGES[:6], change_branch, branch_leaf, exchange_leaves,
    change_last, change_last, change_set, change_sign, forget_bound,
]  # fmt: skip
PLAN_CHANGES: list[Change] = [
    change_stop, change_stop, change_stop, change_routes, change_routes,
    change_number,
]  # fmt: skip
JSON_CHANGES: list[Change] = [
    change_number, change_byte, cut_text, change_literal, change_literal,
    copy_literal, change_key, add_member, add_member, change_spaces,
    copy_station, stretch_curve, change_option, change_option,
]  # fmt: skip


# --------------------------------------------------------------------------
# Changes of a case.
# --------------------------------------------------------------------------


def changed_file(draw: Random, case: Case, name: str, change: Change) -> Case:
    text = change(draw, case.files[name])
    if text is None:
        return case
    return Case(case.words, {**case.files, name: text})


def changed_texts(draw: Random, case: Case) -> Case:
    """A text of a plan or a proof is changed, mostly so that it is still
    one."""
    names = [name for name in ("plan", "cert", "cert") if name in case.files]
    if not names:
        return case
    is_text = draw.random() < 0.4
    for _ in range(draw.choice([1, 1, 1, 2])):
        name = draw.choice(names)
        changes = changes_of(name, case.files[name])
        change = draw.choice(TEXT_CHANGES if is_text else changes)
        case = changed_file(draw, case, name, change)
    return case


def changes_of(name: str, text: bytes) -> list[Change]:
    """The changes that leave a plan or a proof a text, more often than not."""
    if name == "plan":
        return PLAN_CHANGES
    is_tree = text.startswith(evjudge.TREE_HEAD)
    return TREE_CHANGES if is_tree else MEANING_CHANGES


def changed_instance(draw: Random, case: Case) -> Case:
    names = [name for name in case.files if name.startswith("file")]
    change = draw.choice(JSON_CHANGES)
    if draw.random() < 0.3:
        change = change_number
    return changed_file(draw, case, draw.choice(names), change)


def changed_words(draw: Random, case: Case) -> Case:
    """Another limit, charge or route; a file that isn't there; or words that
    are no job, more often than not."""
    words, files = list(case.words), dict(case.files)
    kind = draw.randrange(7)
    numbers = [*map(str, range(12)), "30", "60", "01", "", "x", "-1", "1.0"]
    numbers += [str(10**17), str(10**18), str(10**18 + 1), str(10**40)]
    if kind <= 1:
        words += [draw.choice(["--limit", "--charge"]), draw.choice(numbers)]
    elif kind == 2:
        name = draw.choice(["--limit=", "--nodes=", "--limit", "--", "-x"])
        place = draw.randint(0, len(words))
        words.insert(place, name + draw.choice(numbers))
    elif kind == 3:
        del words[draw.randrange(len(words))]
    elif kind == 4:
        words.insert(draw.randint(1, len(words)), draw.choice(words[1:]))
    elif kind == 5 and "check-route" in words:
        words[2] = changed_route(draw, words[2])
    else:
        del files[draw.choice(list(files))]
    return Case(words, files)


def changed_route(draw: Random, route: str) -> str:
    """The word of a route with another mark or number."""
    place = draw.randint(0, len(route))
    mark = draw.choice([",", "0", "9", "v", ",0", ",1", ",12", " ", "é"])
    end = place + draw.randint(0, 1)
    if draw.random() < 0.1:
        return ",".join(["0", *["1", "2"] * draw.randint(198, 200), "0"])
    if draw.random() < 0.1:
        mark = draw.choice(["1000000000", "1000000001", "9" * 40])
    return route[:place] + mark + route[end:]


def changed(draw: Random, case: Case) -> Case:
    """A case that differs, unless nothing was found to change."""
    for _ in range(9):
        kind = draw.random()
        if kind < 0.7:
            other = changed_texts(draw, case)
        elif kind < 0.92:
            other = changed_instance(draw, case)
        else:
            other = changed_words(draw, case)
        if other != case:
            return other
    return case


# --------------------------------------------------------------------------
# The comparison.
# --------------------------------------------------------------------------


def judged(words: list[str], folder: str) -> tuple[int, str]:
    """What the second judge says, called in the folder of the files."""
    here = os.getcwd()
    os.chdir(folder)
    try:
        return evjudge.answer(words)
    except OSError:
        return evjudge.FAILED, ""
    finally:
        os.chdir(here)


def are_same(one: tuple[int, str], other: tuple[int, str]) -> bool:
    if one[0] == other[0] == evjudge.WRONG_WORDS:
        return True
    return one == other


def name_of(answer: tuple[int, str]) -> str:
    """An answer without its numbers and places, to be counted."""
    status, text = answer
    if status == evjudge.WRONG_WORDS:
        return "words"
    words = text.split("\n")[0].split(" ")
    has_rule = words[1:2] and words[1] not in ("limit", "charge", "kinds")
    shown = words[:3] if has_rule else words[:2]
    if "walk" in words:
        shown += words[words.index("walk") :][:2]
    return f"{status} {' '.join(shown)}"


def keep(case: Case, kind: str, number: int, kept: str) -> str:
    """Leaves the files of a case in a folder of its own."""
    folder = os.path.join(kept, f"{kind}-{number}")
    os.makedirs(folder)
    for name, text in case.files.items():
        with open(os.path.join(folder, name), "wb") as file:
            file.write(text)
    return folder


def draw_case(kind: str, draw: Random, program: Program) -> Case:
    """A case of a kind; another one where the program takes too long."""
    while True:
        try:
            return KINDS[kind](draw, program)
        except subprocess.TimeoutExpired:
            print(f"{kind}: an instance took too long, and is left out")


def compare_kind(
    kind: str, program: Program, seed: int, cases: int, kept: str
) -> int:
    """Compares so many cases of one kind; how many differ."""
    draw = Random(f"{seed} {kind}")
    answers: Counter[str] = Counter()
    differences = 0
    for number in range(cases):
        if number % CASES_AN_INSTANCE == 0:
            drawn = draw_case(kind, draw, program)
        case = drawn
        if number % CASES_AN_INSTANCE:
            case = changed(draw, drawn)
        program.put(case.files)
        said = program.run(case.words)
        own = judged(case.words, program.folder)
        answers[name_of(said)] += 1
        if not are_same(said, own):
            differences += 1
            folder = keep(case, kind, number, kept)
            print(f"{folder}: {case.words}\n  program {said}\n  judge {own}")
    print(f"{kind}: {cases} cases, {differences} differences")
    for answer, count in sorted(answers.items()):
        print(f"  {count:6} {answer}")
    sys.stdout.flush()
    return differences


def gap_program(path: str) -> str:
    """The evgap that belongs to an evroute."""
    folder = os.path.dirname(path)
    crate = os.path.join("evroute", "out")
    if folder == crate or folder.endswith(os.path.join(os.sep, crate)):
        folder = folder[: -len(crate)] + os.path.join("evgap", "out")
    return os.path.join(folder, "evgap")


def main() -> int:
    parser = argparse.ArgumentParser(description=__doc__.split("\n")[0])
    parser.add_argument("program")
    parser.add_argument("--gap")
    parser.add_argument("--seed", type=int, default=1)
    parser.add_argument("--cases", type=int, default=200)
    parser.add_argument("--kind", choices=KINDS)
    words = parser.parse_args()
    kept = tempfile.mkdtemp(prefix="evroute-differences-")
    differences = 0
    with tempfile.TemporaryDirectory() as folder:
        for kind in [words.kind] if words.kind else KINDS:
            path = words.program
            if kind.startswith("gap-check"):
                path = words.gap or gap_program(path)
                if not os.path.exists(path):
                    print(f"{kind}: left out, since there is no {path}")
                    continue
            differences += compare_kind(
                kind, Program(path, folder), words.seed, words.cases, kept
            )
    if not differences:
        os.rmdir(kept)
    return 1 if differences else 0


if __name__ == "__main__":
    sys.exit(main())
