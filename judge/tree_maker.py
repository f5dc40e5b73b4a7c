"""Trees over near routes of tiny instances, drawn for judge/compare.py.

A tree is drawn from the top, its branches and then what stands at its leaves.
The labels of a leaf are made by taking each step from each label, with the
steps of evjudge.py: what no label covers becomes a label. Where too many would
be needed, or a way home earns more than it takes, prices are made less, 0 in
the end. Most trees are accepted, and some are left with a fault."""

from __future__ import annotations

import random
from typing import NamedTuple, Optional, Union

from evjudge import (
    ANYBODY,
    Count,
    Counted,
    Instance,
    Label,
    Lasts,
    LeafLabels,
    NearLeaf,
    Split,
    Way,
    first_way,
    leaf_steps,
    leaf_way_home,
    range_of,
    second_way,
    shows_bound,
    start_of,
    top_way,
)

Random = random.Random
# How many labels a leaf has at most, and how deep a tree is.
MOST_LABELS = 250
MOST_BRANCHES = 3


class Drawn(NamedTuple):
    """The lines of a tree behind the bound, and its leaves."""

    lines: list[str]
    leaves: list[NearLeaf]


def tree_text(draw: Random, instance: Instance) -> str:
    """The text of a tree of an instance."""
    drawn = draw_node(draw, instance, top_way(instance.customers), 0)
    bound = draw_bound(draw, drawn.leaves)
    lines = ["evroute near tree 1", f"bound {bound}", *drawn.lines]
    return "\n".join(lines) + "\n"


def draw_bound(draw: Random, leaves: list[NearLeaf]) -> str:
    """The bound that all leaves show, or another one."""
    if all(shows_bound(leaf, None) for leaf in leaves):
        return draw.choice(["none", "none", str(draw.randrange(1000))])
    bounds = [bound_of(leaf) for leaf in leaves]
    least = min((bound for bound in bounds if bound is not None), default=0)
    return str(max(0, least + draw.choice([0, 0, 0, 0, -1, 1])))


def bound_of(leaf: NearLeaf) -> Optional[int]:
    """The greatest bound that a leaf shows; None where it shows each."""
    total = sum_of(leaf)
    if leaf.weight == 0:
        return None if total > 0 else 0
    return -(-total // leaf.weight)


def sum_of(leaf: NearLeaf) -> int:
    entries = (
        each.price * (each.least if each.price > 0 else each.most)
        for each in leaf.counted
    )
    return sum(leaf.prices) + sum(entries)


# --------------------------------------------------------------------------
# Branches.
# --------------------------------------------------------------------------


def draw_node(
    draw: Random, instance: Instance, way: Way, depth: int
) -> Drawn:
    """A tree below a way."""
    branch = None
    if depth < MOST_BRANCHES and draw.random() < 0.5:
        branch = draw_branch(draw, instance, way)
    if branch is None:
        leaf = draw_leaf(draw, instance, way)
        return Drawn(leaf_lines(instance, leaf), [leaf])
    one = first_way(way, branch, instance.customers)
    other = second_way(way, branch, instance.customers)
    first = draw_node(draw, instance, one, depth + 1)
    second = draw_node(draw, instance, other, depth + 1)
    line = branch_line(instance, branch)
    lines = [line, *first.lines, *second.lines]
    return Drawn(lines, first.leaves + second.leaves)


def draw_branch(
    draw: Random, instance: Instance, way: Way
) -> Union[Split, Count, None]:
    """A split of two customers, or a count of some that isn't settled."""
    nodes = list(instance.customers)
    if len(nodes) < 2:
        return None
    if draw.random() < 0.5:
        return Split(*draw.sample(nodes, 2))
    members = draw_set(draw, len(nodes), 1 << draw.randrange(len(nodes)))
    if way.ranges and draw.random() < 0.5:
        members = draw.choice(list(way.ranges))
    least, most = range_of(way, members)
    return Count(draw.randrange(least, most), members) if least < most else None


def draw_set(draw: Random, customers: int, own: int) -> int:
    """A set of customers that has these."""
    some = draw.choice([0.0, 0.3, 0.6, 1.0])
    others = (1 << c for c in range(customers) if draw.random() < some)
    return own | sum(set(others) - {own})


def branch_line(instance: Instance, branch: Union[Split, Count]) -> str:
    if isinstance(branch, Split):
        return f"split {branch.i} {branch.j}"
    return f"entries {branch.most} {set_text(instance, branch.members)}"


# --------------------------------------------------------------------------
# Leaves.
# --------------------------------------------------------------------------


def draw_leaf(draw: Random, instance: Instance, way: Way) -> NearLeaf:
    """A leaf whose labels are closed, or nearly so."""
    is_free, leaf = draw.random() < 0.3, draw_terms(draw, instance, way)
    labels = closed_labels(instance, leaf, is_free)
    while labels is None and draw.random() < 0.95:
        leaf = with_less(leaf)
        labels = closed_labels(instance, leaf, is_free)
    if labels is None:
        labels = [start_of(instance.full)]
    return leaf._replace(labels=labels)


def draw_terms(draw: Random, instance: Instance, way: Way) -> NearLeaf:
    """Weight, prices and near sets."""
    count = len(instance.customers)
    weight = draw.choice([0, 1, 1, 1, 2, 3])
    prices = []
    for node in instance.customers:
        away = instance.time[0][node] + instance.time[node][0]
        part = draw.choice([0, 1, 1, 2, 2, 2, 3, -1])
        prices.append(max(weight, draw.randrange(2)) * away * part // 2)
    counted = [
        Counted(members, *ends, draw.choice([0, 1, 3, 7, -1, -4]))
        for members, ends in way.ranges.items()
    ]
    near = [draw_set(draw, count, 1 << number) for number in range(count)]
    return NearLeaf(weight, prices, near, [], way.nexts, counted)


def with_less(leaf: NearLeaf) -> NearLeaf:
    """The same with smaller prices, 0 after some times."""
    prices = [int(price / 2) for price in leaf.prices]
    counted = [
        each._replace(price=int(each.price / 2)) for each in leaf.counted
    ]
    weight = leaf.weight if any(prices) else 1
    return leaf._replace(weight=weight, prices=prices, counted=counted)


class Closing(LeafLabels):
    """Labels of a leaf that become more."""

    def add(self, label: Label) -> None:
        here = self.at_place.setdefault((label.last, label.node), {})
        here.setdefault(label.served, []).append(label)
        if label.last not in self.lasts_at.setdefault(label.node, []):
            self.lasts_at[label.node].append(label.last)
        self.labels.append(label)


def closed_labels(
    instance: Instance, leaf: NearLeaf, is_free: bool
) -> Optional[list[Label]]:
    """Labels that are closed at a leaf, if there are some and not too many;
    at stations the last is forgotten where it is free."""
    lasts = Lasts(instance, leaf)
    labels = Closing(leaf._replace(labels=[]), lasts)
    labels.add(start_of(instance.full))
    for label in labels.labels:
        time = leaf_way_home(instance, lasts, label)
        if time is not None and leaf.weight * time < label.paid:
            return None
        for state in leaf_steps(instance, leaf, lasts, label):
            if labels.covers(state):
                continue
            if is_free and state.node in instance.curves:
                state = state._replace(last=ANYBODY)
            labels.add(state)
        if len(labels.labels) > MOST_LABELS:
            return None
    return labels.labels


# --------------------------------------------------------------------------
# Lines.
# --------------------------------------------------------------------------


def set_text(instance: Instance, members: int) -> str:
    nodes = [
        str(node)
        for node, number in instance.customers.items()
        if members >> number & 1
    ]
    return ",".join(nodes) or "-"


def leaf_lines(instance: Instance, leaf: NearLeaf) -> list[str]:
    prices = "".join(f" {price}" for price in leaf.prices)
    return [
        "leaf",
        f"section {leaf.weight} {len(leaf.labels)}",
        f"prices{prices}",
        *(f"near {set_text(instance, near)}" for near in leaf.near),
        *(f"entry {each.price}" for each in leaf.counted),
        *(label_line(instance, label) for label in leaf.labels),
    ]


def label_line(instance: Instance, label: Label) -> str:
    last = ""
    if label.node in instance.curves:
        last = " *" if label.last == ANYBODY else f" {label.last}"
    members = set_text(instance, label.served)
    pairs = zip(label.value.levels, label.value.times)
    points = "".join(f" {level}:{time}" for level, time in pairs)
    return f"label {label.node}{last} {members} {label.paid}{points}"
