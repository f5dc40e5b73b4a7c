#!/usr/bin/env python3
"""A second judge of evroute's plans, certificates and proofs.

It is written from the documents of the repository alone (docs/instances.md,
plans.md, certificates.md, bounds.md, near-trees.md, proofs.md), in their order
and in their words, and puts the lines of `evroute check`, `check-bound`,
`check-route` and `check-mixed` and of `evgap check`, with the same exit
statuses. It counts in whole numbers and needs Python 3.9 and nothing else. It
is tested against the proved judge, not proved itself: docs/second-judge.md.

The parts: instances; plans; the values of labels; closed lists of labels;
certificates; bases that are too wide; several kinds of vehicles; near proofs;
trees over near routes; proofs of routes; their texts; the text of an instance;
the commands.
"""

from __future__ import annotations

import re
import sys
from bisect import bisect_left, bisect_right
from functools import partial
from math import gcd
from typing import (
    Any,
    Callable,
    Iterator,
    NamedTuple,
    Optional,
    TypeVar,
    Union,
)

BILLION = 10**9
MOST_NODES = 400
MOST_CUSTOMERS = 128
MOST_CURVES = 16
MOST_BREAKPOINTS = 32
MOST_ROUTES = 10**6
MOST_SCALED_TIME = 10**18
MOST_OPTION = 10**18
MOST_COUNT = 2**64 - 1
MOST_PAIRS = 16641
MOST_BOUND = 2**96
MOST_WEIGHT = 2**40
MOST_PRICE = 2**84
MOST_NEAR_PRICE = 10**18
MOST_COUNTED_SETS = 64
MOST_DIGITS = 38
MOST_JSON_BYTES = 2**26
MOST_PLAN_BYTES = 2**26
MOST_CERTIFICATE_BYTES = 2**28
MOST_JSON_DEPTH = 127


class Refused(Exception):
    """A rule on files or words is broken: the line behind `refused`."""


class Rejected(Exception):
    """A plan, certificate or proof breaks a rule: what follows `rejected`."""


# --------------------------------------------------------------------------
# Instances (docs/instances.md). Node 0 is the depot. All times are scaled:
# multiplied by the denominator of the instance, which makes them whole.
# --------------------------------------------------------------------------


class Value:
    """Times by level: given at some levels, and between two of these each
    level takes the same time more. Levels rise, times never fall."""

    __slots__ = ("levels", "times")

    def __init__(self, levels: list[int], times: list[int]) -> None:
        self.levels = levels
        self.times = times

    def at(self, level: int) -> int:
        """The time of a level from the first to the last one."""
        i = bisect_right(self.levels, level) - 1
        gap = level - self.levels[i]
        return self.times[i] + gap * self.rise(i) if gap else self.times[i]

    def rise(self, i: int) -> int:
        """The time that each level takes behind the point `i`."""
        times = self.times[i + 1] - self.times[i]
        return times // (self.levels[i + 1] - self.levels[i])

    def earliest(self, level: int) -> int:
        """The least time of `level` or a higher one."""
        return self.at(max(level, self.levels[0]))

    def between(self, first: int, last: int) -> Value:
        """The same from a first level to a last one."""
        begin = bisect_right(self.levels, first)
        levels = [first, *self.levels[begin : bisect_left(self.levels, last)]]
        levels += [last] if first < last else []
        return Value(levels, [self.at(level) for level in levels])

    def last_within(self, limit: int) -> int:
        """The last level whose time is within the limit, where one is."""
        i = bisect_right(self.times, limit) - 1
        if i == len(self.times) - 1:
            return self.levels[i]
        return self.levels[i] + (limit - self.times[i]) // self.rise(i)


class Curve(NamedTuple):
    """A charging curve: the time from empty to each level, and the time to
    plug in."""

    charge_time: Value
    plug_time: int


class Instance(NamedTuple):
    """What an instance means: its battery levels, its arcs and its nodes."""

    nodes: int
    full: int
    reserve: int
    home_level: int
    energy: list[list[int]]
    # Of an arc and the visit behind it.
    time: list[list[int]]
    # By node: those of the stations.
    curves: dict[int, Curve]
    # The customers' numbers by their nodes, in rising order.
    customers: dict[int, int]
    denominator: int
    # On the time of a route.
    limit: int

    def over(self, time: Optional[int]) -> str:
        """A scaled time as it is put, or none."""
        return "none" if time is None else f"{time}/{self.denominator}"


# --------------------------------------------------------------------------
# Plans (docs/plans.md).
# --------------------------------------------------------------------------


class Stop(NamedTuple):
    inserted: bool
    node: int
    amount: int


# The first and the last stop of each route.
END = Stop(False, 0, 0)


class Route(NamedTuple):
    """The stops of a vehicle of a kind; of one kind alone it is 0."""

    kind: int
    stops: list[Stop]


class BrokenWalk(Exception):
    """The rule of a walk that is broken, and at which stop."""


def walk(instance: Instance, start: int, stops: list[Stop]) -> int:
    """The time of a walk along the stops, from a level at the start."""
    if len(stops) < 2 or stops[0] != END or stops[-1] != END:
        raise BrokenWalk("1")
    level, time = start, 0
    for at in range(1, len(stops)):
        rule, level, time = next_stop(instance, stops, at, level, time)
        if rule:
            raise BrokenWalk(f"{rule} at {at}")
    return time


def next_stop(
    instance: Instance, stops: list[Stop], at: int, level: int, time: int
) -> tuple[int, int, int]:
    """The rule that the stop breaks or 0, and level and time behind it."""
    before, stop = stops[at - 1], stops[at]
    if stop.node >= instance.nodes:
        return 2, level, time
    if stop.node == before.node:
        return 3, level, time
    is_home = at == len(stops) - 1
    arrived = level - instance.energy[before.node][stop.node]
    if arrived < least_level(instance, is_home):
        return 4, level, time
    curve = instance.curves.get(stop.node)
    if curve is None and (stop.inserted or stop.amount > 0):
        return 5, level, time
    left = arrived + stop.amount
    if left > instance.full:
        return 6, level, time
    time += instance.time[before.node][stop.node]
    if curve is not None and stop.amount > 0:
        time += curve.plug_time
        time += curve.charge_time.at(left) - curve.charge_time.at(arrived)
    return 7 if time > instance.limit else 0, left, time


def least_level(instance: Instance, is_home: bool) -> int:
    """The least level on arriving."""
    if is_home:
        return max(instance.reserve, instance.home_level)
    return instance.reserve


def served_nodes(instance: Instance, stops: list[Stop]) -> list[int]:
    """The nodes of the customers who are served, in order."""
    return [stop.node for stop in stops if stop.node in instance.customers]


def stray_stop(instance: Instance, stops: list[Stop]) -> Optional[int]:
    """The first stop that wasn't inserted, and is neither a customer nor the
    first or last stop."""
    for at, stop in enumerate(stops[1:-1], 1):
        if not stop.inserted and stop.node not in instance.customers:
            return at
    return None


def judge_plan(kinds: list[Instance], routes: list[Route]) -> int:
    """The cost of a fleet plan, by the five rules."""
    cost = 0
    for number, route in enumerate(routes):
        instance = kinds[route.kind]
        try:
            cost += walk(instance, instance.full, route.stops)
        except BrokenWalk as rule:
            raise Rejected(f"plan 1 route {number} walk {rule}") from None
    served = [
        served_nodes(kinds[route.kind], route.stops) for route in routes
    ]
    judge_services(kinds[0], served)
    for number, route in enumerate(routes):
        at = stray_stop(kinds[route.kind], route.stops)
        if at is not None:
            raise Rejected(f"plan 5 route {number} at {at}")
    return cost


def judge_services(instance: Instance, served: list[list[int]]) -> None:
    """The rules 2 to 4 of a fleet plan."""
    times_served = dict.fromkeys(instance.customers, 0)
    for nodes in served:
        for node in nodes:
            times_served[node] += 1
    for node, times in times_served.items():
        if times > 1:
            raise Rejected(f"plan 2 customer {node}")
    for node, times in times_served.items():
        if times == 0:
            raise Rejected(f"plan 3 customer {node}")
    for number, nodes in enumerate(served):
        if not nodes:
            raise Rejected(f"plan 4 route {number}")


# --------------------------------------------------------------------------
# Steps of a vehicle (docs/certificates.md, 'Steps'). A value stands for a
# vehicle at each of its levels.
# --------------------------------------------------------------------------


def arriving(
    value: Value, energy: int, time: int, least: int, limit: int
) -> Optional[Value]:
    """What is left of a value behind an arc: the levels that are at least the
    least one, at times within the limit; or nothing."""
    first = max(value.levels[0], least + energy)
    if first > value.levels[-1] or value.at(first) + time > limit:
        return None
    kept = value.between(first, value.last_within(limit - time))
    levels = [level - energy for level in kept.levels]
    return Value(levels, [past + time for past in kept.times])


def leaving(value: Value, curve: Optional[Curve], limit: int) -> list[Value]:
    """What a vehicle may leave a node with: as it arrives; and where there is
    a curve, after plugging in and charging any amount from any level.

    Between two neighbouring points of value and curve, the time on arriving
    less the charge time changes evenly from level to level. Where it doesn't
    fall, charging from a level between them is no faster than from the lower
    point. Where it falls, it is no faster than to arrive with the level that
    is wanted, or at the upper point and to charge from there. So charging
    from the points is enough; and of these, from the ones at which that
    difference is less than at all before."""
    values = [value]
    if curve is None:
        return values
    charge_time = curve.charge_time
    first, last = value.levels[0], value.levels[-1]
    points = {y for y in charge_time.levels if first < y < last}
    least = None
    for level in sorted(points.union(value.levels)):
        difference = value.at(level) - charge_time.at(level)
        if least is None or difference < least:
            least = difference
            values += charging(level, difference, curve, limit)
    return values


def charging(
    level: int, difference: int, curve: Curve, limit: int
) -> list[Value]:
    """The levels from `level` on, come to by charging from there; none where
    that is past the limit."""
    charge_time = curve.charge_time
    levels = [level] + [y for y in charge_time.levels if y > level]
    begin = difference + curve.plug_time
    charged = Value(levels, [begin + charge_time.at(y) for y in levels])
    if charged.times[0] > limit:
        return []
    return [charged.between(level, charged.last_within(limit))]


# --------------------------------------------------------------------------
# Covering (docs/certificates.md, 'What covers'). The labels of certificates,
# of near proofs and of proofs of routes are alike, but for what is 0 in them.
# --------------------------------------------------------------------------


class Label(NamedTuple):
    """A vehicle that leaves a node, or, level by level, states to be covered.

    `last` is the last customer, or in a proof of a route the index of the
    node that was served last. `served` is the set of those that were served,
    or that are remembered, with the bit 2**c for customer number c.
    `services` is how many there were, told in near proofs alone. `paid` is
    what was paid for them by prices."""

    last: int
    node: int
    served: int
    services: int
    paid: int
    value: Value


def margin(weight: int, more: int) -> Optional[int]:
    """By how much a label has to be earlier than a state for whose services
    `more` is paid: the least time that makes up for it, if one does."""
    if more <= 0:
        return 0
    return -(-more // weight) if weight else None


def reach(value: Value, other: Value, earlier: int, level: int) -> int:
    """The last level up to which `other` covers the value from `level` on:
    it has a level at least as high, earlier by so much. One less than
    `level` where it doesn't cover that.

    Between two neighbouring points of both, the difference of times changes
    evenly; so where it is good at two levels it is good between them."""
    last = min(value.levels[-1], other.levels[-1])
    if level > last:
        return level - 1
    spare = value.at(level) - other.earliest(level) - earlier
    if spare < 0:
        return level - 1
    points = {*value.levels, *other.levels, last}
    for point in sorted(y for y in points if level < y <= last):
        spare_there = value.at(point) - other.earliest(point) - earlier
        if spare_there < 0:
            fall = (spare - spare_there) // (point - level)
            return level + spare // fall
        level, spare = point, spare_there
    return last


class LabelList:
    """The labels of a list under a weight of time, to be found by where they
    stand and by whom they have served."""

    def __init__(self, weight: int, labels: list[Label]) -> None:
        self.weight = weight
        self.labels = labels
        self.at_place: dict[tuple[int, int], dict[int, list[Label]]] = {}
        for label in labels:
            here = self.at_place.setdefault((label.last, label.node), {})
            here.setdefault(label.served, []).append(label)

    def coverers(self, state: Label) -> Iterator[tuple[Value, int]]:
        """The values of the labels that may cover the state, each with the
        time by which it has to be earlier."""
        here = self.at_place.get((state.last, state.node), {})
        for label in here.get(state.served, []):
            yield from self.coverer(label, state)
        for served, labels in here.items():
            if served != state.served and served & ~state.served == 0:
                for label in labels:
                    yield from self.coverer(label, state)

    def coverer(
        self, label: Label, state: Label
    ) -> Iterator[tuple[Value, int]]:
        earlier = margin(self.weight, state.paid - label.paid)
        if label.services <= state.services and earlier is not None:
            yield label.value, earlier

    def covers(self, state: Label) -> bool:
        """Whether labels of the list cover the state at each of its levels."""
        level = state.value.levels[0]
        while level <= state.value.levels[-1]:
            reached = self.covers_up_to(state, level)
            if reached < level:
                return False
            level = reached + 1
        return True

    def covers_up_to(self, state: Label, level: int) -> int:
        """The level up to which the first label that covers the state at
        `level` goes on to; one less where there is none."""
        for value, earlier in self.coverers(state):
            reached = reach(state.value, value, earlier, level)
            if reached >= level:
                return reached
        return level - 1


# --------------------------------------------------------------------------
# Closed lists of labels (docs/certificates.md, rules 1 to 3).
# --------------------------------------------------------------------------


class BrokenList(Exception):
    """The rule of a closed list that is broken, and where it is."""

    def __init__(self, rule: int, place: str) -> None:
        super().__init__(rule, place)
        self.rule = rule
        self.place = place


# The states behind the steps from a label to customers and stations.
Steps = Callable[[Label], Iterator[Label]]
# The least time of a step home from a label, where there is one.
WayHome = Callable[[Label], Optional[int]]


def start_of(level: int) -> Label:
    """The depot at time 0, before any service."""
    return Label(0, 0, 0, 0, 0, Value([level], [0]))


def judge_closed(
    full: int, labels: LabelList, steps: Steps, way_home: WayHome
) -> None:
    """The rules 1 to 3: the start, the steps, and the steps home."""
    if not labels.covers(start_of(full)):
        raise BrokenList(1, "")
    for number, label in enumerate(labels.labels):
        for state in steps(label):
            if not labels.covers(state):
                raise BrokenList(2, f" label {number} node {state.node}")
    for number, label in enumerate(labels.labels):
        time = way_home(label)
        if time is not None and labels.weight * time < label.paid:
            raise BrokenList(3, f" label {number}")


def arriving_at(
    instance: Instance, label: Label, node: int, limit: int
) -> Optional[Value]:
    """What is left of a label on arriving at another node, not at home."""
    if node == label.node:
        return None
    energy = instance.energy[label.node][node]
    time = instance.time[label.node][node]
    return arriving(label.value, energy, time, instance.reserve, limit)


def time_home(instance: Instance, label: Label, limit: int) -> Optional[int]:
    """The least time of a step home from a label."""
    if label.node == 0:
        return None
    energy, time = instance.energy[label.node][0], instance.time[label.node][0]
    least = least_level(instance, True)
    value = arriving(label.value, energy, time, least, limit)
    return None if value is None else value.times[0]


def states_at_station(
    instance: Instance, label: Label, node: int, limit: int
) -> Iterator[Label]:
    """The states behind a step to a station."""
    value = arriving_at(instance, label, node, limit)
    if value is not None:
        for left in leaving(value, instance.curves[node], limit):
            yield label._replace(node=node, value=left)


# --------------------------------------------------------------------------
# Certificates (docs/certificates.md).
# --------------------------------------------------------------------------

# That the second node comes next after the first on a route, whatever
# stations stand between.
Pair = tuple[int, int]


class Section(NamedTuple):
    weight: int
    # By customers' numbers.
    prices: list[int]
    forbidden: frozenset[Pair]
    labels: list[Label]


class Split(NamedTuple):
    i: int
    j: int


class Leaf(NamedTuple):
    section: int


class Share(NamedTuple):
    share: int
    route: Route


class Entry(NamedTuple):
    """An entry of a basis: the helper of a customer, or a listed column, by
    their numbers."""

    is_helper: bool
    number: int


class NoRoot(NamedTuple):
    pass


class ExactRoot(NamedTuple):
    over: int
    shares: list[Share]


class WideRoot(NamedTuple):
    columns: list[Route]
    basis: list[Entry]


Root = Union[NoRoot, ExactRoot, WideRoot]


class Certificate(NamedTuple):
    # What no fleet plan costs less than; None where there is no fleet plan.
    bound: Optional[int]
    root: Root
    sections: list[Section]
    # In preorder.
    tree: list[Union[Split, Leaf]]


def section_steps(
    instance: Instance, section: Section, label: Label
) -> Iterator[Label]:
    """The states behind the steps from a label to customers and stations, by
    rising node."""
    for node in range(instance.nodes):
        if node in instance.curves:
            yield from states_at_station(instance, label, node, instance.limit)
        elif node in instance.customers:
            yield from state_at_customer(instance, section, label, node)


def state_at_customer(
    instance: Instance, section: Section, label: Label, node: int
) -> Iterator[Label]:
    """The state behind a step to a customer who wasn't served."""
    number = instance.customers[node]
    served = label.served | (1 << number)
    if served != label.served and (label.last, node) not in section.forbidden:
        value = arriving_at(instance, label, node, instance.limit)
        if value is not None:
            paid = label.paid + section.prices[number]
            yield Label(node, node, served, 0, paid, value)


def section_way_home(
    instance: Instance, section: Section, label: Label
) -> Optional[int]:
    """A step home is one behind a customer, along a pair that isn't
    forbidden."""
    if label.last == 0 or (label.last, 0) in section.forbidden:
        return None
    return time_home(instance, label, instance.limit)


def judge_section(instance: Instance, section: Section) -> None:
    """The rules 1 to 3."""
    labels = LabelList(section.weight, section.labels)
    steps = partial(section_steps, instance, section)
    way_home = partial(section_way_home, instance, section)
    judge_closed(instance.full, labels, steps, way_home)


def bound_of(weight: int, prices: list[int]) -> Optional[int]:
    """The bound of a section: its price sum over its weight, rounded up. None
    stands for 'no plan', which is above every number."""
    total = sum(prices)
    if weight > 0:
        return -(-total // weight)
    return None if total > 0 else 0


def is_below(bound: Optional[int], asked: Optional[int]) -> bool:
    """Whether a bound is below the one that is asked, by the same meaning."""
    return bound is not None and (asked is None or bound < asked)


def required(instance: Instance, i: int, j: int) -> set[Pair]:
    """The pairs that are forbidden where j has to follow i."""
    places = [0, *instance.customers]
    after = {(i, other) for other in places if other not in (i, j)}
    before = {(other, j) for other in places if other not in (i, j)}
    return after | before


def leaves(
    instance: Instance, tree: list[Union[Split, Leaf]]
) -> Iterator[tuple[int, frozenset[Pair]]]:
    """The section of each leaf, and the pairs that are forbidden there."""
    waiting: list[frozenset[Pair]] = [frozenset()]
    for line in tree:
        forbidden = waiting.pop()
        if isinstance(line, Leaf):
            yield line.section, forbidden
        else:
            waiting.append(forbidden | required(instance, line.i, line.j))
            waiting.append(forbidden | {(line.i, line.j)})


def judge_certificate(instance: Instance, certificate: Certificate) -> None:
    """The rules 1 to 6."""
    sections = certificate.sections
    for number, section in enumerate(sections):
        try:
            judge_section(instance, section)
        except BrokenList as broken:
            place = f"section {number}{broken.place}"
            raise Rejected(f"certificate {broken.rule} {place}") from None
    for number, leaf in enumerate(leaves(instance, certificate.tree)):
        section, forbidden = sections[leaf[0]], leaf[1]
        if not section.forbidden <= forbidden:
            raise Rejected(f"certificate 4 leaf {number}")
        bound = bound_of(section.weight, section.prices)
        if is_below(bound, certificate.bound):
            raise Rejected(f"certificate 5 leaf {number}")
    first, root = sections[0], certificate.root
    holds = root_holds([instance], root, first.weight, first.prices)
    if first.forbidden or not holds:
        raise Rejected("certificate 6")


class Column(NamedTuple):
    """A column of the master problem: its customers' numbers, its cost; a
    route, or the helper of a customer, which costs nothing."""

    customers: list[int]
    cost: int
    is_helper: bool


def helper_of(customer: int) -> Column:
    return Column([customer], 0, True)


def listed_column(kinds: list[Instance], route: Route) -> Optional[Column]:
    """The column of a listed route; None where the route isn't feasible from
    full, serves nobody or a customer twice, or has a stray stop."""
    instance, stops = kinds[route.kind], route.stops
    try:
        cost = walk(instance, instance.full, stops)
    except BrokenWalk:
        return None
    served = served_nodes(instance, stops)
    if not served or len(set(served)) < len(served):
        return None
    if stray_stop(instance, stops) is not None:
        return None
    numbers = [instance.customers[node] for node in served]
    return Column(numbers, cost, False)


def root_holds(
    kinds: list[Instance], root: Root, weight: int, prices: list[int]
) -> bool:
    """Whether a root holds at the weight and prices of section 0."""
    if isinstance(root, NoRoot):
        return bound_of(weight, prices) is None
    if isinstance(root, ExactRoot):
        return is_exact(kinds, root, weight, prices)
    columns = [listed_column(kinds, route) for route in root.columns]
    found = [column for column in columns if column is not None]
    if len(found) < len(columns):
        return False
    return is_too_wide(len(prices), found, root.basis)


def is_exact(
    kinds: list[Instance], root: ExactRoot, weight: int, prices: list[int]
) -> bool:
    """Whether shares cover each customer exactly once, at the price sum over
    the weight."""
    covered = [0] * len(prices)
    cost = 0
    for share in root.shares:
        column = listed_column(kinds, share.route)
        if column is None:
            return False
        cost += share.share * column.cost
        for number in column.customers:
            covered[number] += share.share
    if any(total != root.over for total in covered):
        return False
    return weight > 0 and cost * weight == sum(prices) * root.over


# --------------------------------------------------------------------------
# Bases that are too wide (docs/certificates.md, 'When a basis is too wide').
# An equation is a combination of the customers' master equations, given by
# its multipliers, one for each customer.
# --------------------------------------------------------------------------

Equation = list[int]


def coefficient(equation: Equation, column: Column) -> int:
    return sum(equation[number] for number in column.customers)


def reduced(numbers: list[int]) -> list[int]:
    """The same without a common divisor."""
    divisor = gcd_of(numbers)
    return [number // divisor for number in numbers]


def gcd_of(numbers: list[int]) -> int:
    divisor = 0
    for number in numbers:
        divisor = gcd(divisor, number)
    return divisor


def lcm_of(numbers: list[int]) -> int:
    multiple = 1
    for number in numbers:
        multiple = multiple // gcd(multiple, number) * number
    return multiple


class Basis:
    """A basis: a column for each row, and its body equation. At first these
    are the helpers, the one of each customer in the customer's row."""

    def __init__(self, customers: int) -> None:
        rows = range(customers)
        self.columns = [helper_of(row) for row in rows]
        self.equations = [[int(row == c) for c in rows] for row in rows]
        # The rows whose column is that of a listed entry.
        self.settled: set[int] = set()

    def enter(self, column: Column) -> bool:
        """The next entry of a listed basis comes in, in place of the last
        helper that may go; whether it is independent of those before."""
        if column in self.columns and column.is_helper:
            self.settled.add(column.customers[0])
            return True
        entries = [coefficient(each, column) for each in self.equations]
        may_go = [
            row
            for row, entry in enumerate(entries)
            if entry != 0 and row not in self.settled
        ]
        if not may_go:
            return False
        self.pivot(may_go[-1], column, entries)
        self.settled.add(may_go[-1])
        return True

    def pivot(self, row: int, column: Column, entries: list[int]) -> None:
        """The column takes the row: its coefficient is 0 in all others."""
        sign = 1 if entries[row] > 0 else -1
        body = [sign * number for number in self.equations[row]]
        own = abs(entries[row])
        for other, entry in enumerate(entries):
            if other != row and entry != 0:
                mixed = [
                    own * a - entry * b
                    for a, b in zip(self.equations[other], body)
                ]
                self.equations[other] = reduced(mixed)
        self.equations[row] = body
        self.columns[row] = column

    def owns(self) -> list[int]:
        """The coefficient of each body equation at its own column."""
        pairs = zip(self.equations, self.columns)
        return [coefficient(equation, column) for equation, column in pairs]

    def sums_with(self, values: list[int]) -> tuple[int, list[int]]:
        """The least weight, and the whole number for each customer, that add
        up over each column of the basis to its value times the weight."""
        owns = self.owns()
        weight = lcm_of(owns)
        numbers = [0] * len(owns)
        for equation, own, value in zip(self.equations, owns, values):
            factor = value * (weight // own)
            numbers = [n + factor * m for n, m in zip(numbers, equation)]
        weight, *numbers = reduced([weight, *numbers])
        return weight, numbers


def is_too_wide(
    customers: int, listed: list[Column], entries: list[Entry]
) -> bool:
    """Whether a start of the listed basis is independent, and with the
    helpers that follow past the caps."""
    basis = Basis(customers)
    for entry in entries:
        number = entry.number
        column = helper_of(number) if entry.is_helper else listed[number]
        if not basis.enter(column):
            return False
        if is_past(basis, listed):
            return True
    return False


def is_past(basis: Basis, listed: list[Column]) -> bool:
    """Whether a basis is past the caps of 2**40 and 2**84."""
    return (
        bodies_are_past(basis, listed)
        or price_list_is_past(basis, listed)
        or helper_list_is_past(basis, listed)
        or share_weight(basis) > MOST_WEIGHT
    )


def bodies_are_past(basis: Basis, listed: list[Column]) -> bool:
    """A coefficient or the right side of a body equation."""
    for equation in basis.equations:
        at_listed = [coefficient(equation, column) for column in listed]
        numbers = [*equation, *at_listed, sum(equation)]
        if any(abs(number) > MOST_WEIGHT for number in numbers):
            return True
    return False


def price_list_is_past(basis: Basis, listed: list[Column]) -> bool:
    costs = [column.cost for column in basis.columns]
    weight, prices = basis.sums_with(costs)
    left = [weight * each.cost - coefficient(prices, each) for each in listed]
    numbers = [*prices, *left, sum(prices)]
    return weight > MOST_WEIGHT or any(abs(n) > MOST_PRICE for n in numbers)


def helper_list_is_past(basis: Basis, listed: list[Column]) -> bool:
    helpers = [int(column.is_helper) for column in basis.columns]
    weight, numbers = basis.sums_with(helpers)
    at_listed = [coefficient(numbers, column) for column in listed]
    entries = [weight, *numbers, *at_listed, sum(numbers)]
    return any(abs(entry) > MOST_PRICE for entry in entries)


def share_weight(basis: Basis) -> int:
    """The least number that makes each right side over its own coefficient
    whole."""
    pairs = zip(basis.equations, basis.owns())
    return lcm_of([own // gcd(own, sum(equation)) for equation, own in pairs])


# --------------------------------------------------------------------------
# Several kinds of vehicles (docs/certificates.md).
# --------------------------------------------------------------------------


class MixedProof(NamedTuple):
    bound: Optional[int]
    root: Root
    weight: int
    prices: list[int]
    # By kind.
    labels: list[list[Label]]


def judge_mixed(kinds: list[Instance], proof: MixedProof) -> None:
    """The rules 1 to 5."""
    weight, prices = proof.weight, proof.prices
    for kind, instance in enumerate(kinds):
        labels = proof.labels[kind]
        section = Section(weight, prices, frozenset(), labels)
        try:
            judge_section(instance, section)
        except BrokenList as broken:
            place = f"kind {kind}{broken.place}"
            raise Rejected(f"mixed {broken.rule} {place}") from None
    if is_below(bound_of(weight, prices), proof.bound):
        raise Rejected("mixed 4")
    if not root_holds(kinds, proof.root, weight, prices):
        raise Rejected("mixed 5")


# --------------------------------------------------------------------------
# Proofs of bounds by near routes (docs/bounds.md).
# --------------------------------------------------------------------------


class NearProof(NamedTuple):
    bound: Optional[int]
    weight: int
    # These three are by customers' numbers.
    prices: list[int]
    near: list[int]
    tight: list[list[Stop]]
    labels: list[Label]


def remembered(
    proof: Union[NearProof, NearLeaf], served: int, number: int
) -> int:
    """Who is remembered behind a service of customer `number`: of those
    before, the ones of its near set; and the customer."""
    return (served & proof.near[number]) | (1 << number)


def near_steps(
    instance: Instance, proof: NearProof, label: Label
) -> Iterator[Label]:
    """The states behind the steps from a label to customers and stations, by
    rising node."""
    for node in range(instance.nodes):
        if node in instance.curves:
            yield from states_at_station(instance, label, node, instance.limit)
        elif node in instance.customers:
            yield from near_state_at_customer(instance, proof, label, node)


def near_state_at_customer(
    instance: Instance, proof: NearProof, label: Label, node: int
) -> Iterator[Label]:
    """The state behind a step to a customer who isn't remembered; there are
    at most as many services as customers."""
    number = instance.customers[node]
    is_remembered = label.served >> number & 1
    if is_remembered or label.services == len(instance.customers):
        return
    value = arriving_at(instance, label, node, instance.limit)
    if value is not None:
        served = remembered(proof, label.served, number)
        paid = label.paid + proof.prices[number]
        yield Label(0, node, served, label.services + 1, paid, value)


def judge_near(instance: Instance, proof: NearProof) -> None:
    """The rules 1 to 5."""
    labels = LabelList(proof.weight, proof.labels)
    steps = partial(near_steps, instance, proof)
    way_home = partial(near_way_home, instance)
    try:
        judge_closed(instance.full, labels, steps, way_home)
    except BrokenList as broken:
        raise Rejected(f"near {broken.rule}{broken.place}") from None
    total = sum(proof.prices)
    if proof.bound is None:
        shows = proof.weight == 0 and total > 0 and not proof.tight
    else:
        shows = proof.weight == 1 and total == proof.bound
    if not shows:
        raise Rejected("near 4")
    for node, stops in zip(instance.customers, proof.tight):
        if not is_tight(instance, proof, node, stops):
            raise Rejected(f"near 5 customer {node}")


def near_way_home(instance: Instance, label: Label) -> Optional[int]:
    """A step home is tested from every label, whatever its count."""
    return time_home(instance, label, instance.limit)


def is_tight(
    instance: Instance, proof: NearProof, node: int, stops: list[Stop]
) -> bool:
    """Whether a near route serves the customer at the node, and takes less
    than it would earn were the price of that customer one higher."""
    try:
        time = walk(instance, instance.full, stops)
    except BrokenWalk:
        return False
    served = served_nodes(instance, stops)
    if not is_near_route(instance, proof, stops):
        return False
    earned = sum(proof.prices[instance.customers[each]] for each in served)
    return node in served and time < earned + served.count(node)


def is_near_route(
    instance: Instance, proof: NearProof, stops: list[Stop]
) -> bool:
    """Whether stops serve customers alone, one at least and as many as there
    are at most, and nobody who is remembered."""
    memory = 0
    served = served_nodes(instance, stops)
    for node in served:
        number = instance.customers[node]
        if memory >> number & 1:
            return False
        memory = remembered(proof, memory, number)
    is_count = 1 <= len(served) <= len(instance.customers)
    return is_count and stray_stop(instance, stops) is None


# --------------------------------------------------------------------------
# Trees over near routes (docs/near-trees.md).
# --------------------------------------------------------------------------

# A last customer that is forgotten, `*`. Other lasts are nodes; 0 is nobody.
ANYBODY = -1


class Way(NamedTuple):
    """What the splits and counts say on the way down."""

    # Who may come next, by last: customers by the bits of their numbers, and
    # home by the bit behind these.
    nexts: dict[int, int]
    # The range of the entries into each set that was counted.
    ranges: dict[int, tuple[int, int]]


class Count(NamedTuple):
    """In the first tree at most so many entries into a set, in the second
    more."""

    most: int
    members: int


class Counted(NamedTuple):
    """A set that is counted above a leaf: how often it is entered, and its
    entry price there."""

    members: int
    least: int
    most: int
    price: int


class NearLeaf(NamedTuple):
    weight: int
    # These two are by customers' numbers.
    prices: list[int]
    near: list[int]
    labels: list[Label]
    # Those of the way to the leaf.
    nexts: dict[int, int]
    counted: list[Counted]


class NearTree(NamedTuple):
    bound: Optional[int]
    leaves: list[NearLeaf]


def top_way(customers: dict[int, int]) -> Way:
    """Nothing is forbidden or counted; nobody goes home before a service."""
    home = 1 << len(customers)
    nexts = dict.fromkeys(customers, 2 * home - 1)
    return Way({ANYBODY: 2 * home - 1, 0: home - 1, **nexts}, {})


def range_of(way: Way, members: int) -> tuple[int, int]:
    """How often a set is entered at least and at most."""
    return way.ranges.get(members, (1, bin(members).count("1")))


def first_way(
    way: Way, branch: Union[Split, Count], customers: dict[int, int]
) -> Way:
    """The way to the first tree of a branch."""
    if isinstance(branch, Count):
        least = range_of(way, branch.members)[0]
        entries = {branch.members: (least, branch.most)}
        return Way(way.nexts, {**way.ranges, **entries})
    after = way.nexts[branch.i] & ~(1 << customers[branch.j])
    return Way({**way.nexts, branch.i: after}, way.ranges)


def second_way(
    way: Way, branch: Union[Split, Count], customers: dict[int, int]
) -> Way:
    """The way to the second tree of a branch. A customer after himself is
    never forbidden."""
    if isinstance(branch, Count):
        most = range_of(way, branch.members)[1]
        entries = {branch.members: (branch.most + 1, most)}
        return Way(way.nexts, {**way.ranges, **entries})
    own, follower = 1 << customers[branch.i], 1 << customers[branch.j]
    kept = (ANYBODY, branch.j)
    nexts = {
        last: after if last in kept else after & ~follower
        for last, after in way.nexts.items()
    }
    nexts[branch.i] = way.nexts[branch.i] & (own | follower)
    return Way(nexts, way.ranges)


# Which of the counted sets a last is in, by their bits; ANYBODY by itself.
Inside = int


class Lasts:
    """What may come next after each last at a leaf, and what it earns by
    counted sets."""

    def __init__(self, instance: Instance, leaf: NearLeaf) -> None:
        self.customers = instance.customers
        self.nexts = leaf.nexts
        self.counted = leaf.counted
        self.earned: dict[Inside, list[int]] = {}
        self.less: dict[tuple[Inside, Inside], int] = {}
        self.known: dict[tuple[int, int], bool] = {}

    def inside(self, last: int) -> Inside:
        if last not in self.customers:
            return ANYBODY if last == ANYBODY else 0
        own = 1 << self.customers[last]
        is_in = [each.members & own > 0 for each in self.counted]
        return sum(1 << at for at, each in enumerate(is_in) if each)

    def may_follow(self, last: int, number: int) -> bool:
        """Whether a customer, or home by the number behind these, may come
        next."""
        return self.nexts[last] >> number & 1 == 1

    def earnings(self, last: int) -> list[int]:
        """What each customer, by number, earns by counted sets."""
        inside = self.inside(last)
        if inside not in self.earned:
            paid = [
                (each.members, each.price)
                for at, each in enumerate(self.counted)
                if (each.price > 0 if inside < 0 else not inside >> at & 1)
            ]
            self.earned[inside] = [
                sum(price for members, price in paid if members >> number & 1)
                for number in self.customers.values()
            ]
        return self.earned[inside]

    def earning_less(self, other: int, last: int) -> int:
        """The customers who earn less after the other last."""
        key = self.inside(other), self.inside(last)
        if key not in self.less:
            pairs = zip(self.earnings(other), self.earnings(last))
            less = [c for c, (own, wanted) in enumerate(pairs) if own < wanted]
            self.less[key] = sum(1 << c for c in less)
        return self.less[key]

    def stands_for(self, other: int, last: int) -> bool:
        """Whether each who may come next after `last`, home too, may after
        `other`, and earns no less there."""
        key = other, last
        if key not in self.known:
            after = self.nexts[last]
            missing = after & ~self.nexts[other]
            less = after & self.earning_less(other, last)
            self.known[key] = missing == 0 and less == 0
        return self.known[key]


class LeafLabels(LabelList):
    """The labels of a leaf, of which one covers vehicles of each last that
    its own stands for."""

    def __init__(self, leaf: NearLeaf, lasts: Lasts) -> None:
        super().__init__(leaf.weight, leaf.labels)
        self.lasts = lasts
        self.lasts_at: dict[int, list[int]] = {}
        for last, node in self.at_place:
            self.lasts_at.setdefault(node, []).append(last)

    def coverers(self, state: Label) -> Iterator[tuple[Value, int]]:
        for last in self.lasts_at.get(state.node, []):
            if self.lasts.stands_for(last, state.last):
                yield from super().coverers(state._replace(last=last))


def leaf_steps(
    instance: Instance, leaf: NearLeaf, lasts: Lasts, label: Label
) -> Iterator[Label]:
    """The states behind the steps from a label to customers and stations, by
    rising node."""
    for node in range(instance.nodes):
        if node in instance.curves:
            yield from states_at_station(instance, label, node, instance.limit)
        elif node in instance.customers:
            yield from leaf_state_at_customer(
                instance, leaf, lasts, label, node
            )


def leaf_state_at_customer(
    instance: Instance, leaf: NearLeaf, lasts: Lasts, label: Label, node: int
) -> Iterator[Label]:
    """The state behind a step to a customer who may come next and isn't
    remembered."""
    number = instance.customers[node]
    is_remembered = label.served >> number & 1
    if is_remembered or not lasts.may_follow(label.last, number):
        return
    value = arriving_at(instance, label, node, instance.limit)
    if value is not None:
        served = remembered(leaf, label.served, number)
        earned = lasts.earnings(label.last)[number] + leaf.prices[number]
        yield Label(node, node, served, 0, label.paid + earned, value)


def leaf_way_home(
    instance: Instance, lasts: Lasts, label: Label
) -> Optional[int]:
    if not lasts.may_follow(label.last, len(instance.customers)):
        return None
    return time_home(instance, label, instance.limit)


def judge_leaf(instance: Instance, leaf: NearLeaf) -> None:
    """The rules 1 to 3."""
    lasts = Lasts(instance, leaf)
    labels = LeafLabels(leaf, lasts)
    steps = partial(leaf_steps, instance, leaf, lasts)
    way_home = partial(leaf_way_home, instance, lasts)
    judge_closed(instance.full, labels, steps, way_home)


def shows_bound(leaf: NearLeaf, bound: Optional[int]) -> bool:
    """Rule 4."""
    total = sum(leaf.prices)
    for each in leaf.counted:
        total += each.price * (each.least if each.price > 0 else each.most)
    if bound is None:
        return leaf.weight == 0 and total > 0
    return bound * leaf.weight < total + leaf.weight


def judge_tree(instance: Instance, tree: NearTree) -> None:
    """The rules 1 to 4."""
    for number, leaf in enumerate(tree.leaves):
        try:
            judge_leaf(instance, leaf)
        except BrokenList as broken:
            place = f"leaf {number}{broken.place}"
            raise Rejected(f"tree {broken.rule} {place}") from None
    for number, leaf in enumerate(tree.leaves):
        if not shows_bound(leaf, tree.bound):
            raise Rejected(f"tree 4 leaf {number}")


# --------------------------------------------------------------------------
# Proofs of routes (docs/proofs.md).
# --------------------------------------------------------------------------


class RouteProof(NamedTuple):
    plan: Optional[list[Stop]]
    labels: list[Label]


def judge_route(
    instance: Instance, route: list[int], start: int, proof: RouteProof
) -> Optional[int]:
    """The rules 1 to 5; the least time of a plan of the route."""
    least = None
    if proof.plan is not None:
        least = plan_time(instance, route, start, proof.plan)
    bar = instance.limit + 1 if least is None else least
    labels = LabelList(0, proof.labels)
    if bar > 0 and not labels.covers(start_of(start)):
        raise Rejected("proof 3")
    for number, label in enumerate(proof.labels):
        for word, state in route_steps(instance, route, label, bar - 1):
            if not labels.covers(state):
                place = f"label {number} {word} {state.node}"
                raise Rejected(f"proof 4 {place}")
    for number, label in enumerate(proof.labels):
        if label.last == len(route) - 2:
            if time_home(instance, label, bar - 1) is not None:
                raise Rejected(f"proof 5 label {number}")
    return least


def plan_time(
    instance: Instance, route: list[int], start: int, plan: list[Stop]
) -> int:
    """The time of a feasible plan of the route."""
    try:
        time = walk(instance, start, plan)
    except BrokenWalk as rule:
        raise Rejected(f"proof 1 walk {rule}") from None
    if [stop.node for stop in plan if not stop.inserted] != route:
        raise Rejected("proof 2")
    return time


def route_steps(
    instance: Instance, route: list[int], label: Label, limit: int
) -> Iterator[tuple[str, Label]]:
    """The states within the limit behind the steps from a label: first to the
    next node of the route but its end, then to stations that are inserted."""
    passed = label.last + 1
    if passed < len(route) - 1:
        node = route[passed]
        value = arriving_at(instance, label, node, limit)
        if value is not None:
            for left in leaving(value, instance.curves.get(node), limit):
                state = Label(passed, node, 0, 0, 0, left)
                yield "node", state
    for node in sorted(instance.curves):
        for state in states_at_station(instance, label, node, limit):
            yield "via", state


# --------------------------------------------------------------------------
# Texts, from left to right (docs/plans.md, 'What is refused'). In plans the
# four faults are told by their numbers; in certificates and proofs a number
# out of its range is told by 2, and the others by 1.
# --------------------------------------------------------------------------

NO_NUMBER, OUT_OF_RANGE, OTHER_WORD, END_OF_TEXT = 1, 2, 3, 4

DIGITS = re.compile(rb"[0-9]+")
Item = TypeVar("Item")


class TextFault(Exception):
    """Which fault a text has, and at which byte."""

    def __init__(self, fault: int, at: int) -> None:
        super().__init__(fault, at)
        self.fault = fault
        self.at = at


class Text:
    """A text, and up to where it was read."""

    def __init__(self, text: bytes) -> None:
        self.text = text
        self.at = 0

    def takes(self, word: bytes) -> bool:
        """Takes a word that may stand here, if it does."""
        found = self.text.startswith(word, self.at)
        self.at += len(word) if found else 0
        return found

    def word(self, *words: bytes) -> bytes:
        """Takes one of the words, of which one has to stand here."""
        for word in words:
            if self.takes(word):
                return word
        rest = self.text[self.at : self.at + max(map(len, words))]
        is_end = any(word.startswith(rest) for word in words)
        raise TextFault(END_OF_TEXT if is_end else OTHER_WORD, self.at)

    def digits(self) -> bytes:
        """Takes the digits of a number, without leading zeros."""
        found = DIGITS.match(self.text, self.at)
        if found is None:
            is_end = self.at == len(self.text)
            raise TextFault(END_OF_TEXT if is_end else NO_NUMBER, self.at)
        digits = found.group()
        if len(digits) > 1 and digits.startswith(b"0"):
            raise TextFault(NO_NUMBER, self.at)
        self.at += len(digits)
        return digits

    def number(self, most: int, least: int = 0) -> int:
        at = self.at
        digits = self.digits()
        self.within(at, len(digits) <= MOST_DIGITS)
        number = int(digits)
        self.within(at, least <= number <= most)
        return number

    def within(self, at: int, is_within: bool) -> None:
        """The number that begins there is in its range."""
        if not is_within:
            raise TextFault(OUT_OF_RANGE, at)

    def end(self) -> None:
        if self.at < len(self.text):
            raise TextFault(OTHER_WORD, self.at)

    def stops(self) -> list[Stop]:
        """Stops, up to the end of their line."""
        stops = []
        while True:
            inserted = self.takes(b"v")
            node = self.number(BILLION)
            amount = self.amount() if self.takes(b"+") else 0
            stops.append(Stop(inserted, node, amount))
            if self.takes(b"\n"):
                return stops
            self.word(b" ")

    def amount(self) -> int:
        at = self.at
        amount = self.number(BILLION)
        if amount == 0:
            raise TextFault(NO_NUMBER, at)
        return amount


def read_plan(text: bytes) -> Optional[list[Route]]:
    """The routes of a plan file; None where it says that there is none."""
    return plan_of(text, b"evroute plan 1\n", None)


def read_mixed_plan(text: bytes, kinds: int) -> Optional[list[Route]]:
    return plan_of(text, b"evroute mixed plan 1\n", kinds)


def plan_of(
    text: bytes, head: bytes, kinds: Optional[int]
) -> Optional[list[Route]]:
    if len(text) > MOST_PLAN_BYTES:
        raise Refused(f"plan 5 {len(text)}")
    try:
        return plan_behind(Text(text), head, kinds)
    except TextFault as found:
        raise Refused(f"plan {found.fault} at {found.at}") from None


def plan_behind(
    text: Text, head: bytes, kinds: Optional[int]
) -> Optional[list[Route]]:
    text.word(head)
    routes = None
    if text.word(b"none\n", b"routes ") == b"routes ":
        count = text.number(MOST_ROUTES)
        text.word(b"\n")
        routes = [route_of(text, kinds) for _ in range(count)]
    text.end()
    return routes


def route_of(text: Text, kinds: Optional[int]) -> Route:
    if kinds is None:
        text.word(b"route ")
        return Route(0, text.stops())
    text.word(b"kind ")
    kind = text.number(kinds - 1)
    text.word(b" route ")
    return Route(kind, text.stops())


# --------------------------------------------------------------------------
# The texts of certificates and proofs (docs/certificates.md, bounds.md,
# proofs.md).
# --------------------------------------------------------------------------


class ProofText(Text):
    """The text of a certificate or a proof for the customers of an instance,
    or of several kinds that have them."""

    def __init__(self, text: bytes, kinds: list[Instance]) -> None:
        super().__init__(text)
        self.kinds = kinds
        self.customers = kinds[0].customers

    def head(self, name: bytes, version: int) -> None:
        """The first line; one of another version is told apart."""
        pattern = b"evroute " + name + rb" (0|[1-9][0-9]{0,37})\n"
        found = re.match(pattern, self.text)
        if found and int(found.group(1)) != version:
            raise Refused("certificate 3")
        self.word(b"evroute %s %d\n" % (name, version))

    def node(self, instance: Instance) -> int:
        return self.number(instance.nodes - 1)

    def customer(self) -> int:
        """The node of a customer."""
        at = self.at
        node = self.number(BILLION)
        self.within(at, node in self.customers)
        return node

    def place(self) -> int:
        """The depot or a customer, by node."""
        at = self.at
        node = self.number(BILLION)
        self.within(at, node == 0 or node in self.customers)
        return node

    def bound(self) -> Optional[int]:
        self.word(b"bound ")
        if self.takes(b"none\n"):
            return None
        bound = self.number(MOST_BOUND)
        self.word(b"\n")
        return bound

    def count(self) -> int:
        """A count at the end of a line."""
        count = self.number(MOST_COUNT)
        self.word(b"\n")
        return count

    def listed(self, name: bytes, item: Callable[[], Item]) -> list[Item]:
        """A line with an item for each customer."""
        if not self.customers:
            self.word(name + b"\n")
            return []
        self.word(name + b" ")
        items = [item()]
        for _ in range(len(self.customers) - 1):
            self.word(b" ")
            items.append(item())
        self.word(b"\n")
        return items

    def price(self) -> int:
        """A price of a certificate, which may be below 0."""
        return self.signed(MOST_PRICE)

    def signed(self, most: int) -> int:
        """A number that may be below 0."""
        at = self.at
        is_negative = self.takes(b"-")
        digits = self.digits()
        self.within(at, len(digits) <= MOST_DIGITS)
        size = int(digits)
        self.within(at, size <= most)
        self.within(at, not (is_negative and size == 0))
        return -size if is_negative else size

    def near_price(self) -> int:
        return self.number(MOST_NEAR_PRICE)

    def customer_set(self) -> tuple[int, int]:
        """A set of customers, and where its last number stands."""
        at = self.at
        served, before = 0, 0
        if self.takes(b"-"):
            return served, at
        while True:
            at = self.at
            node = self.customer()
            self.within(at, node > before)
            served, before = served | (1 << self.customers[node]), node
            if not self.takes(b","):
                return served, at

    def value(self, instance: Instance) -> Value:
        """Levels with their times, up to the end of their line."""
        value = Value([], [])
        self.word(b" ")
        while True:
            self.point(instance, value)
            if self.takes(b"\n"):
                return value
            self.word(b" ")

    def point(self, instance: Instance, value: Value) -> None:
        """A further level, above those before, and its time, not before
        theirs, with a gap that is a multiple of the gap of levels."""
        at = self.at
        level = self.number(instance.full)
        self.within(at, not value.levels or level > value.levels[-1])
        self.word(b":")
        at = self.at
        time = self.number(instance.limit)
        if value.levels:
            self.within(at, time >= value.times[-1])
            gap = level - value.levels[-1]
            self.within(at, (time - value.times[-1]) % gap == 0)
        value.levels.append(level)
        value.times.append(time)

    def label(self, instance: Instance, prices: list[int]) -> Label:
        """A label of a certificate. What it has paid are the prices of its
        set."""
        self.word(b"label ")
        last = self.place()
        self.word(b" ")
        node = self.node(instance)
        self.word(b" ")
        served = self.customer_set()[0]
        paid = sum(price for c, price in enumerate(prices) if served >> c & 1)
        return Label(last, node, served, 0, paid, self.value(instance))

    def pairs(self, count: int) -> frozenset[Pair]:
        """Lines of forbidden pairs, which rise."""
        pairs: list[Pair] = []
        for _ in range(count):
            self.word(b"pair ")
            i = self.place()
            self.word(b" ")
            at = self.at
            j = self.place()
            self.within(at, j != i and (not pairs or (i, j) > pairs[-1]))
            self.word(b"\n")
            pairs.append((i, j))
        return frozenset(pairs)

    def section(self) -> Section:
        self.word(b"section ")
        weight = self.number(MOST_WEIGHT)
        self.word(b" ")
        pair_count = self.number(MOST_PAIRS)
        self.word(b" ")
        label_count = self.count()
        prices = self.listed(b"prices", self.price)
        pairs = self.pairs(pair_count)
        labels = self.labels(label_count, self.kinds[0], prices)
        return Section(weight, prices, pairs, labels)

    def labels(
        self, count: int, instance: Instance, prices: list[int]
    ) -> list[Label]:
        return [self.label(instance, prices) for _ in range(count)]

    def kind(self, is_mixed: bool) -> int:
        """The kind of a route, with the space behind it; else 0."""
        if not is_mixed:
            return 0
        kind = self.number(len(self.kinds) - 1)
        self.word(b" ")
        return kind

    def root(self, is_mixed: bool) -> Root:
        word = self.word(b"root none\n", b"root exact ", b"root wide ")
        if word == b"root exact ":
            return self.exact_root(is_mixed)
        if word == b"root wide ":
            return self.wide_root(is_mixed)
        return NoRoot()

    def exact_root(self, is_mixed: bool) -> ExactRoot:
        over = self.number(MOST_WEIGHT, least=1)
        self.word(b" ")
        shares = []
        for _ in range(self.count()):
            self.word(b"share ")
            share = self.number(MOST_WEIGHT, least=1)
            self.word(b" ")
            kind = self.kind(is_mixed)
            shares.append(Share(share, Route(kind, self.stops())))
        return ExactRoot(over, shares)

    def wide_root(self, is_mixed: bool) -> WideRoot:
        columns = []
        for _ in range(self.count()):
            self.word(b"column ")
            kind = self.kind(is_mixed)
            columns.append(Route(kind, self.stops()))
        return WideRoot(columns, self.basis(len(columns)))

    def basis(self, columns: int) -> list[Entry]:
        """A line with as many entries as there are customers, pairwise
        different."""
        known: set[Entry] = set()
        return self.listed(b"basis", partial(self.entry, columns, known))

    def entry(self, columns: int, known: set[Entry]) -> Entry:
        is_helper = self.takes(b"h")
        at = self.at
        if is_helper:
            entry = Entry(True, self.customers[self.customer()])
        else:
            entry = Entry(False, self.number(columns - 1))
        self.within(at, entry not in known)
        known.add(entry)
        return entry

    def tree(self, sections: int) -> list[Union[Split, Leaf]]:
        """The lines of one tree: a split stands in front of two trees."""
        lines: list[Union[Split, Leaf]] = []
        missing = 1
        while missing > 0:
            if self.word(b"split ", b"leaf ") == b"split ":
                lines.append(self.split())
                missing += 1
            else:
                lines.append(Leaf(self.number(sections - 1)))
                missing -= 1
            self.word(b"\n")
        return lines

    def split(self) -> Split:
        i = self.customer()
        self.word(b" ")
        at = self.at
        j = self.customer()
        self.within(at, j != i)
        return Split(i, j)

    def near_sets(self) -> list[int]:
        """The near set of each customer, which has the customer."""
        return [self.near_set(own) for own in self.customers.values()]

    def near_set(self, own: int) -> int:
        self.word(b"near ")
        near, at = self.customer_set()
        # Behind a number at the very end the set could go on.
        if near == 0 or self.at < len(self.text):
            self.within(at, bool(near >> own & 1))
        self.word(b"\n")
        return near

    def near_label(self, instance: Instance) -> Label:
        self.word(b"label ")
        node = self.node(instance)
        self.word(b" ")
        served = self.customer_set()[0]
        self.word(b" ")
        services = self.number(len(self.customers))
        self.word(b" ")
        earned = self.number(MOST_BOUND)
        value = self.value(instance)
        return Label(0, node, served, services, earned, value)

    def branch(self, way: Way) -> Union[Split, Count, None]:
        """A branch of a tree over near routes, or none at a leaf."""
        word = self.word(b"split ", b"entries ", b"leaf\n")
        if word == b"leaf\n":
            return None
        if word == b"entries ":
            return self.entries(way)
        split = self.split()
        self.word(b"\n")
        return split

    def entries(self, way: Way) -> Count:
        """How often a set is entered at most in the first tree. Whether the
        number is in the range of the set, and the set not one too many, is
        told once the line is whole."""
        at = self.at
        most = self.number(len(self.customers))
        self.word(b" ")
        set_at = self.at
        members = self.customer_set()[0]
        self.within(set_at, members > 0)
        self.word(b"\n")
        first, last = range_of(way, members)
        self.within(at, first <= most < last)
        is_known = members in way.ranges
        self.within(set_at, is_known or len(way.ranges) < MOST_COUNTED_SETS)
        return Count(most, members)

    def near_leaf(self, way: Way) -> NearLeaf:
        self.word(b"section ")
        weight = self.number(MOST_WEIGHT)
        self.word(b" ")
        count = self.count()
        prices = self.listed(b"prices", self.price)
        near = self.near_sets()
        counted = []
        for members, (least, most) in way.ranges.items():
            counted.append(Counted(members, least, most, self.entry_price()))
        labels = [self.leaf_label(self.kinds[0]) for _ in range(count)]
        return NearLeaf(weight, prices, near, labels, way.nexts, counted)

    def entry_price(self) -> int:
        self.word(b"entry ")
        price = self.price()
        self.word(b"\n")
        return price

    def leaf_label(self, instance: Instance) -> Label:
        self.word(b"label ")
        node = self.node(instance)
        self.word(b" ")
        last = node
        if node in instance.curves:
            last = ANYBODY if self.takes(b"*") else self.place()
            self.word(b" ")
        served = self.customer_set()[0]
        self.word(b" ")
        earned = self.signed(MOST_BOUND)
        return Label(last, node, served, 0, earned, self.value(instance))

    def tight(self) -> list[Stop]:
        self.word(b"tight ")
        return self.stops()

    def route_label(self, instance: Instance, most_passed: int) -> Label:
        self.word(b"label ")
        passed = self.number(most_passed)
        self.word(b" ")
        node = self.node(instance)
        return Label(passed, node, 0, 0, 0, self.value(instance))


def certificate_in(text: ProofText) -> Certificate:
    instance = text.kinds[0]
    levels = (instance.reserve, instance.home_level)
    text.head(b"certificate", 1 if levels == (0, 0) else 2)
    if levels != (0, 0):
        text.word(b"levels ")
        text.number(levels[0], least=levels[0])
        text.word(b" ")
        text.number(levels[1], least=levels[1])
        text.word(b"\n")
    bound = text.bound()
    root = text.root(is_mixed=False)
    text.word(b"sections ")
    at = text.at
    count = text.number(MOST_COUNT)
    text.within(at, count >= 1)
    text.word(b"\n")
    sections = [text.section() for _ in range(count)]
    return Certificate(bound, root, sections, text.tree(count))


def mixed_proof_in(text: ProofText) -> MixedProof:
    text.head(b"mixed", 1)
    text.word(b"kinds ")
    text.number(len(text.kinds), least=len(text.kinds))
    text.word(b"\n")
    bound = text.bound()
    root = text.root(is_mixed=True)
    text.word(b"section ")
    weight = text.number(MOST_WEIGHT)
    text.word(b"\n")
    prices = text.listed(b"prices", text.price)
    labels = []
    for kind, instance in enumerate(text.kinds):
        text.word(b"kind ")
        text.number(kind, least=kind)
        text.word(b" ")
        labels.append(text.labels(text.count(), instance, prices))
    return MixedProof(bound, root, weight, prices, labels)


def near_proof_in(text: ProofText) -> NearProof:
    instance = text.kinds[0]
    text.head(b"near", 1)
    bound = text.bound()
    text.word(b"section ")
    weight = text.number(1)
    text.word(b" ")
    count = text.count()
    prices = text.listed(b"prices", text.near_price)
    near = text.near_sets()
    labels = [text.near_label(instance) for _ in range(count)]
    routes = 0 if bound is None else len(prices)
    tight = [text.tight() for _ in range(routes)]
    return NearProof(bound, weight, prices, near, tight, labels)


def near_tree_in(text: ProofText) -> NearTree:
    text.head(b"near tree", 1)
    bound = text.bound()
    leaves = []
    # The ways to the trees that are still to be read, each from above the
    # last branch: the second trees of the branches that are open.
    waiting: list[Callable[[], Way]] = [partial(top_way, text.customers)]
    while waiting:
        way = waiting.pop()()
        branch = text.branch(way)
        if branch is None:
            leaves.append(text.near_leaf(way))
        else:
            for step in (second_way, first_way):
                waiting.append(partial(step, way, branch, text.customers))
    return NearTree(bound, leaves)


def route_proof_in(route: list[int], text: ProofText) -> RouteProof:
    instance = text.kinds[0]
    text.head(b"proof", 1)
    is_planned = text.word(b"none\n", b"route ") == b"route "
    plan = text.stops() if is_planned else None
    text.word(b"labels ")
    count = text.count()
    most = len(route) - 2
    labels = [text.route_label(instance, most) for _ in range(count)]
    return RouteProof(plan, labels)


def read_proof(
    text: bytes, kinds: list[Instance], read: Callable[[ProofText], Item]
) -> Item:
    """A certificate or a proof, with the refusals that all of them have."""
    if len(text) > MOST_CERTIFICATE_BYTES:
        raise Refused(f"certificate 4 {len(text)}")
    proof_text = ProofText(text, kinds)
    try:
        proof = read(proof_text)
        proof_text.end()
        return proof
    except TextFault as found:
        number = 2 if found.fault == OUT_OF_RANGE else 1
        raise Refused(f"certificate {number} at {found.at}") from None


# --------------------------------------------------------------------------
# JSON (docs/instances.md). An object becomes a dict, an array a list, a whole
# number an int, any other number NOT_WHOLE.
# --------------------------------------------------------------------------

Field = Any


class NotJson(Exception):
    pass


class NotWhole:
    """A number that isn't whole, or is too large."""


NOT_WHOLE = NotWhole()
MOST_WHOLE = 2**64 - 1
# What is rounded to no number of 64 bits with a point any more.
PAST_FLOATS = 2**1024 - 2**970

SPACE = re.compile(rb"[ \t\n\r]*")
NUMBER = re.compile(
    rb"(-?)(0|[1-9][0-9]*)(?:\.([0-9]+))?(?:[eE]([+-]?)([0-9]+))?"
)
STRING = re.compile(
    rb'"([^"\\\x00-\x1f]*(?:\\[^\x00-\x1f][^"\\\x00-\x1f]*)*)"'
)
ESCAPE = re.compile(r"\\(?:u([0-9a-fA-F]{4})|(.))", re.DOTALL)
ESCAPED = {
    '"': '"',
    "\\": "\\",
    "/": "/",
    "b": "\b",
    "f": "\f",
    "n": "\n",
    "r": "\r",
    "t": "\t",
}
# By their first letters.
WORDS = {
    b"t": (b"true", True),
    b"f": (b"false", False),
    b"n": (b"null", None),
}


class Json:
    """A JSON text, and up to where it was read."""

    def __init__(self, text: bytes) -> None:
        self.text = text
        self.at = 0

    def whole(self) -> Field:
        """The one value of the text."""
        value = self.value(0)
        if self.next() != b"":
            raise NotJson
        return value

    def next(self) -> bytes:
        """The byte behind spaces, or none at the end."""
        self.at = SPACE.match(self.text, self.at).end()
        return self.text[self.at : self.at + 1]

    def takes(self, mark: bytes) -> bool:
        found = self.next() == mark
        self.at += 1 if found else 0
        return found

    def goes_on(self, end: bytes) -> bool:
        """Takes a comma, or the end of an array or object."""
        mark = self.next()
        if mark not in (b",", end):
            raise NotJson
        self.at += 1
        return mark == b","

    def value(self, depth: int) -> Field:
        """A value inside so many arrays and objects."""
        mark = self.next()
        if mark in (b"[", b"{"):
            if depth == MOST_JSON_DEPTH:
                raise NotJson
            self.at += 1
            inner = depth + 1
            return self.array(inner) if mark == b"[" else self.members(inner)
        if mark == b'"':
            return self.string()
        return self.word() if mark in WORDS else self.number()

    def array(self, depth: int) -> list[Field]:
        values: list[Field] = []
        if self.takes(b"]"):
            return values
        goes_on = True
        while goes_on:
            values.append(self.value(depth))
            goes_on = self.goes_on(b"]")
        return values

    def members(self, depth: int) -> dict[str, Field]:
        """Where a key stands twice, the last value counts."""
        members: dict[str, Field] = {}
        if self.takes(b"}"):
            return members
        goes_on = True
        while goes_on:
            self.next()
            key = self.string()
            if not self.takes(b":"):
                raise NotJson
            members[key] = self.value(depth)
            goes_on = self.goes_on(b"}")
        return members

    def word(self) -> Field:
        word, value = WORDS[self.next()]
        if not self.text.startswith(word, self.at):
            raise NotJson
        self.at += len(word)
        return value

    def string(self) -> str:
        found = STRING.match(self.text, self.at)
        if found is None:
            raise NotJson
        self.at = found.end()
        try:
            return unescaped(found.group(1).decode("utf-8"))
        except UnicodeError:
            raise NotJson from None

    def number(self) -> Field:
        found = NUMBER.match(self.text, self.at)
        if found is None:
            raise NotJson
        self.at = found.end()
        sign, digits, fraction, exponent_sign, exponent = found.groups()
        is_plain = not sign and fraction is None and exponent is None
        if is_plain and len(digits) <= MOST_DIGITS:
            number = int(digits)
            return number if number <= MOST_WHOLE else NOT_WHOLE
        size = exponent_of(exponent_sign or b"", exponent or b"0")
        if is_past_floats(digits, fraction or b"", size):
            raise NotJson
        return NOT_WHOLE


def unescaped(text: str) -> str:
    """A string without escapes. Two that make one character stand together."""
    if "\\" not in text:
        return text
    plain = ESCAPE.sub(escaped, text)
    return plain.encode("utf-16-le", "surrogatepass").decode("utf-16-le")


def escaped(found: re.Match[str]) -> str:
    code, mark = found.groups()
    if code is not None:
        return chr(int(code, 16))
    if mark not in ESCAPED:
        raise NotJson
    return ESCAPED[mark]


def exponent_of(sign: bytes, digits: bytes) -> int:
    """An exponent; of one that is longer than any text, some such one."""
    size = int(digits.lstrip(b"0")[:10] or b"0")
    return -size if sign == b"-" else size


def is_past_floats(digits: bytes, fraction: bytes, exponent: int) -> bool:
    """Whether a number is rounded to more than a floating-point number of 64
    bits can be."""
    known = (digits + fraction).lstrip(b"0")
    before_point = len(known) - len(fraction) + exponent
    past = str(PAST_FLOATS).encode()
    if known == b"" or before_point < len(past):
        return False
    if before_point > len(past):
        return True
    return known.ljust(len(past), b"0")[: len(past)] >= past


# --------------------------------------------------------------------------
# The rules of an instance (docs/instances.md, 'What is refused'). Each yields
# the places where it is broken, in their order.
# --------------------------------------------------------------------------

REQUIRED_KEYS = (
    "max_q",
    "css",
    "breakpoints_by_type",
    "process_times",
    "energy_matrix",
    "time_matrix",
)
MATRICES = ("energy_matrix", "time_matrix")
LIMITS = ("t_max", "max_t")
LEAST_LEVELS = ("min_q", "home_q")

Places = Iterator[str]


def read_instance(text: bytes) -> Instance:
    """The instance of a text, or the first of the twelve rules."""
    if len(text) > MOST_JSON_BYTES:
        raise Refused(f"instance 1 {len(text)}")
    try:
        top = Json(text).whole()
    except NotJson:
        raise Refused("instance 2") from None
    for rule, places in enumerate(RULES, 3):
        for place in places(top):
            raise Refused(f"instance {rule} {place}")
    return instance_of(top)


def instance_of(top: Field) -> Instance:
    """The instance of fields that break no rule before the denominator."""
    denominator = denominator_of(top)
    if denominator > BILLION:
        raise Refused("instance 10")
    limit = limit_of(top)
    if limit is not None and denominator * limit > MOST_SCALED_TIME:
        raise Refused(f"instance 11 {limit}")
    for key in LEAST_LEVELS:
        if top.get(key, 0) > top["max_q"]:
            raise Refused(f"instance 12 {key}")
    longest = MOST_SCALED_TIME // denominator if limit is None else limit
    curves = curves_of(top, denominator)
    nodes = len(top["energy_matrix"])
    customers = [node for node in range(1, nodes) if node not in curves]
    return Instance(
        nodes=nodes,
        full=top["max_q"],
        reserve=top.get("min_q", 0),
        home_level=top.get("home_q", 0),
        energy=top["energy_matrix"],
        time=scaled_times(top, denominator),
        curves=curves,
        customers={node: number for number, node in enumerate(customers)},
        denominator=denominator,
        limit=denominator * longest,
    )


def missing_keys(top: Field) -> Places:
    """Rule 3."""
    for key in REQUIRED_KEYS:
        if not isinstance(top, dict) or key not in top:
            yield key


def wrong_kinds(top: Field) -> Places:
    """Rule 4."""
    yield from not_whole("max_q", top["max_q"])
    yield from not_array("css", top["css"], not_station)
    key = "breakpoints_by_type"
    yield from not_array(key, top[key], not_curve)
    yield from not_array("process_times", top["process_times"], not_whole)
    for key in MATRICES:
        yield from not_array(key, top[key], not_wholes)
    for key in LIMITS:
        if top.get(key) is not None:
            yield from not_whole(key, top[key])
    for key in LEAST_LEVELS:
        yield from not_whole(key, top.get(key, 0))


def is_whole(value: Field) -> bool:
    return type(value) is int


def not_whole(place: str, value: Field) -> Places:
    if not is_whole(value):
        yield place


def not_array(
    place: str, value: Field, wrong: Callable[[str, Field], Places]
) -> Places:
    """An array that is none comes before its elements."""
    if not isinstance(value, list):
        yield place
        return
    for i, element in enumerate(value):
        yield from wrong(f"{place}/{i}", element)


def not_wholes(place: str, value: Field) -> Places:
    yield from not_array(place, value, not_whole)


def not_station(place: str, entry: Field) -> Places:
    if not isinstance(entry, dict):
        yield place
        return
    yield from not_whole(f"{place}/node_id", entry.get("node_id"))
    yield from not_typed(place, entry)


def not_curve(place: str, entry: Field) -> Places:
    if not isinstance(entry, dict):
        yield place
        return
    yield from not_typed(place, entry)
    for key in ("time", "charge"):
        yield from not_wholes(f"{place}/{key}", entry.get(key))
    yield from not_whole(f"{place}/plug_time", entry.get("plug_time", 0))


def not_typed(place: str, entry: Field) -> Places:
    if not is_whole(type_of(entry)) and not isinstance(type_of(entry), str):
        yield f"{place}/type"


def type_of(entry: Field) -> Field:
    """The type of a station or a curve: a text or a whole number."""
    return entry["cs_type"] if "cs_type" in entry else entry.get("type")


def large_numbers(top: Field) -> Places:
    """Rule 5."""
    for place, number in limited_numbers(top):
        if number > BILLION:
            yield place


def limited_numbers(top: Field) -> Iterator[tuple[str, int]]:
    """The numbers that are at most 10**9, with their places."""
    yield "max_q", top["max_q"]
    for i, entry in enumerate(top["breakpoints_by_type"]):
        place = f"breakpoints_by_type/{i}"
        for key in ("time", "charge"):
            yield from in_array(f"{place}/{key}", entry[key])
        yield f"{place}/plug_time", entry.get("plug_time", 0)
    yield from in_array("process_times", top["process_times"])
    for key in MATRICES:
        for i, row in enumerate(top[key]):
            yield from in_array(f"{key}/{i}", row)
    for key in LEAST_LEVELS:
        yield key, top.get(key, 0)


def in_array(place: str, numbers: list[int]) -> Iterator[tuple[str, int]]:
    for i, number in enumerate(numbers):
        yield f"{place}/{i}", number


def wrong_lengths(top: Field) -> Places:
    """Rule 6. The number of nodes is that of the rows of energies."""
    curves = top["breakpoints_by_type"]
    if len(curves) > MOST_CURVES:
        yield "breakpoints_by_type"
    for i, entry in enumerate(curves):
        if len(entry["time"]) != len(entry["charge"]):
            yield f"breakpoints_by_type/{i}/charge"
    nodes = len(top["energy_matrix"])
    if len(top["process_times"]) > nodes:
        yield "process_times"
    for key in MATRICES:
        if len(top[key]) != nodes or not 1 <= nodes <= MOST_NODES:
            yield key
        for i, row in enumerate(top[key]):
            if len(row) != nodes:
                yield f"{key}/{i}"


def wrong_stations(top: Field) -> Places:
    """Rule 7."""
    known: set[int] = set()
    for i, entry in enumerate(top["css"]):
        node = entry["node_id"]
        if node >= len(top["energy_matrix"]) or node in known:
            yield f"css/{i}/node_id"
        known.add(node)


def wrong_types(top: Field) -> Places:
    """Rule 8."""
    listed: set[Field] = set()
    for i, entry in enumerate(top["breakpoints_by_type"]):
        if type_of(entry) in listed:
            yield f"breakpoints_by_type/{i}/type"
        listed.add(type_of(entry))
    for i, entry in enumerate(top["css"]):
        if type_of(entry) not in listed:
            yield f"css/{i}/type"


def wrong_curves(top: Field) -> Places:
    """Rule 9, with the fault of the curve."""
    for i, entry in enumerate(top["breakpoints_by_type"]):
        fault = curve_fault(entry["time"], entry["charge"], top["max_q"])
        if fault:
            yield f"breakpoints_by_type/{i} {fault}"


def curve_fault(times: list[int], charges: list[int], full: int) -> str:
    """The first of the five faults that breakpoints have, or none."""
    if len(times) < 2 or times[0] > 0 or charges[0] > 0:
        return "start"
    for j in range(1, len(times)):
        if times[j] <= times[j - 1] or charges[j] <= charges[j - 1]:
            return f"rise {j}"
    for j in range(2, len(times)):
        time, charge = times[j] - times[j - 1], charges[j] - charges[j - 1]
        time_before = times[j - 1] - times[j - 2]
        charge_before = charges[j - 1] - charges[j - 2]
        if time * charge_before < time_before * charge:
            return f"concave {j}"
    if charges[-1] < full:
        return f"short {charges[-1]}"
    return "toomany" if len(times) > MOST_BREAKPOINTS else ""


RULES: tuple[Callable[[Field], Places], ...] = (
    missing_keys,
    wrong_kinds,
    large_numbers,
    wrong_lengths,
    wrong_stations,
    wrong_types,
    wrong_curves,
)


def denominator_of(top: Field) -> int:
    """The least common multiple of the reduced denominators of the slopes,
    time over charge, of the segments that begin below a full battery."""
    denominators = []
    for entry in top["breakpoints_by_type"]:
        times, charges = entry["time"], entry["charge"]
        for j in range(1, len(times)):
            if charges[j - 1] < top["max_q"]:
                time = times[j] - times[j - 1]
                charge = charges[j] - charges[j - 1]
                denominators.append(charge // gcd(time, charge))
    return lcm_of(denominators)


def limit_of(top: Field) -> Optional[int]:
    """The given limit on the time of a route: of two the smaller one."""
    given = [top[key] for key in LIMITS if top.get(key) is not None]
    return min(given, default=None)


def curves_of(top: Field, denominator: int) -> dict[int, Curve]:
    """The curves of the stations, by node, in scaled times."""
    by_type = {}
    for entry in top["breakpoints_by_type"]:
        charge_time = charge_time_of(entry, top["max_q"], denominator)
        plug_time = denominator * entry.get("plug_time", 0)
        by_type[type_of(entry)] = Curve(charge_time, plug_time)
    return {entry["node_id"]: by_type[type_of(entry)] for entry in top["css"]}


def charge_time_of(entry: Field, full: int, denominator: int) -> Value:
    """The scaled time from empty to each level up to a full battery: linear
    between the breakpoints."""
    times = [denominator * time for time in entry["time"]]
    whole = Value(entry["charge"], times)
    levels = [level for level in whole.levels if level < full] + [full]
    return Value(levels, [whole.at(level) for level in levels])


def scaled_times(top: Field, denominator: int) -> list[list[int]]:
    """The scaled time of each arc and of the visit behind it. Missing process
    times are 0."""
    rows = top["time_matrix"]
    visits = top["process_times"]
    visits = visits + [0] * (len(rows) - len(visits))
    return [
        [denominator * (time + visit) for time, visit in zip(row, visits)]
        for row in rows
    ]


# --------------------------------------------------------------------------
# The word of a route (docs/instances.md, 'The other refusals of fixed').
# --------------------------------------------------------------------------


def read_route(word: str, instance: Instance) -> list[int]:
    """The nodes of a route, or the first of the six rules."""
    route = nodes_of(word)
    if len(route) > MOST_NODES:
        raise Refused("route 2")
    for at, node in enumerate(route):
        if node >= instance.nodes:
            raise Refused(f"route 3 at {at}")
    if len(route) < 2 or route[0] != 0 or route[-1] != 0:
        raise Refused("route 4")
    for at, node in enumerate(route[1:-1], 1):
        if node == 0:
            raise Refused(f"route 5 at {at}")
    for at in range(1, len(route)):
        if route[at] == route[at - 1]:
            raise Refused(f"route 6 at {at}")
    return route


def nodes_of(word: str) -> list[int]:
    text = Text(word.encode("utf-8", "surrogateescape"))
    try:
        nodes = [text.number(BILLION)]
        while text.at < len(text.text):
            text.word(b",")
            nodes.append(text.number(BILLION))
        return nodes
    except TextFault as found:
        raise Refused(f"route 1 at {found.at}") from None


# --------------------------------------------------------------------------
# The commands.
# --------------------------------------------------------------------------

USAGE = """\
evjudge.py check FILE PLAN CERT [--limit N]
evjudge.py check-bound FILE CERT [--limit N]
evjudge.py check-route FILE ROUTE CERT [--limit N] [--charge N]
evjudge.py check-mixed PLAN CERT FILE.. [--limit N]
evjudge.py gap-check FILE PLAN PROOF [--limit N]
"""

ACCEPTED, REJECTED, WRONG_WORDS, REFUSED, FAILED = 0, 1, 2, 3, 4


class WrongWords(Exception):
    """The words are none of a command."""


class Options(NamedTuple):
    limit: Optional[int]
    charge: Optional[int]


def first_bytes(name: str, most: int) -> bytes:
    """The bytes of a file; of one that is too long, one more than the most."""
    with open(name, "rb") as file:
        return file.read(most + 1)


def instance_in(name: str, limit: Optional[int]) -> Instance:
    """The instance of a file, with the limit of the words, if there is one."""
    instance = read_instance(first_bytes(name, MOST_JSON_BYTES))
    if limit is None:
        return instance
    scaled = instance.denominator * limit
    if scaled > MOST_SCALED_TIME:
        raise Refused(f"limit {limit}")
    return instance._replace(limit=scaled)


def refuse_many_customers(instance: Instance) -> None:
    if len(instance.customers) > MOST_CUSTOMERS:
        raise Refused(f"customers {len(instance.customers)}")


def proof_in(
    name: str, kinds: list[Instance], read: Callable[[ProofText], Item]
) -> Item:
    return read_proof(first_bytes(name, MOST_CERTIFICATE_BYTES), kinds, read)


def accepted_lines(
    instance: Instance, cost: Optional[int], bound: Optional[int]
) -> list[str]:
    gap = None if cost is None or bound is None else cost - bound
    return [
        "accepted",
        f"cost {instance.over(cost)}",
        f"bound {instance.over(bound)}",
        f"gap {instance.over(gap)}",
    ]


def check(names: list[str], options: Options) -> list[str]:
    file, plan, certificate = names
    instance = instance_in(file, options.limit)
    refuse_many_customers(instance)
    routes = read_plan(first_bytes(plan, MOST_PLAN_BYTES))
    shown = proof_in(certificate, [instance], certificate_in)
    cost = None if routes is None else judge_plan([instance], routes)
    judge_certificate(instance, shown)
    return accepted_lines(instance, cost, shown.bound)


def check_bound(names: list[str], options: Options) -> list[str]:
    file, certificate = names
    instance = instance_in(file, options.limit)
    refuse_many_customers(instance)
    proof = proof_in(certificate, [instance], near_proof_in)
    judge_near(instance, proof)
    return ["accepted", f"bound {instance.over(proof.bound)}"]


def check_route(names: list[str], options: Options) -> list[str]:
    file, word, certificate = names
    instance = instance_in(file, options.limit)
    start = instance.full if options.charge is None else options.charge
    if start > instance.full:
        raise Refused(f"charge {start}")
    route = read_route(word, instance)
    proof = proof_in(certificate, [instance], partial(route_proof_in, route))
    least = judge_route(instance, route, start, proof)
    if least is None:
        return ["accepted", "infeasible"]
    return ["accepted", f"least {instance.over(least)}"]


def check_mixed(names: list[str], options: Options) -> list[str]:
    plan, certificate, *files = names
    kinds = [instance_in(file, options.limit) for file in files]
    for number, kind in enumerate(kinds):
        if not agree(kinds[0], kind):
            raise Refused(f"kinds {number}")
    refuse_many_customers(kinds[0])
    routes = read_mixed_plan(first_bytes(plan, MOST_PLAN_BYTES), len(kinds))
    proof = proof_in(certificate, kinds, mixed_proof_in)
    cost = None if routes is None else judge_plan(kinds, routes)
    judge_mixed(kinds, proof)
    return accepted_lines(kinds[0], cost, proof.bound)


def agree(one: Instance, other: Instance) -> bool:
    """Whether two instances may be those of kinds of one fleet."""
    return (
        one.nodes == other.nodes
        and one.customers == other.customers
        and one.denominator == other.denominator
    )


TREE_HEAD = b"evroute near tree "


def bound_proof_in(
    name: str, instance: Instance
) -> Union[NearTree, NearProof]:
    """The tree over near routes of a file that begins as one, and else the
    near proof, of an instance without too many customers."""
    text = first_bytes(name, MOST_CERTIFICATE_BYTES)
    if text.startswith(TREE_HEAD):
        return read_proof(text, [instance], near_tree_in)
    refuse_many_customers(instance)
    return read_proof(text, [instance], near_proof_in)


def gap_check(names: list[str], options: Options) -> list[str]:
    """What `evgap check` says of a plan and of a proof of either kind."""
    file, plan, proof = names
    instance = instance_in(file, options.limit)
    routes = read_plan(first_bytes(plan, MOST_PLAN_BYTES))
    shown = bound_proof_in(proof, instance)
    cost = None if routes is None else judge_plan([instance], routes)
    if isinstance(shown, NearTree):
        judge_tree(instance, shown)
    else:
        judge_near(instance, shown)
    lines = accepted_lines(instance, cost, shown.bound)
    return lines + per_cent_lines(cost, shown.bound)


def per_cent_lines(cost: Optional[int], bound: Optional[int]) -> list[str]:
    """The gap in per cent of the bound, rounded up to hundredths, if any."""
    if cost is None or bound is None or bound == 0 < cost:
        return []
    hundredths = -(-(cost - bound) * 10000 // bound) if bound > 0 else 0
    return [f"gap {hundredths // 100}.{hundredths % 100:02} %"]


class Command(NamedTuple):
    run: Callable[[list[str], Options], list[str]]
    least_words: int
    most_words: int
    # Which of the words are no names of files.
    no_names: tuple[int, ...]
    options: tuple[str, ...]


COMMANDS = {
    "check": Command(check, 3, 3, (), ("limit",)),
    "check-bound": Command(check_bound, 2, 2, (), ("limit",)),
    "check-route": Command(check_route, 3, 3, (1,), ("limit", "charge")),
    "check-mixed": Command(check_mixed, 3, 10, (), ("limit",)),
    "gap-check": Command(gap_check, 3, 3, (), ("limit",)),
}


def parted(words: list[str]) -> tuple[list[str], dict[str, str]]:
    """The words beside options, and the options. Options stand before `--`,
    as `--name N` or `--name=N`."""
    others: list[str] = []
    options: dict[str, str] = {}
    left = iter(words)
    for word in left:
        if word == "--":
            return others + list(left), options
        if not word.startswith("-") or word == "-":
            others.append(word)
            continue
        name, mark, value = word.partition("=")
        value = value if mark else next(left, "-")
        if name in options or not mark and value.startswith("-"):
            raise WrongWords
        options[name] = value
    return others, options


def option_of(options: dict[str, str], name: str) -> Optional[int]:
    """The number of an option, where it is given."""
    value = options.get(f"--{name}")
    if value is None:
        return None
    text = Text(value.encode("utf-8", "surrogateescape"))
    try:
        number = text.number(MOST_OPTION)
        text.end()
        return number
    except TextFault:
        raise WrongWords from None


def job_of(words: list[str]) -> Callable[[], list[str]]:
    """What the words ask for."""
    others, options = parted(words)
    if not others or others[0] not in COMMANDS:
        raise WrongWords
    command, names = COMMANDS[others[0]], others[1:]
    if not command.least_words <= len(names) <= command.most_words:
        raise WrongWords
    files = [n for at, n in enumerate(names) if at not in command.no_names]
    known = {f"--{name}" for name in command.options}
    if len(set(files)) < len(files) or not known.issuperset(options):
        raise WrongWords
    limit = option_of(options, "limit")
    return partial(
        command.run, names, Options(limit, option_of(options, "charge"))
    )


def answer(words: list[str]) -> tuple[int, str]:
    """The exit status, and what is put."""
    try:
        return ACCEPTED, "".join(f"{line}\n" for line in job_of(words)())
    except WrongWords:
        return WRONG_WORDS, USAGE
    except Refused as line:
        return REFUSED, f"refused {line}\n"
    except Rejected as line:
        return REJECTED, f"rejected {line}\n"


def main() -> int:
    try:
        status, text = answer(sys.argv[1:])
        sys.stdout.write(text)
        sys.stdout.flush()
        return status
    except OSError as cause:
        print(f"evjudge.py: {cause}", file=sys.stderr)
        return FAILED


if __name__ == "__main__":
    sys.exit(main())
