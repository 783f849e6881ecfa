"""Reads the documents of a case for tools/exact_domain, as docs/FORMATS.md has them.

The documents are taken to be ones without a fault: nothing of them is judged. Of the encodings only UTF-8 is read, of JSON only what
Python's reader takes, and of instants only those of ISO 8601.
"""

import csv
import json
import math
import os
from dataclasses import dataclass, field
from datetime import datetime
from fractions import Fraction

MILLION = 10**6
UNIT = 10**12  # 1 for coefficients and phase shifts
MOST_WATTS = 10**11
LEVELS_IN_KV = {"0": 750, "1": 380, "2": 220, "3": 150, "4": 120, "5": 110, "6": 70, "7": 27, "8": 330, "9": 500}


def millionths(value):
    """A decimal in millionths, cut towards 0."""
    return math.trunc(Fraction(value) * MILLION)


# --- The grid -------------------------------------------------------------------------------------------------------------------


@dataclass
class Node:
    """A node of the grid: its code, its block's two letters, and its load and generation in watts (produced power is negative)."""

    code: str
    block: str
    kind: str
    load: int
    generation: int

    @property
    def injection(self):
        return -self.load - self.generation


@dataclass
class Branch:
    """A line, transformer or coupler between the places of two nodes, with its susceptance in kW/rad, its current limit in mA, and its
    phase shift in 10^-12 rad."""

    ends: tuple
    status: str
    susceptance: int
    limit: int | None
    shift: int = 0

    @property
    def is_closed_coupler(self):
        return self.status == "2"

    @property
    def is_in_operation(self):
        return self.status in ("0", "1")


@dataclass
class Grid:
    nodes: list
    branches: dict  # from the id

    def place(self, code):
        return next(at for at, node in enumerate(self.nodes) if node.code == code.ljust(8))


def columns(line, first, last):
    """The field in these columns, without blanks at its ends."""
    return line[first - 1 : last].strip(" ")


def code_at(line, first):
    return columns(line, first, first + 7).ljust(8)


def branch_name(line):
    return f"{code_at(line, 1)} {code_at(line, 10)} {line[18:19] or ' '}"


def read_node(line, block):
    load, generation = (millionths(columns(line, *at) or 0) for at in ((34, 40), (50, 56)))
    return Node(code_at(line, 1), block, columns(line, 25, 25), load, generation)


def susceptance(kilovolts, ohms):
    """Voltage squared over reactance, in whole kW/rad."""
    voltage, reactance = millionths(kilovolts), max(millionths(ohms), 50_000)
    return (2 * voltage**2 + 1000 * reactance) // (2000 * reactance)


def read_branch(line, place, is_transformer):
    level = LEVELS_IN_KV[code_at(line, 1)[6]]
    kilovolts, ohms, amperes = level, columns(line, 30, 35), columns(line, 46, 51)
    if is_transformer:
        kilovolts, ohms, amperes = columns(line, 23, 27), columns(line, 48, 53), columns(line, 71, 76)
    limit = millionths(amperes or 0)
    branch = Branch((place[code_at(line, 1)], place[code_at(line, 10)]), columns(line, 21, 21), 0, limit // 1000 if limit else None)
    if branch.is_in_operation:
        branch.susceptance = susceptance(kilovolts, ohms)
    return branch


def keyed_lines(path):
    """The lines of a grid but those of blanks, each with the key of its heading."""
    key = ""
    with open(path, encoding="utf-8", newline="\n") as file:
        for line in file:
            line = line.removesuffix("\n").removesuffix("\r")
            if line.startswith("##"):
                key = line[2:].split(" ")[0]
            elif line.strip(" "):
                yield key, line


def read_grid(path):
    lines = list(keyed_lines(path))
    nodes = [read_node(line, key[1:]) for key, line in lines if key.startswith("Z")]
    place = {node.code: at for at, node in enumerate(nodes)}
    branches = {branch_name(line): read_branch(line, place, key == "T") for key, line in lines if key in ("L", "T")}
    for key, line in lines:
        if key == "R":
            branches[branch_name(line)].shift = shift_of(line)
    return Grid(nodes, branches)


# --- The rule of phase shifts, in whole numbers (docs/MODEL.md, "Susceptance and phase shift") ----------------------------------


def sine(angle):
    """The sine of an angle in millionths of a degree, in 10^-12."""
    if angle < 0:
        return -sine(-angle)
    if angle > 90 * MILLION:
        return sine(180 * MILLION - angle)
    if angle == 90 * MILLION:
        return UNIT
    x = angle * 3141592653589793 // (180 * 10**9)
    term, total = x, 0
    for k in range(9):
        total += (-1) ** k * term
        term = term * x // UNIT * x // UNIT // ((2 * k + 2) * (2 * k + 3))
    return total


def arc_series(u):
    power, total = u, 0
    for k in range(16):
        total += (-1) ** k * (power // (2 * k + 1))
        power = power * u // UNIT * u // UNIT
    return total


def arc_tangent(q):
    if q <= 414213562373:
        return arc_series(q)
    if q < UNIT:
        return 785398163397 - arc_series((UNIT - q) * UNIT // (UNIT + q))
    if q <= 2414213562373:
        return 785398163397 + arc_series((q - UNIT) * UNIT // (q + UNIT))
    return 1570796326794 - arc_series(UNIT**2 // q)


def signed(value, sign):
    return value if sign >= 0 else -value


def shift_of(line):
    """The phase shift of a regulation line, in 10^-12 rad."""
    step, tap = millionths(columns(line, 40, 44) or 0), int(Fraction(columns(line, 55, 57) or 0))
    added = tap * step * 10**4
    if added == 0:
        return 0
    if columns(line, 65, 68) == "SYMM":
        return signed(2 * arc_tangent(abs(added) // 2), added)
    angle = millionths(columns(line, 46, 50))
    across = math.trunc(Fraction(added * sine(angle), UNIT))
    along = UNIT + math.trunc(Fraction(added * sine(90 * MILLION - abs(angle)), UNIT))
    return signed(arc_tangent(abs(across) * UNIT // along), across)


# --- The settings and the shift keys --------------------------------------------------------------------------------------------


@dataclass
class Zone:
    """A zone with its bounds and its net position at the reference, in watts, and its key: what each node takes of a watt."""

    id: str
    blocks: list
    is_core: bool
    low: int
    high: int
    position: int = 0
    key: dict = field(default_factory=dict)


@dataclass
class Settings:
    moment: datetime
    zones: list
    least_share: Fraction
    threshold: Fraction
    slack: str | None

    @property
    def core(self):
        return [zone for zone in self.zones if zone.is_core]


def read_json(path):
    """A JSON document: its numbers as fractions, without the members that are null."""

    def present(members):
        return {name: value for name, value in members.items() if value is not None}

    with open(path, encoding="utf-8-sig") as file:
        return json.load(file, parse_float=Fraction, parse_int=Fraction, object_hook=present)


def instant(text):
    return datetime.fromisoformat(text.replace("Z", "+00:00"))


def is_true(value):
    return value is True or value == "true"


def zone_of(member):
    is_core = is_true(member.get("core", True))
    low, high = (millionths(member[bound]) if is_core else 0 for bound in ("min", "max"))
    return Zone(member["id"], member.get("codes", [member["id"]]), is_core, low, high)


def read_settings(path):
    document = read_json(path)
    least_share, threshold = (
        Fraction(millionths(document.get(name, default)), 1000 * MILLION)
        for name, default in (("ramrPermille", 700), ("thresholdPermille", 50))
    )
    zones = [zone_of(member) for member in document["zones"]]
    return Settings(instant(document["moment"]), zones, least_share, threshold, document.get("slack"))


def weights_of(block, grid, nodes):
    """The weights that a block of a key gives to nodes of its zone."""
    if block["kind"] == "country":
        return {at: 1 for at in nodes}
    if block["kind"] == "manual":
        weights = {}
        for item in block["nodes"]:
            at = grid.place(item["node"])
            weights[at] = weights.get(at, 0) + millionths(item["factor"])
        return weights
    listed = [grid.place(code) for code in block["nodes"]] if "nodes" in block else nodes
    if block["business"] == "GSK":
        return {at: max(0, -grid.nodes[at].generation) for at in listed}
    return {at: max(0, grid.nodes[at].load) for at in listed}


def add_block(key, share, weights):
    total = sum(weights.values())
    for at, weight in weights.items():
        if weight:
            key[at] = key.get(at, 0) + share * Fraction(weight, total)


def set_key(zone, series, grid, moment):
    """Gives a zone its net position and its key: that of the series that holds the moment or else, outside Core, by load and
    generation."""
    nodes = [at for at, node in enumerate(grid.nodes) if node.block in zone.blocks]
    zone.position = sum(grid.nodes[at].injection for at in nodes)
    for item in series:
        if item["zone"] == zone.id and instant(item["from"]) <= moment < instant(item["to"]):
            for block in item["blocks"]:
                add_block(zone.key, Fraction(millionths(block["share"]), 100 * MILLION), weights_of(block, grid, nodes))
            return
    add_block(zone.key, Fraction(1), {at: abs(grid.nodes[at].load) + abs(grid.nodes[at].generation) for at in nodes})


# --- The monitored elements and their reductions --------------------------------------------------------------------------------


@dataclass
class Element:
    """A monitored element: the branch on which it is measured, whether it runs against it, its reliability margin in watts, and the
    limit, in watts, of each direction that has one."""

    id: str
    instant: str
    contingency: str | None
    branch: str
    is_turned: bool
    margin: int
    limits: dict


def branches_named(name, grid):
    """The branches that a name of the CRAC stands for, and the node between the two of a tie line."""
    if len(name) != 41:
        return [name.ljust(19)], None
    first, second = name[:19], name[22:]
    shared = set(grid.branches[first].ends) & set(grid.branches[second].ends)
    return [first, second], next(at for at in shared if grid.nodes[at].code.startswith("X"))


def at_side(entry, member, side):
    """The value of `iMax` or `nominalV` at a side, or none."""
    values = entry.get(member)
    values = values if isinstance(values, list) else [values]
    return values[-1 if side else 0]


def power_limit(value, entry, threshold, branch, grid):
    """A limit of a threshold in watts."""
    if threshold["unit"] == "megawatt":
        return min(millionths(value), MOST_WATTS)
    side = 1 if threshold.get("side") in (2, "right") else 0
    milliamperes = math.trunc(Fraction(millionths(value), 1000))
    if threshold["unit"] == "percent_imax":
        most = at_side(entry, "iMax", side)
        most = branch.limit * 1000 if most is None else millionths(most)
        milliamperes = math.trunc(Fraction(most * millionths(value), 10**9))
    nominal = at_side(entry, "nominalV", side)
    level = LEVELS_IN_KV[grid.nodes[branch.ends[side]].code[6]]
    volts = millionths(level if nominal is None else nominal) // 1000
    return min(math.isqrt(3 * (milliamperes * volts) ** 2 // MILLION), MOST_WATTS)


def element_of(entry, grid):
    (measured, *_), between = branches_named(entry["networkElementId"], grid)
    branch, limits = grid.branches[measured], {}
    for threshold in entry["thresholds"]:
        for direction, bound, sign in (("DIRECT", "max", 1), ("OPPOSITE", "min", -1)):
            if bound in threshold:
                limit = power_limit(sign * threshold[bound], entry, threshold, branch, grid)
                limits[direction] = min(limit, limits.get(direction, limit))
    is_turned = between is not None and branch.ends[0] == between
    margin = millionths(entry.get("reliabilityMargin", entry.get("frm", 0)))
    return Element(entry["id"], entry["instant"], entry.get("contingencyId"), measured, is_turned, margin, limits)


def read_reductions(path):
    """What validation takes off, in watts, from element and direction."""
    if not os.path.exists(path):
        return {}
    with open(path, encoding="utf-8-sig", newline="") as file:
        records = list(csv.DictReader(file))
    return {(it["element"], it["direction"]): millionths(it["cva"]) + millionths(it["iva"]) for it in records}


@dataclass
class Case:
    grid: Grid
    outages: dict  # from the id of a contingency to the ids of its branches
    elements: list
    settings: Settings
    reductions: dict


def read_case(folder):
    grid = read_grid(f"{folder}/grid.uct")
    crac = read_json(f"{folder}/crac.json")
    settings = read_settings(f"{folder}/settings.json")
    series = read_json(f"{folder}/glsk.json")["series"]
    for zone in settings.zones:
        set_key(zone, series, grid, settings.moment)
    outages = {
        contingency["id"]: {branch for name in contingency["networkElementsIds"] for branch in branches_named(name, grid)[0]}
        for contingency in crac.get("contingencies", [])
    }
    elements = [element_of(entry, grid) for entry in crac["flowCnecs"] if is_true(entry.get("optimized"))]
    return Case(grid, outages, elements, settings, read_reductions(f"{folder}/reductions.csv"))
