"""The section of a domain in the plane of two zones' net positions, in exact fractions, from the table that `domain` prints.

docs/FORMATS.md has the table and the settings. Faults are one line each, and one of the table names its row, counted as in the table.
"""

import csv
import dataclasses
import decimal
import fractions
import io
import itertools
import json
import re
import typing

Fraction = fractions.Fraction

HEAD = ["row", "element", "instant", "contingency", "direction", "class", "inner", "outer", "r_in", "r_out", "gap"]
TAIL = ["inner_by", "outer_by"]
IN_LIST = ("KEPT", "REMOVED")
# What stands in the columns inner and outer, for each class.
CLASSES = {"BELOW": (("-",), ("-",)), "DOUBTFUL": (IN_LIST, ("-",)), "CERTAIN": (IN_LIST, IN_LIST)}
CITATION = re.compile(r"-?[0-9]{1,40}((?: [0-9]{1,10}:[0-9]{1,40})*)")
# Coefficients are in 10^-12.
UNIT = 10**12
LARGEST_SIDE = 2 * 10**13
LARGEST_BOUND = 10**11
# Two sides of a section meet nearer to 0 than this, in watts: two lines with coefficients up to 2·10^12 and right sides up to 2·10^25
# meet within 8·10^37.
FRAME = 10**38
# A citation may be longer than the fields that the module takes by itself.
LONGEST_FIELD = 2**31 - 1


class Fault(Exception):
    """Why there is no section, in one line."""


# The table


@dataclasses.dataclass(frozen=True)
class Row:
    """A row of the table: right sides in watts, coefficients in 10^-12, one for each zone."""

    number: int
    element: str
    contingency: str
    direction: str
    inner: str
    outer: str
    r_in: int
    r_out: int
    coefficients: tuple[int, ...]
    inner_by: str
    outer_by: str

    def listed(self, inner):
        """What becomes of the row in the inner or in the outer list."""
        return self.inner if inner else self.outer

    def side(self, inner):
        return self.r_in if inner else self.r_out


@dataclasses.dataclass(frozen=True)
class Table:
    zones: tuple[str, ...]
    rows: tuple[Row, ...]


def whole(text, name, largest):
    """The whole number that a field spells, if its size is at most the largest."""
    if len(text) <= 20 and re.fullmatch(r"0|-?[1-9][0-9]*", text) and abs(int(text)) <= largest:
        return int(text)
    raise Fault(f"{name} is no whole number of its range")


def need(holds, what):
    if not holds:
        raise Fault(what)


def zones_of(header):
    """The zones of a header."""
    need(header[: len(HEAD)] == HEAD and header[-len(TAIL) :] == TAIL, "no header of a domain")
    columns = header[len(HEAD) : -len(TAIL)]
    need(columns and all(it.startswith("a:") for it in columns), "no header of a domain")
    zones = tuple(it.removeprefix("a:") for it in columns)
    need(len(set(zones)) == len(zones), "two columns of one zone")
    return zones


def row_of(fields, number, zones):
    """The row that a record gives which is due to have this number."""
    due = len(HEAD) + len(zones) + len(TAIL)
    need(len(fields) == due, f"{len(fields)} fields in place of {due}")
    count, element, _, contingency, direction, kind, inner, outer, low, high, gap = fields[: len(HEAD)]
    need(count == str(number), f"its number is not {number}")
    need(direction in ("DIRECT", "OPPOSITE"), "direction is neither DIRECT nor OPPOSITE")
    need(kind in CLASSES, "class is none of BELOW, DOUBTFUL and CERTAIN")
    for name, word, words in zip(("inner", "outer"), (inner, outer), CLASSES[kind]):
        need(word in words, f"{name} is not {' or '.join(words)}, as its class has it")
    r_in, r_out = whole(low, "r_in", LARGEST_SIDE), whole(high, "r_out", LARGEST_SIDE)
    need(whole(gap, "gap", 2 * LARGEST_SIDE) == r_out - r_in, "gap is not r_out less r_in")
    texts = fields[len(HEAD) : -len(TAIL)]
    coefficients = tuple(whole(text, f"a:{zone}", UNIT) for text, zone in zip(texts, zones))
    return Row(number, element, contingency, direction, inner, outer, r_in, r_out, coefficients, *fields[-len(TAIL) :])


def cited_rows(row, inner):
    """The numbers of the rows that a row's citation names, in one of the two lists; none for a row that is not removed there."""
    name, text = ("inner_by", row.inner_by) if inner else ("outer_by", row.outer_by)
    if row.listed(inner) != "REMOVED":
        need(text == "", f"{name} is not empty, and the row is not removed")
        return []
    found = CITATION.fullmatch(text)
    need(found, f"{name} is no citation")
    return [int(it.partition(":")[0]) for it in found[1].split()]


def judge_citations(row, rows):
    """Refuses a row that cites others than kept rows of the same list, by rising number."""
    for inner in (True, False):
        cited = cited_rows(row, inner)
        rise = all(one < other for one, other in itertools.pairwise(cited))
        kept = all(0 < it <= len(rows) and rows[it - 1].listed(inner) == "KEPT" for it in cited)
        need(rise and kept, f"{'inner_by' if inner else 'outer_by'} cites others than kept rows, by rising number")


def at_row(number, step, *given):
    """The answer of a step, whose faults are those of a row; row 0 is the header."""
    try:
        return step(*given)
    except (Fault, csv.Error) as fault:
        place = f"row {number}" if number else "header"
        raise Fault(f"{place}: {fault}") from None


def fields_of(records):
    """The fields of the next record, or none."""
    fields = next(records, None)
    need(fields is None or all(map(is_utf8, fields)), "no UTF-8")
    return fields


def is_utf8(text):
    """Whether a text was UTF-8, which was read with what is none marked as a surrogate."""
    return not any("\ud800" <= it <= "\udfff" for it in text)


def table_of(data):
    """The table that bytes give."""
    csv.field_size_limit(LONGEST_FIELD)
    records = csv.reader(io.StringIO(data.decode("utf-8", "surrogateescape"), newline=""), strict=True)
    header = at_row(0, fields_of, records)
    zones = at_row(0, zones_of, header or [])
    rows = []
    while (fields := at_row(len(rows) + 1, fields_of, records)) is not None:
        rows.append(at_row(len(rows) + 1, row_of, fields, len(rows) + 1, zones))
    at_row(len(rows), need, data.endswith(b"\n"), "it has no line end")
    for row in rows:
        at_row(row.number, judge_citations, row, rows)
    return Table(zones, tuple(rows))


# The settings


@dataclasses.dataclass(frozen=True)
class Bounds:
    """The least and the greatest net position of a zone, in watts."""

    least: int
    greatest: int


def no_number(text):
    raise ValueError(f"{text} is no number")


def watts(value):
    """The whole watts of a number of megawatts, cut towards 0."""
    with decimal.localcontext() as context:
        context.prec, context.Emax, context.Emin = decimal.MAX_PREC, decimal.MAX_EMAX, decimal.MIN_EMIN
        number = value.scaleb(6) if isinstance(value, decimal.Decimal) else None
        need(number is not None and abs(number) < LARGEST_BOUND + 1, "settings: min or max is no number of its range")
        return int(number)


def bounds_of(data, zones):
    """The bounds of the zones of a table, from the bytes of the settings."""
    try:
        document = json.loads(
            data.decode("utf-8-sig"), parse_int=decimal.Decimal, parse_float=decimal.Decimal, parse_constant=no_number
        )
        core = [it for it in document["zones"] if it.get("core") not in (False, "false")]
        names = tuple(it["id"] for it in core)
        pairs = [(it.get("min"), it.get("max")) for it in core]
    except (ValueError, ArithmeticError, KeyError, TypeError, AttributeError, RecursionError):
        raise Fault("settings: no settings document") from None
    need(names == zones, "settings: their Core zones are not those of the table")
    bounds = tuple(Bounds(watts(least), watts(greatest)) for least, greatest in pairs)
    need(all(it.least <= it.greatest for it in bounds), "settings: a min is above its max")
    return bounds


# The section


class Point(typing.NamedTuple):
    """Net positions of the two zones, in watts."""

    x: Fraction
    y: Fraction


@dataclasses.dataclass(frozen=True)
class HalfPlane:
    """The points with across·x + up·y ≤ side."""

    across: int
    up: int
    side: int

    def excess(self, point):
        return self.across * point.x + self.up * point.y - self.side

    def turned(self):
        """The points on the line and beyond it."""
        return HalfPlane(-self.across, -self.up, -self.side)


@dataclasses.dataclass(frozen=True)
class Plane:
    """The places of the two zones and of the balance among the zones of a table."""

    x: int
    y: int
    balance: int

    def half_plane(self, coefficients, side):
        """What a limit leaves of the plane, the right side in watts and the coefficients in 10^-12."""
        taken = coefficients[self.balance]
        return HalfPlane(coefficients[self.x] - taken, coefficients[self.y] - taken, side * UNIT)

    def box(self, bounds):
        """What the bounds leave of the plane."""
        x, y, balance = (bounds[it] for it in (self.x, self.y, self.balance))
        return [
            HalfPlane(1, 0, x.greatest),
            HalfPlane(-1, 0, -x.least),
            HalfPlane(0, 1, y.greatest),
            HalfPlane(0, -1, -y.least),
            HalfPlane(-1, -1, balance.greatest),
            HalfPlane(1, 1, -balance.least),
        ]

    def others(self, zones):
        return [at for at in range(len(zones)) if at not in (self.x, self.y, self.balance)]


def plane_of(zones, x, y, balance):
    """The plane that the words name, in a table of these zones."""
    for zone in (x, y, balance):
        need(zone is None or zone in zones, f"no zone {zone!r} in the table")
    need(x != y, "--x and --y name one zone")
    if balance is None:
        left = [it for it in zones if it not in (x, y)]
        need(left, "the table has no third zone, which the balance needs")
        need(len(left) == 1, f"--balance is needed, since {len(left)} more zones are in the table")
        balance = left[0]
    need(balance not in (x, y), "--balance names the zone of --x or --y")
    return Plane(zones.index(x), zones.index(y), zones.index(balance))


def clipped(corners, half):
    """What a half-plane leaves of a convex polygon, its corners in turn."""
    excess = [half.excess(it) for it in corners]
    if all(it <= 0 for it in excess):
        return corners
    left = []
    for at, here in enumerate(corners):
        before = corners[at - 1]
        if excess[at - 1] < 0 < excess[at] or excess[at] < 0 < excess[at - 1]:
            share = excess[at - 1] / (excess[at - 1] - excess[at])
            left.append(Point(before.x + share * (here.x - before.x), before.y + share * (here.y - before.y)))
        if excess[at] <= 0:
            left.append(here)
    return [here for at, here in enumerate(left) if len(left) == 1 or here != left[at - 1]]


def rectangle(left, bottom, right, top):
    """The corners of a rectangle, against the clock."""
    return [Point(left, bottom), Point(right, bottom), Point(right, top), Point(left, top)]


def polygon_of(halves):
    """The corners of what half-planes leave, against the clock. They are within the frame if it has an end."""
    corners = rectangle(*map(Fraction, (-FRAME, -FRAME, FRAME, FRAME)))
    for half in halves:
        corners = clipped(corners, half)
    return corners


def edges_of(corners):
    return [(here, corners[(at + 1) % len(corners)]) for at, here in enumerate(corners)]


def is_flat(corners):
    one, other = corners[0], corners[1 % len(corners)]
    return all((other.x - one.x) * (it.y - one.y) == (other.y - one.y) * (it.x - one.x) for it in corners)


@dataclasses.dataclass(frozen=True)
class Domain:
    """The section of one of the two lists: its corners, against the clock, and the rows that make an edge, each with its edge."""

    corners: list[Point]
    binding: list[tuple[Row, tuple[Point, Point]]]


def domain_of(table, plane, box, inner):
    """The section of the kept rows of a list, within the bounds if there are any."""
    name = "inner" if inner else "outer"
    kept = [(it, plane.half_plane(it.coefficients, it.side(inner))) for it in table.rows if it.listed(inner) == "KEPT"]
    corners = polygon_of([half for _, half in kept] + box)
    need(corners, f"the section of the {name} domain is empty")
    ends = max(max(abs(it.x), abs(it.y)) for it in corners)
    need(ends < FRAME, f"the section of the {name} domain has no end: give the bounds by --settings")
    need(not is_flat(corners), f"the section of the {name} domain is flat")
    binding = [
        (row, edge) for row, half in kept for edge in edges_of(corners) if half.excess(edge[0]) == half.excess(edge[1]) == 0
    ]
    return Domain(corners, binding)


@dataclasses.dataclass(frozen=True)
class Section:
    """All that is drawn. The bounds and what they leave of the plane are empty where none are given."""

    table: Table
    plane: Plane
    bounds: tuple[Bounds, ...]
    box: list[HalfPlane]
    inner: Domain
    outer: Domain
    removed: list[tuple[Row, HalfPlane]]

    def zone(self, at):
        return self.table.zones[at]


def removed_lines(table, plane):
    """The rows that are removed, with the right side of the first list that they are removed from."""
    found = []
    for row in table.rows:
        for inner in (True, False):
            half = plane.half_plane(row.coefficients, row.side(inner))
            if row.listed(inner) == "REMOVED" and (half.across, half.up) != (0, 0):
                found.append((row, half))
                break
    return found


def section_of(table, plane, bounds, with_removed):
    """The section of a table. Bounds are those of all zones, or none."""
    for at in plane.others(table.zones) if bounds else []:
        holds = bounds[at].least <= 0 <= bounds[at].greatest
        need(holds, f"the section is empty: 0 is not within the bounds of zone {table.zones[at]!r}")
    box = plane.box(bounds) if bounds else []
    inner, outer = (domain_of(table, plane, box, it) for it in (True, False))
    removed = removed_lines(table, plane) if with_removed else []
    return Section(table, plane, bounds, box, inner, outer, removed)
