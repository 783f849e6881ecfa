#!/usr/bin/env python3
"""Computes the domain of a case in floating point, with numpy and scipy, and prints the time that this takes as one line of JSON.

usage: tools/float_pipeline.py FOLDER [--times N] [--rows-at-most N]

FOLDER has grid.uct, crac.json, settings.json and glsk.json of such cases as tools/make_case and tools/limit_documents.py make: lines
alone, in operation, limits in megawatts. There are three ways to the numbers of the states:

- a factor for each state: the susceptance matrix of the state is factored (SuperLU, in symmetric mode) and solved for the reference and
  for each zone's key;
- changes of rank one: the base state alone is factored, and the flows after an outage come from those before it by distribution factors
  (Sherman-Morrison-Woodbury), on the lines of the elements alone;
- changes of rank one, with states: the base state alone is factored too, and the same change is made to the angles of all nodes, for the
  reference and for each zone's key; the flows are read off the angles of each state.

Both ways with changes solve the factors of the base state for 16 outages at once. An outage of several lines changes the base state by as
many ranks. Whether an outage splits the grid is not looked for: none does in such cases.

Rows are those that `domain` has, in both directions, with the same formulas, and without any bound on their errors. The first way then
removes the redundant rows, one linear program (HiGHS) for each row over those that are left; not where there are more than N rows, 2,000
by default. Times are the least of N runs, 3 by default, in seconds of one processor; reading the documents is not counted. The script
fails where the ways have not the same rows, but for small differences of their numbers.
"""

import argparse
import dataclasses
import itertools
import json
import os
import resource
import sys
import time

for name in ("OMP_NUM_THREADS", "OPENBLAS_NUM_THREADS", "MKL_NUM_THREADS"):
    os.environ[name] = "1"

import numpy
import scipy.optimize
import scipy.sparse
import scipy.sparse.linalg

LEVELS = {"0": 750, "1": 380, "2": 220, "3": 150, "4": 120, "5": 110, "6": 70, "7": 27, "8": 330, "9": 500}
# How many outages the factors of the base state are solved for at once.
OUTAGES_AT_ONCE = 16
# By how much the rows of two ways may differ: right sides in MW, and factors.
RIGHT_SIDES_WITHIN, FACTORS_WITHIN = 1e-6, 1e-9


@dataclasses.dataclass
class Grid:
    """Nodes and lines: injections in MW, the ends of the lines, and their susceptances in MW/rad."""

    codes: list
    zones: list
    loads: numpy.ndarray
    generations: numpy.ndarray
    slack: int
    ids: list
    starts: numpy.ndarray
    ends: numpy.ndarray
    susceptances: numpy.ndarray


@dataclasses.dataclass
class Zones:
    """For each zone its key, a column of shares that add up to 1, its net position and its bounds in MW, and whether it is of Core."""

    keys: numpy.ndarray
    positions: numpy.ndarray
    is_core: numpy.ndarray
    bounds: list
    threshold: float


@dataclasses.dataclass
class Elements:
    """For each element its line and its state, and its limits and margin in MW; for each state the lines that are out."""

    lines: numpy.ndarray
    states: numpy.ndarray
    direct: numpy.ndarray
    opposite: numpy.ndarray
    margins: numpy.ndarray
    outages: list


def read_grid(path):
    nodes, lines, zone, block = [], [], None, None
    with open(path, encoding="ascii") as file:
        for line in file.read().splitlines():
            if line.startswith("##"):
                block, zone = line[2:3], line[3:5]
            elif block in ("N", "Z"):
                nodes.append((f"{line[:8]:8}", zone, float(line[33:40] or 0), float(line[49:56] or 0), line[24:25] == "3"))
            elif block == "L":
                lines.append((line[:8], line[9:17], line[:19], LEVELS[line[6]] ** 2 / float(line[29:35])))
    places = {node[0]: at for at, node in enumerate(nodes)}
    return Grid(
        codes=[node[0] for node in nodes],
        zones=[node[1] for node in nodes],
        loads=numpy.array([node[2] for node in nodes]),
        generations=numpy.array([node[3] for node in nodes]),
        slack=next(at for at, node in enumerate(nodes) if node[4]),
        ids=[line[2] for line in lines],
        starts=numpy.array([places[line[0]] for line in lines]),
        ends=numpy.array([places[line[1]] for line in lines]),
        susceptances=numpy.array([line[3] for line in lines]),
    )


def weights_of(grid, block, inside):
    """The weights of one block of a key at the nodes of its zone."""
    if block["kind"] == "country":
        return inside.astype(float)
    if block["kind"] == "proportional":
        power = -grid.generations if block["business"] == "GSK" else grid.loads
        return numpy.where(inside, numpy.maximum(power, 0), 0)
    weights, places = numpy.zeros(len(grid.codes)), {code: at for at, code in enumerate(grid.codes)}
    for node in block["nodes"]:
        weights[places[f"{node['node']:8}"]] += node["factor"]
    return weights


def key_of(grid, zone, series):
    inside = numpy.array([it in zone.get("codes", [zone["id"]]) for it in grid.zones])
    found = next((it for it in series if it["zone"] == zone["id"]), None)
    if found is None:
        weights = numpy.where(inside, abs(grid.loads) + abs(grid.generations), 0)
        key = weights / weights.sum()
    else:
        key = numpy.zeros(len(grid.codes))
        for block in found["blocks"]:
            weights = weights_of(grid, block, inside)
            key += block["share"] / 100 * weights / weights.sum()
    return key, (-grid.loads - grid.generations)[inside].sum()


def read_zones(grid, settings, keys):
    columns = [key_of(grid, zone, keys["series"]) for zone in settings["zones"]]
    is_core = [zone.get("core", True) for zone in settings["zones"]]
    return Zones(
        keys=numpy.column_stack([key for key, _ in columns]),
        positions=numpy.array([position for _, position in columns]),
        is_core=numpy.array(is_core),
        bounds=[(zone["min"], zone["max"]) for zone, core in zip(settings["zones"], is_core) if core],
        threshold=settings.get("thresholdPermille", 50) / 1000,
    )


def read_elements(grid, crac):
    places = {it: at for at, it in enumerate(grid.ids)}
    taken = {it["id"]: [places[name] for name in it["networkElementsIds"]] for it in crac["contingencies"]}
    entries = [it for it in crac["flowCnecs"] if it["optimized"]]
    named = [None] + sorted({it["contingencyId"] for it in entries if "contingencyId" in it})
    states = {it: at for at, it in enumerate(named)}
    return Elements(
        lines=numpy.array([places[it["networkElementId"]] for it in entries]),
        states=numpy.array([states[it.get("contingencyId")] for it in entries]),
        direct=numpy.array([float(it["thresholds"][0]["max"]) for it in entries]),
        opposite=numpy.array([-float(it["thresholds"][0]["min"]) for it in entries]),
        margins=numpy.array([float(it["reliabilityMargin"]) for it in entries]),
        outages=[[] if it is None else taken[it] for it in named],
    )


def factored(grid, susceptances):
    """The factors of the susceptance matrix without the slack's row and column."""
    starts, ends, nodes = grid.starts, grid.ends, len(grid.codes)
    rows = numpy.concatenate([starts, ends, starts, ends])
    columns = numpy.concatenate([starts, ends, ends, starts])
    entries = numpy.concatenate([susceptances, susceptances, -susceptances, -susceptances])
    matrix = scipy.sparse.csc_matrix((entries, (rows, columns)), shape=(nodes, nodes))
    free = numpy.flatnonzero(numpy.arange(nodes) != grid.slack)
    matrix = matrix[free][:, free]
    symmetric = {"SymmetricMode": True}
    return scipy.sparse.linalg.splu(matrix, permc_spec="MMD_AT_PLUS_A", diag_pivot_thresh=0, options=symmetric), free


def solved(factors, free, sides):
    angles = numpy.zeros_like(sides)
    angles[free] = factors.solve(sides[free])
    return angles


def right_sides(grid, zones):
    """The balance of the reference, and behind it the key of each zone."""
    return numpy.column_stack([-grid.loads - grid.generations, zones.keys])


def flows_on(grid, lines, angles):
    return grid.susceptances[lines, None] * (angles[grid.starts[lines]] - angles[grid.ends[lines]])


def by_state(elements):
    """The elements of each state."""
    order = numpy.argsort(elements.states, kind="stable")
    return numpy.split(order, numpy.cumsum(numpy.bincount(elements.states, minlength=len(elements.outages)))[:-1])


def flows_with_a_factor_each(grid, zones, elements):
    sides = right_sides(grid, zones)
    flows = numpy.zeros((len(elements.lines), sides.shape[1]))
    for outage, members in zip(elements.outages, by_state(elements)):
        susceptances = grid.susceptances.copy()
        susceptances[outage] = 0
        angles = solved(*factored(grid, susceptances), sides)
        flows[members] = flows_on(grid, elements.lines[members], angles)
        flows[members[numpy.isin(elements.lines[members], outage)]] = 0
    return flows


def transfers_along(grid, lines):
    """For each line one megawatt that is fed in at its start and taken out at its end."""
    sides, columns = numpy.zeros((len(grid.codes), len(lines))), numpy.arange(len(lines))
    sides[grid.starts[lines], columns] += 1
    sides[grid.ends[lines], columns] -= 1
    return sides


def outages_solved(grid, factors, free, elements):
    """For each state after an outage the lines that are out, its elements, and the angles before it of transfers along these lines."""
    after = [(numpy.array(outage), members) for outage, members in zip(elements.outages, by_state(elements)) if outage]
    for at in range(0, len(after), OUTAGES_AT_ONCE):
        some = after[at : at + OUTAGES_AT_ONCE]
        angles = solved(factors, free, transfers_along(grid, numpy.concatenate([out for out, _ in some])))
        ends = numpy.cumsum([len(out) for out, _ in some])
        for (out, members), own in zip(some, numpy.split(angles, ends[:-1], axis=1)):
            yield out, members, own


def passed_on(grid, out, transferred, base):
    """The transfers along the lines that go out by which what they carried passes on to the others."""
    return numpy.linalg.solve(numpy.eye(len(out)) - flows_on(grid, out, transferred), flows_on(grid, out, base))


def flows_with_changes_of_rank_one(grid, zones, elements):
    factors, free = factored(grid, grid.susceptances)
    base = solved(factors, free, right_sides(grid, zones))
    flows = flows_on(grid, elements.lines, base)
    for out, members, transferred in outages_solved(grid, factors, free, elements):
        flows[members] += flows_on(grid, elements.lines[members], transferred) @ passed_on(grid, out, transferred, base)
        flows[members[numpy.isin(elements.lines[members], out)]] = 0
    return flows


def flows_with_changes_of_all_angles(grid, zones, elements):
    factors, free = factored(grid, grid.susceptances)
    base = solved(factors, free, right_sides(grid, zones))
    flows = flows_on(grid, elements.lines, base)
    for out, members, transferred in outages_solved(grid, factors, free, elements):
        angles = base + transferred @ passed_on(grid, out, transferred, base)
        flows[members] = flows_on(grid, elements.lines[members], angles)
        flows[members[numpy.isin(elements.lines[members], out)]] = 0
    return flows


def rows_of(zones, elements, flows):
    """The coefficients and the right sides of the rows at or above the threshold, each element in its two directions."""
    signs = numpy.tile([1, -1], len(elements.lines))
    flows = numpy.repeat(flows, 2, axis=0) * signs[:, None]
    limits = numpy.column_stack([elements.direct, elements.opposite]).ravel()
    margins = numpy.repeat(elements.margins, 2)
    reference, factors = flows[:, 0], flows[:, 1:]
    core, positions = zones.is_core, zones.positions
    without_core = reference - factors[:, core] @ positions[core]
    external = factors[:, ~core] @ positions[~core]
    available = numpy.maximum.reduce([0.7 * limits - external, 0.2 * limits, limits - margins - without_core])
    spread = factors[:, core].max(axis=1) - factors[:, core].min(axis=1)
    selected = spread >= zones.threshold
    return factors[selected][:, core], available[selected]


def kept_rows(zones, factors, available):
    """Whether each row is kept: one that the others and the bounds imply is not."""
    kept = numpy.ones(len(available), dtype=bool)
    balance = numpy.ones((1, factors.shape[1]))
    for at in range(len(available)):
        kept[at] = False
        most = scipy.optimize.linprog(
            -factors[at], factors[kept], available[kept], balance, [0], zones.bounds, method="highs"
        )
        kept[at] = not (most.status == 2 or most.status == 0 and -most.fun <= available[at] + 1e-7)
    return kept


def timed(times, call, *arguments):
    """What a call gives, and the least of its processor times. A call that takes above 20 seconds is not made again."""
    taken = []
    while len(taken) < times and min(taken, default=0) <= 20:
        began = time.process_time()
        found = call(*arguments)
        taken.append(time.process_time() - began)
    return found, min(taken)


WAYS = {
    "factor each": flows_with_a_factor_each,
    "rank one": flows_with_changes_of_rank_one,
    "rank one, with states": flows_with_changes_of_all_angles,
}


def greatest_differences(rows):
    """The greatest differences of factors and of right sides between the rows of any two ways. Ends the script where they are not small."""
    if len({len(available) for _, available in rows.values()}) > 1:
        sys.exit(f"rows: {', '.join(f'{way}: {len(available)}' for way, (_, available) in rows.items())}")
    pairs = list(itertools.combinations(rows.values(), 2))
    factors, available = (max(float(abs(one[at] - other[at]).max(initial=0)) for one, other in pairs) for at in (0, 1))
    if not (factors <= FACTORS_WITHIN and available <= RIGHT_SIDES_WITHIN):
        sys.exit(f"the rows of two ways differ by {factors} in a factor and by {available} MW in a right side")
    return {"greatest difference of factors": factors, "greatest difference of right sides, MW": available}


def all_ways(folder, times, rows_at_most):
    def document(name):
        with open(f"{folder}/{name}", "rb") as file:
            return json.load(file)

    grid = read_grid(f"{folder}/grid.uct")
    zones = read_zones(grid, document("settings.json"), document("glsk.json"))
    elements = read_elements(grid, document("crac.json"))
    rows, found = {}, {"states": len(elements.outages)}
    for way, flows in WAYS.items():
        rows[way], found[way] = timed(times, lambda: rows_of(zones, elements, flows(grid, zones, elements)))
    found |= greatest_differences(rows)
    own = rows["factor each"]
    found["rows"] = len(own[1])
    if len(own[1]) <= rows_at_most:
        kept, found["removal"] = timed(times, kept_rows, zones, *own)
        found["kept"] = int(kept.sum())
    found["megabytes"] = resource.getrusage(resource.RUSAGE_SELF).ru_maxrss * 1024 / 1e6
    return found


def main():
    words = argparse.ArgumentParser(
        prog="tools/float_pipeline.py", description=__doc__, formatter_class=argparse.RawDescriptionHelpFormatter
    )
    words.add_argument("folder", metavar="FOLDER")
    words.add_argument("--times", type=int, metavar="N", default=3)
    words.add_argument("--rows-at-most", type=int, metavar="N", default=2000)
    options = words.parse_args()
    print(json.dumps(all_ways(options.folder, options.times, options.rows_at_most)))


main()
