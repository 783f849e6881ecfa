"""Computes the rows of a case in fractions, without any rounding, for tools/exact_domain: the load flow of each grid state, and of
each row the factors, the reference flow, the margin and the spread, as docs/MODEL.md defines them."""

import sys
from dataclasses import dataclass
from fractions import Fraction

from exact_case import UNIT

DIRECTIONS = ("DIRECT", "OPPOSITE")


# --- The load flow of a grid state ----------------------------------------------------------------------------------------------


def least_joined(count, pairs):
    """For each place the least one that a chain of pairs joins to it."""
    least = list(range(count))
    changed = True
    while changed:
        changed = False
        for i, j in pairs:
            if least[i] != least[j]:
                least[i] = least[j] = min(least[i], least[j])
                changed = True
    return least


class State:
    """The grid with an outage: its classes of nodes, each known by its least node, and its carrying branches."""

    def __init__(self, grid, outage, slack):
        left = {name: branch for name, branch in grid.branches.items() if name not in outage}
        count = len(grid.nodes)
        self.class_of = least_joined(count, [branch.ends for branch in left.values() if branch.is_closed_coupler])
        connecting = {name: branch for name, branch in left.items() if branch.is_in_operation}
        islands = least_joined(count, [self.ends(branch) for branch in connecting.values()])
        self.slack = self.class_of[slack]
        self.live = {at for at in set(self.class_of) if islands[at] == islands[self.slack]}
        self.carrying = {name: branch for name, branch in connecting.items() if self.ends(branch)[0] in self.live}

    def ends(self, branch):
        """The classes of the branch's two ends."""
        return tuple(self.class_of[at] for at in branch.ends)

    def links(self):
        """For each live class the susceptances towards its neighbours, in kW/rad, those of parallel branches added up."""
        links = {at: {} for at in self.live}
        for branch in self.carrying.values():
            i, j = self.ends(branch)
            if i != j:
                links[i][j] = links[i].get(j, 0) + branch.susceptance
                links[j][i] = links[j].get(i, 0) + branch.susceptance
        return links

    def summed(self, at_nodes):
        """What stands at nodes, summed over each class. Nothing may stand at a dead class."""
        sums = {at: Fraction(0) for at in self.live}
        for at, value in at_nodes.items():
            if value and self.class_of[at] not in self.live:
                sys.exit(f"an outage cuts off the node at place {at}, and something is fed in there")
            if value:
                sums[self.class_of[at]] += value
        return sums

    def reach(self):
        """How large angles can be (docs/MODEL.md, "Reach and range")."""
        between = [(branch.susceptance, *self.ends(branch)) for branch in self.carrying.values() if len(set(self.ends(branch))) == 2]
        total = sum(b * ((i != self.slack) + (j != self.slack)) for b, i, j in between)
        return len(self.live) * -(-total // min(b for b, *_ in between)) if between else 0


def solve(links, slack, balances):
    """The exact angles, 0 at the slack, at which the flows out of each other class are its balance: for several balances at once.
    One class after another is eliminated, always one with the fewest neighbours left, and then the angles are put in backwards."""
    left = {at: {j: Fraction(b) for j, b in around.items()} for at, around in links.items()}
    fed = {at: [balance[at] for balance in balances] for at in links}
    eliminated = []
    while len(left) > 1:
        k = min((at for at in left if at != slack), key=lambda at: (len(left[at]), at))
        around = left.pop(k)
        total = sum(around.values())
        eliminated.append((k, around, total))
        for i, b in around.items():
            del left[i][k]
            fed[i] = [own + b / total * passed for own, passed in zip(fed[i], fed[k])]
            for j, c in around.items():
                if i != j:
                    left[i][j] = left[i].get(j, 0) + b * c / total
    angles = {slack: [Fraction(0)] * len(balances)}
    for k, around, total in reversed(eliminated):
        inflow = [sum(b * angles[j][at] for j, b in around.items()) for at in range(len(balances))]
        angles[k] = [(own + more) / total for own, more in zip(fed[k], inflow)]
    return [{at: angles[at][which] for at in links} for which in range(len(balances))]


def check_solution(links, slack, balance, angles):
    for i, around in links.items():
        if i != slack and sum(b * (angles[i] - angles[j]) for j, b in around.items()) != balance[i]:
            sys.exit("the exact load flow is not solved")


class Flows:
    """The exact flows of a state: at the reference, in watts, and for each zone those of a watt that it exports to the slack."""

    def __init__(self, state, grid, zones):
        self.state = state
        self.shifts = {name: Fraction(it.susceptance * it.shift, 10**9) for name, it in state.carrying.items()}
        base = state.summed({at: node.injection for at, node in enumerate(grid.nodes)})
        for name, branch in state.carrying.items():
            i, j = state.ends(branch)
            base[i] -= self.shifts[name]
            base[j] += self.shifts[name]
        balances = [base] + [state.summed(zone.key) for zone in zones]
        links = state.links()
        self.angles = solve(links, state.slack, balances)
        for balance, angles in zip(balances, self.angles):
            check_solution(links, state.slack, balance, angles)

    def along(self, name, which):
        """The flow over a branch under one of the balances, without its shift; 0 where it does not carry."""
        if name not in self.state.carrying:
            return Fraction(0)
        branch = self.state.carrying[name]
        i, j = self.state.ends(branch)
        return branch.susceptance * (self.angles[which][i] - self.angles[which][j])

    def reference(self, name):
        return self.along(name, 0) + self.shifts.get(name, 0)

    def factor(self, name, zone_place):
        return self.along(name, 1 + zone_place)


# --- The rows -------------------------------------------------------------------------------------------------------------------


@dataclass
class Row:
    """The exact numbers of a row: its limit, flows and margin in watts, its factors for the zones of Core, and what says how wide the
    program's spans can be: the susceptance of its branch and the reach of its state."""

    labels: tuple
    limit: int
    reference: Fraction
    without_core: Fraction
    outside: Fraction
    margin: Fraction
    factors: list
    susceptance: int
    reach: int

    @property
    def spread(self):
        return max(self.factors) - min(self.factors)

    @property
    def width(self):
        """y of docs/MODEL.md, "How wide it is"."""
        return Fraction(self.susceptance * self.reach, UNIT)


def margin_of(limit, reliability, without_core, outside, least_share, reductions):
    """What the limit leaves to exchanges of Core, with the least share of it that is to be left, less the reductions."""
    left = limit - reliability - without_core
    adjustment = max(least_share * limit - outside - left, Fraction(limit, 5) - left, Fraction(0))
    return left + adjustment - reductions


def exact_row(case, flows, element, direction):
    sign = -1 if (direction == "OPPOSITE") != element.is_turned else 1
    factors = [(zone, sign * flows.factor(element.branch, at)) for at, zone in enumerate(case.settings.zones)]
    reference = sign * flows.reference(element.branch)
    without_core = reference - sum(factor * zone.position for zone, factor in factors if zone.is_core)
    outside = sum((factor * zone.position for zone, factor in factors if not zone.is_core), Fraction(0))
    limit, reductions = element.limits[direction], case.reductions.get((element.id, direction), 0)
    return Row(
        (element.id, element.instant, element.contingency or "", direction),
        limit,
        reference,
        without_core,
        outside,
        margin_of(limit, element.margin, without_core, outside, case.settings.least_share, reductions),
        [factor for zone, factor in factors if zone.is_core],
        case.grid.branches[element.branch].susceptance,
        flows.state.reach(),
    )


def exact_rows(case):
    """The rows of a case in their order, each computed in the state of its element's contingency."""
    grid, settings = case.grid, case.settings
    slack = grid.place(settings.slack) if settings.slack else next(at for at, node in enumerate(grid.nodes) if node.kind == "3")
    flows = {}
    for name in {element.contingency for element in case.elements}:
        state = State(grid, case.outages[name] if name else set(), slack)
        flows[name] = Flows(state, grid, settings.zones)
    return [
        exact_row(case, flows[element.contingency], element, direction)
        for element in case.elements
        for direction in DIRECTIONS
        if direction in element.limits
    ]
