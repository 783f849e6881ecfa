"""Documents at the limits of the program, written to files: grids, CRACs, settings, shift keys, reductions and rows of any size.

The same sizes give the same bytes. docs/FORMATS.md has the formats.
"""

import json
import os
import random
import string

DOCUMENT_LIMIT = 67_108_864
CERTIFICATE_LIMIT = 536_870_912

MOMENT, DAY_BEGINS, DAY_ENDS = "2024-05-01T10:30:00Z", "2024-05-01T00:00:00Z", "2024-05-02T00:00:00Z"

# Where the branches of a node lead to: so many nodes further on a ring.
STEPS = (1, 7, 31, 127)


def compact(value):
    return json.dumps(value, separators=(",", ":"))


def zone_code(zone):
    return string.ascii_uppercase[zone // 26] + string.ascii_uppercase[zone % 26]


class Sizes:
    """How many of each a case has. Node i is of zone i·zones/nodes; branch b is of node b/steps, with the step b modulo steps."""

    def __init__(self, nodes=4096, branches=16384, outages=512, elements=20000, zones=64, blocks=4, out_at_once=1, threshold=50):
        self.nodes, self.branches, self.outages, self.elements = nodes, branches, outages, elements
        self.zones, self.blocks, self.out_at_once, self.threshold = zones, blocks, out_at_once, threshold
        self.steps = -(-branches // nodes)

    def node(self, i):
        return f"{zone_code(i * self.zones // self.nodes)}{i:04}1 "

    def ends(self, branch):
        """The places of the two ends of a branch, and its order code. Branches past the steps are second ones beside the first."""
        i, step = branch // self.steps % self.nodes, branch % self.steps
        return i, (i + STEPS[step % 4]) % self.nodes, str(1 + step // 4)

    def branch_id(self, branch):
        one, other, order = self.ends(branch)
        return f"{self.node(one)} {self.node(other)} {order}"

    def outage(self, contingency):
        """The branches of a contingency: those of the second step of nodes that lie apart, so that no node is cut off."""
        apart = max(1, self.nodes // (self.outages * self.out_at_once))
        first = contingency * self.out_at_once
        return [(first + k) * apart % self.nodes * self.steps + 1 for k in range(self.out_at_once)]


def write_grid(path, sizes):
    draws = random.Random(1)
    with open(path, "w", encoding="ascii") as file:
        file.write("##N\n")
        for i in range(sizes.nodes):
            code = sizes.node(i)
            if i == 0 or code[:2] != sizes.node(i - 1)[:2]:
                file.write(f"##Z{code[:2]}\n")
            kind = 3 if i == 0 else 0
            file.write(f"{code:22}0 {kind}{1 + draws.randrange(100):15}{-1 - draws.randrange(120):16}\n")
        file.write("##L\n")
        for branch in range(sizes.branches):
            reactance = f"{(100 + draws.randrange(4000)) / 100:.2f}"
            file.write(f"{sizes.branch_id(branch)} 0{reactance:>14}\n")


def element_of(sizes, draws, e):
    limit, margin = 500 + draws.randrange(1500), draws.randrange(100)
    # A ring line: no outage takes one.
    branch = e % sizes.nodes * sizes.steps
    entry = {"id": f"e{e}", "networkElementId": sizes.branch_id(branch), "instant": "preventive"}
    if e % (sizes.outages + 1):
        entry |= {"instant": "outage", "contingencyId": f"o{e % (sizes.outages + 1) - 1}"}
    thresholds = [{"unit": "megawatt", "min": -limit, "max": limit}]
    return entry | {"optimized": True, "reliabilityMargin": margin, "thresholds": thresholds}


def write_crac(path, sizes):
    draws = random.Random(2)
    instants = [{"id": "preventive", "kind": "PREVENTIVE"}, {"id": "outage", "kind": "OUTAGE"}]
    contingencies = [
        {"id": f"o{k}", "networkElementsIds": [sizes.branch_id(it) for it in sizes.outage(k)]} for k in range(sizes.outages)
    ]
    elements = [element_of(sizes, draws, e) for e in range(sizes.elements)]
    crac = {"type": "CRAC", "version": "2.5", "instants": instants, "contingencies": contingencies, "flowCnecs": elements}
    with open(path, "w", encoding="ascii") as file:
        file.write(compact(crac))


def write_settings(path, sizes):
    zones = [{"id": zone_code(z), "min": -10000, "max": 10000} for z in range(sizes.zones)]
    with open(path, "w", encoding="ascii") as file:
        file.write(compact({"moment": MOMENT, "zones": zones, "thresholdPermille": sizes.threshold}))


def shares(blocks):
    """Whole shares of so many blocks, which add up to 100."""
    return [100 // blocks + (1 if k < 100 % blocks else 0) for k in range(blocks)]


def write_keys(path, sizes, repeats=1):
    """Blocks with weights at all nodes of the zone, each node so many times."""
    draws = random.Random(3)
    members = [[] for _ in range(sizes.zones)]
    for i in range(sizes.nodes):
        members[i * sizes.zones // sizes.nodes].append(sizes.node(i))
    series = []
    for z in range(sizes.zones):
        blocks = []
        for share in shares(sizes.blocks):
            nodes = [{"node": it, "factor": 1 + draws.randrange(99)} for it in members[z] * repeats]
            blocks.append({"business": "GSK", "share": share, "kind": "manual", "nodes": nodes})
        series.append({"zone": zone_code(z), "from": DAY_BEGINS, "to": DAY_ENDS, "blocks": blocks})
    with open(path, "w", encoding="ascii") as file:
        file.write(compact({"series": series}))


def write_reductions(path, sizes):
    """A reduction of each element in each direction."""
    with open(path, "w", encoding="ascii") as file:
        file.write("element,direction,cva,iva\n")
        for e in range(sizes.elements):
            file.write(f"e{e},DIRECT,{e % 7}.5,1\ne{e},OPPOSITE,0,{e % 5}\n")


def write_case(folder, sizes):
    os.makedirs(folder, exist_ok=True)
    write_grid(f"{folder}/grid.uct", sizes)
    write_crac(f"{folder}/crac.json", sizes)
    write_settings(f"{folder}/settings.json", sizes)
    write_keys(f"{folder}/glsk.json", sizes)
    write_reductions(f"{folder}/reductions.csv", sizes)


def write_rows(path, rows, zones=64, cited=1):
    """A rows document whose target is its last row, proved by that row alone, or a wrong citation of so many rows."""
    draws = random.Random(4)
    with open(path, "w", encoding="ascii") as file:
        file.write("bounds,-10000000000,10000000000\n" * zones)
        for _ in range(rows):
            factors = ",".join(str(draws.randrange(-(10**12), 10**12 + 1)) for _ in range(zones))
            line = f"{draws.randrange(10**8, 10**9)},{factors}\n"
            file.write(f"row,{line}")
        file.write(f"target,{line}")
        if cited == 1:
            file.write(f"mult,{rows},1000000000\n")
        else:
            file.writelines(f"mult,{row + 1},1\n" for row in range(cited))
        file.write("mu,0\n")


def write_deep(path, crac, levels):
    """A CRAC with a member that nothing reads, in which arrays stand so deep that the document has so many levels."""
    inner = levels - 1
    with open(crac, encoding="ascii") as file:
        text = file.read()
    with open(path, "w", encoding="ascii") as file:
        file.write(text[:-1] + ',"deep":' + "[" * inner + "]" * inner + "}")


def write_padded(path, source, size, filler):
    """A copy of a document that is filled up to so many bytes."""
    with open(source, "rb") as file:
        text = file.read()
    with open(path, "wb") as file:
        file.write(text)
        fill(file, size - len(text), filler)


def fill(file, left, filler):
    """Writes so many bytes of a filler, which is repeated and cut."""
    piece = filler * (2**20 // len(filler))
    while left > 0:
        file.write(piece[:left])
        left -= len(piece)


def write_full(path, source, size, item):
    """A JSON document with a member that nothing reads, an array of one item again and again, up to so many bytes."""
    with open(source, "rb") as file:
        text = file.read()[:-1] + b',"full":['
    left = size - len(text) - 2 - len(item)
    with open(path, "wb") as file:
        file.write(text)
        count = left // (len(item) + 1)
        for done in range(0, count, 2**16):
            file.write((item + b",") * min(2**16, count - done))
        file.write(item + b" " * (left - count * (len(item) + 1)) + b"]}")


def write_full_rows(path, size):
    """A rows document of so many bytes: 64 zones, 40,000 rows and as many citations, which prove nothing, as find room."""
    write_rows(path, 40000)
    with open(path, "rb+") as file:
        file.seek(-len(b"mu,0\n"), os.SEEK_END)
        left = size - file.tell() - len(b"mu,0\n")
        line = b"mult,1,1000000000000000000\n"
        count = left // len(line) - 2
        for done in range(0, count, 2**16):
            file.write(line * min(2**16, count - done))
        # Two lines take what the lines of equal length leave over.
        digits = left - count * len(line) - 2 * len(b"mult,1,\n")
        for length in (digits // 2, digits - digits // 2):
            file.write(b"mult,1," + b"1" * length + b"\n")
        file.write(b"mu,0\n")
        file.truncate()
