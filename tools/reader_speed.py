"""What reading documents takes, on documents that double, beside Python's json on the same bytes.

A reader is timed by two runs: one that is refused right behind the document, since the next one is faulty, and one that is refused at
this document, which is empty. What the first takes more is the reading.
"""

import os
import subprocess
import sys

import limit_documents as documents
import measuring
from limit_documents import Sizes

CASE = {"nodes": 1000, "branches": 2000, "outages": 512, "zones": 16, "blocks": 2}
LOADS = """
import json, sys, time
with open(sys.argv[1], "rb") as file:
    text = file.read()
taken = []
for _ in range(int(sys.argv[2])):
    began = time.process_time()
    json.loads(text)
    taken.append(time.process_time() - began)
print(min(taken))
"""


class Readers:
    """Times readers on documents in a folder, and prints a row for each document."""

    def __init__(self, program, folder, times):
        self.program, self.folder, self.times = program, folder, times
        measuring.say(measuring.head("Document", "Bytes", "Program", "Python's json", "Ratio", "Peak memory"))

    def place(self, name, text):
        path = f"{self.folder}/{name}"
        with open(path, "w", encoding="ascii") as file:
            file.write(text)
        return path

    def run(self, name, paths):
        words = [self.program, name]
        for option, path in paths.items():
            words += [f"--{option}", path]
        return measuring.best(self.times, words)

    def measure(self, what, name, paths, document, path, empty, behind, is_json):
        """One row. `empty` is the document without content, and `behind` a faulty one that is read next, or none is."""
        before = self.run(name, {**paths, document: empty})
        after = self.run(name, {**paths, **behind, document: path})
        if before.status in (0, 1) or after.status in (0, 1) and name != "rows":
            sys.exit(f"{what}: not refused where it is due: {before.fault or before.status}, {after.fault or after.status}")
        size, seconds = os.path.getsize(path), after.processor - before.processor
        python, ratio, speed = "", "", "too short to tell"
        if seconds > 0:
            speed = f"{measuring.spelled(seconds)}, {size / 1e6 / seconds:,.0f} MB/s"
        if is_json:
            took = self.json_seconds(path)
            python, ratio = measuring.spelled(took), f"{max(seconds, 0) / took:.2f}"
        measuring.say(measuring.row(what, f"{size / 1e6:,.2f} MB", speed, python, ratio, after.memory()))

    def json_seconds(self, path):
        words = [sys.executable, "-c", LOADS, path, str(self.times)]
        return float(subprocess.run(words, capture_output=True, text=True, check=True).stdout)


def crac_rows(readers, base, doublings):
    faulty = readers.place("faulty.json", "{}")
    for elements in doublings:
        sizes, path = Sizes(**CASE, elements=elements), f"{readers.folder}/crac.json"
        measuring.apart(documents.write_crac, path, sizes)
        what = f"CRAC, {elements:,} elements"
        readers.measure(what, "domain", base, "crac", path, faulty, {"settings": faulty}, is_json=True)


def key_rows(readers, base, doublings):
    faulty, header = readers.place("faulty.json", "{}"), readers.place("faulty.csv", "none\n")
    for repeats in doublings:
        sizes, path = Sizes(**CASE, elements=1), f"{readers.folder}/glsk.json"
        measuring.apart(documents.write_keys, path, sizes, repeats)
        what = f"shift keys, {2 * repeats:,},000 weights"
        readers.measure(what, "domain", base, "glsk", path, faulty, {"reductions": header}, is_json=True)


def reduction_rows(readers, base, doublings):
    header = readers.place("faulty.csv", "none\n")
    base = {**base, "crac": f"{readers.folder}/many.json"}
    measuring.apart(documents.write_crac, base["crac"], Sizes(**CASE, elements=max(doublings)))
    for elements in doublings:
        path = f"{readers.folder}/reductions.csv"
        measuring.apart(documents.write_reductions, path, Sizes(**CASE, elements=elements))
        with open(path, "a", encoding="ascii") as file:
            file.write("none,DIRECT,0,0\n")
        readers.measure(f"reductions, {2 * elements:,}", "domain", base, "reductions", path, header, {}, is_json=False)


def grid_rows(readers, doublings):
    nothing = readers.place("nothing", "")
    for nodes in doublings:
        path = f"{readers.folder}/grid.uct"
        measuring.apart(documents.write_grid, path, Sizes(nodes=nodes, branches=4 * nodes))
        with open(path, "a", encoding="ascii") as file:
            file.write("##none\n")
        readers.measure(f"grid, {nodes:,} nodes", "net", {}, "grid", path, nothing, {}, is_json=False)


def rows_rows(readers, doublings):
    nothing = readers.place("nothing", "")
    for rows in doublings:
        path = f"{readers.folder}/rows.txt"
        measuring.apart(documents.write_rows, path, rows, 16)
        readers.measure(f"rows, {rows:,} of 16 zones", "rows", {}, "rows", path, nothing, {}, is_json=False)


def cut(path, source, size):
    """The records of a certificate that stand within its first bytes; the end is missing."""
    with open(source, "rb") as file, open(path, "wb") as out:
        while size > 0:
            line = file.readline()
            size -= len(line)
            if line.startswith(b"end,") or not line:
                return
            out.write(line)


def certificate_rows(readers, base, certificate):
    nothing = readers.place("nothing", "")
    for part in (8, 4, 2, 1):
        path = f"{readers.folder}/cut.csv"
        measuring.apart(cut, path, certificate, os.path.getsize(certificate) // part)
        what = f"certificate, 1/{part} of it" if part > 1 else "certificate, all of it"
        readers.measure(what, "check", base, "certificate", path, nothing, {}, is_json=False)


def measure_readers(program, folder, times, is_quick):
    doublings = [2500, 5000] if is_quick else [2500, 5000, 10000, 20000]
    case = f"{folder}/readers"
    measuring.apart(documents.write_case, case, Sizes(**CASE, elements=1000))
    base = {it: f"{case}/{measuring.FILES[it]}" for it in ("grid", "crac", "settings", "glsk")}
    certificate = f"{folder}/read.csv"
    measuring.run(measuring.command(program, case, "certify", base), certificate)
    readers = Readers(program, folder, times)
    crac_rows(readers, base, doublings)
    key_rows(readers, base, [it // 625 for it in doublings])
    reduction_rows(readers, base, doublings)
    grid_rows(readers, [512, 1024] if is_quick else [512, 1024, 2048, 4096])
    rows_rows(readers, doublings)
    certificate_rows(readers, base, certificate)
    os.remove(certificate)
