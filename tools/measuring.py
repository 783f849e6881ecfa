"""Runs of the program, each with its status, its times, its peak memory and the bytes that it printed, and tables of them."""

import os
import resource
import subprocess
import sys
import threading
import time
import typing

ROOT = os.path.dirname(os.path.dirname(os.path.realpath(__file__)))
BUILT = f"{ROOT}/.built/fbcc"

# The options of the documents and the names of their files.
FILES = {
    "grid": "grid.uct",
    "crac": "crac.json",
    "glsk": "glsk.json",
    "settings": "settings.json",
    "reductions": "reductions.csv",
    "certificate": "certificate.csv",
    "rows": "rows.txt",
}


class Run(typing.NamedTuple):
    """One run. The status is None where the run was stopped at its time limit. Seconds are those of a clock, and `processor` those that
    processors were at work for it, by which work beside it counts less; memory is in megabytes, of 10^6 bytes."""

    status: int | None
    seconds: float
    processor: float
    megabytes: float
    printed: int
    fault: str

    def memory(self):
        """The peak memory. It cannot be told below that of this script, whose pages count until the program is begun."""
        own = peak_megabytes(resource.getrusage(resource.RUSAGE_SELF))
        return f"below {own:.0f} MB" if self.megabytes <= own else f"{self.megabytes:,.0f} MB"

    def times(self):
        """The time by the clock, and that of processors."""
        if self.status is None:
            return f"over {self.seconds:.0f} s", f"over {self.processor:.0f} s"
        return spelled(self.seconds), spelled(self.processor)


def peak_megabytes(usage):
    return usage.ru_maxrss * 1024 / 1e6


def spelled(seconds):
    """Three digits of a time in seconds."""
    return f"{seconds:.0f} s" if seconds >= 100 else f"{seconds:.3g} s" if seconds >= 0.1 else f"{seconds:.3f} s"


def program_at(named):
    """The program that is named. ./fbcc looks at its sources first, so what it built is measured in its place."""
    if named:
        return os.path.realpath(named)
    if subprocess.run([f"{ROOT}/fbcc", "selftest", "--case", "7", "--nodes", "48"], stdout=subprocess.DEVNULL).returncode:
        sys.exit("the program was not built")
    return BUILT


def command(program, folder, name, documents, workers=1, **others):
    """The words of a command over documents in a folder; the others are documents at other places."""
    paths = {it: f"{folder}/{FILES[it]}" for it in documents} | others
    words = [program, name]
    for option, path in paths.items():
        words += [f"--{option}", path]
    return words if name in ("rows", "net") else words + ["--workers", str(workers)]


def run(words, output=os.devnull, seconds_at_most=3600, gigabytes_at_most=None):
    """Runs words with the output to a file."""

    def confine():
        if gigabytes_at_most:
            resource.setrlimit(resource.RLIMIT_AS, (int(gigabytes_at_most * 1e9),) * 2)

    faults = f"{output}.faults" if output != os.devnull else f"/tmp/measuring.{os.getpid()}.faults"
    with open(output, "wb") as out, open(faults, "wb") as err:
        began = time.perf_counter()
        child = subprocess.Popen(words, stdin=subprocess.DEVNULL, stdout=out, stderr=err, preexec_fn=confine)
        timer = threading.Timer(seconds_at_most, child.kill)
        timer.start()
        _, status, usage = os.wait4(child.pid, 0)
        seconds = time.perf_counter() - began
        timer.cancel()
        child.returncode = os.waitstatus_to_exitcode(status)
    with open(faults, encoding="utf-8", errors="replace") as err:
        fault = err.read(200).strip()
    os.remove(faults)
    is_stopped = child.returncode < 0 and seconds >= seconds_at_most
    printed = 0 if output == os.devnull else os.path.getsize(output)
    status = None if is_stopped else child.returncode
    return Run(status, seconds, usage.ru_utime + usage.ru_stime, peak_megabytes(usage), printed, fault)


def best(times, words, **how):
    """Of so many runs the least of each time. A run that takes above 20 seconds is not run again."""
    found = [run(words, **how)]
    while len(found) < times and found[0].processor <= 20:
        found.append(run(words, **how))
    return found[0]._replace(seconds=min(it.seconds for it in found), processor=min(it.processor for it in found))


def apart(make, *arguments):
    """Calls `make` in a process of its own, so that what it takes does not count as this script's memory."""
    child = os.fork()
    if child == 0:
        try:
            make(*arguments)
            sys.stdout.flush()
            os._exit(0)
        except BaseException as fault:
            print(f"{make.__name__}: {fault!r}", file=sys.stderr, flush=True)
            os._exit(1)
    if os.waitpid(child, 0)[1]:
        sys.exit(f"{make.__name__} failed")


def free_gigabytes():
    """The memory in 10^9 bytes that the machine can still give."""
    with open("/proc/meminfo", encoding="utf-8") as file:
        return int(next(line for line in file if line.startswith("MemAvailable")).split()[1]) * 1024 / 1e9


def head(*titles):
    return row(*titles) + "\n" + row(*["---"] * len(titles))


def row(*cells):
    return "| " + " | ".join(str(it) for it in cells) + " |"


def say(text):
    print(text, flush=True)
