"""Times of a command, and the line about the machine."""

import dataclasses
import json
import os
import pathlib
import subprocess
import sys
import time


@dataclasses.dataclass(order=True)
class Spent:
    """What one run of a command took: processor seconds of user and system, wall seconds, and peak memory in MB."""

    processor: float
    wall: float
    memory: float
    status: int


def run_once(words, output=os.devnull):
    """Runs a command whose standard output goes to a file.

    It is started by a process of this file, since a process counts the memory of the one that starts it as its own.
    """
    printed = subprocess.run([sys.executable, "-SE", __file__, output, *words], stdout=subprocess.PIPE, check=True).stdout
    return Spent(**json.loads(printed))


def start(output, words):
    """Runs a command, and reports what it took."""
    with open(output, "wb") as out:
        began = time.perf_counter()
        child = subprocess.Popen(words, stdout=out, stdin=subprocess.DEVNULL)
        _, status, used = os.wait4(child.pid, 0)
        wall = time.perf_counter() - began
    child.returncode = os.waitstatus_to_exitcode(status)
    return Spent(used.ru_utime + used.ru_stime, wall, used.ru_maxrss / 1000, child.returncode)


def least_of(repeats, words, output=os.devnull, statuses=(0,)):
    """The run of a command that took the least processor time, of several. A command of some seconds runs once."""
    best = None
    for _ in range(repeats):
        spent = run_once(words, output)
        assert spent.status in statuses, (words, spent.status)
        best = min(best or spent, spent)
        if spent.processor > 5:
            break
    return best


def machine():
    """The processors, the load and the date, as a line."""
    lines = pathlib.Path("/proc/cpuinfo").read_text().splitlines()
    name = next((line.split(":")[1].strip() for line in lines if line.startswith("model name")), "unknown")
    return f"{os.cpu_count()} processors ({name}), load {os.getloadavg()[0]:.1f}, {time.strftime('%d %B %Y %H:%M')}"


if __name__ == "__main__":
    print(json.dumps(dataclasses.asdict(start(sys.argv[1], sys.argv[2:]))))
