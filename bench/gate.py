#!/usr/bin/env python3
"""Where the time of a running gate goes: processor minutes by crate and by part, the slowest crate first.

`bench/gate.sh` starts a gate and this with it; `bench/gate.py PID` looks on at a `rt ci` that is running. Twice a
second it reads from /proc how much time each process below PID has used, and adds up at the end. What a process
uses between the last look and its end is lost, some seconds in a hundred: the last line says how much was seen.

The parts: the crate's own proof; its tests, proved and run; `again`, the whole check before a crate's edits, which
one edit alone has as its own; and the edits themselves. `rt` is the time of rt's own.
"""
import collections
import os
import re
import sys
import time

SECONDS = 0.5
PARTS = ("proof", "tests", "again", "edits")
TICKS_A_MINUTE = 60 * os.sysconf("SC_CLK_TCK")

# What /proc/PID/stat tells of a process: its parent, when it began, and the ticks of its own and of the children that it waited for.
Process = collections.namedtuple("Process", "parent began own waited")


def process_of(pid):
    """The process of this number, or None where there is none."""
    try:
        with open(f"/proc/{pid}/stat") as file:
            fields = file.read().rpartition(")")[2].split()
    except OSError:
        return None
    if fields[0] == "Z":
        return None
    parent, began = int(fields[1]), int(fields[19])
    user, system, waited_user, waited_system = map(int, fields[11:15])
    return Process(parent, began, user + system, waited_user + waited_system)


def processes():
    """All processes by their numbers."""
    found = {int(name): process_of(name) for name in os.listdir("/proc") if name.isdecimal()}
    return {pid: process for pid, process in found.items() if process}


def below(root, alive):
    """The numbers of the processes that stand below one, parents first."""
    children = collections.defaultdict(list)
    for pid, process in alive.items():
        children[process.parent].append(pid)
    found, rest = [], [root]
    while rest:
        more = children[rest.pop()]
        found += more
        rest += more
    return found


def task_of(pid):
    """The crate and the part that a process works on by its own words and folder, or None where they tell nothing."""
    try:
        with open(f"/proc/{pid}/cmdline") as file:
            words = file.read().split("\0")
        folder = os.readlink(f"/proc/{pid}/cwd")
    except OSError:
        return None
    for ran in filter(None, (re.search(r"/rt-run-[^/]*/bin/(\w+?)(_tests)?$", word) for word in words)):
        return ran[1], "tests"
    if "--crate-name" not in words:
        return None
    crate = words[words.index("--crate-name") + 1]
    if "/rt-edit-" in folder:
        seed = words[words.index("--incremental") + 1] if "--incremental" in words else "seed"
        return crate, "again" if seed.endswith("seed") else "edits"
    return crate, "tests" if "--test" in words else "proof"


def watch(root):
    """Looks on until the process of this number ends, and answers the ticks by task and those of the whole."""
    ticks, tasks, whole = {}, {}, 0
    while True:
        alive = processes()
        if root not in alive:
            break
        whole = alive[root].own + alive[root].waited
        for pid in below(root, alive):
            process = alive[pid]
            key = pid, process.began
            parent = process.parent, alive[process.parent].began
            if tasks.get(key) is None or tasks[key] == tasks.get(parent):
                tasks[key] = task_of(pid) or tasks.get(parent)
            ticks[key] = process.own
        ticks[root, 0], tasks[root, 0] = alive[root].own, None
        time.sleep(SECONDS)
    by_task = collections.Counter()
    for key, used in ticks.items():
        by_task[tasks[key] or ("rt", "proof")] += used
    return by_task, max(whole, sum(by_task.values()))


def line(name, minutes):
    """A row of the table: a name, the minutes of each part, and their sum."""
    return f"{name:18}" + "".join(f"{part:8.1f}" for part in (*minutes, sum(minutes)))


def main():
    began = time.monotonic()
    by_task, whole = watch(int(sys.argv[1]))
    rows = {crate: [by_task[crate, part] / TICKS_A_MINUTE for part in PARTS] for crate, _ in by_task}
    print(f"{'minutes':18}" + "".join(f"{part:>8}" for part in (*PARTS, "all")))
    for crate, minutes in sorted(rows.items(), key=lambda row: -sum(row[1])):
        print(line(crate, minutes))
    print(line("all", [sum(part) for part in zip(*rows.values())] or [0.0]))
    seen = 100 * sum(by_task.values()) / whole if whole else 100
    print(f"{(time.monotonic() - began) / 60:.1f} minutes on the clock, {whole / TICKS_A_MINUTE:.1f} of the processor, {seen:.0f} % of them seen")


main()
