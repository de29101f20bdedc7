#!/usr/bin/env python3
"""Runs the gate from nothing and writes docs/GATE.md: the processor seconds of each crate's proof, tests, edits and program.

usage: gate_costs.py [WORD..]

Run it at the top of a clone, on a machine that does nothing else. The words are those of `rt ci`: `--anew` with a kit
that keeps what an earlier run passed, none with another. Ten times a second it reads what the system counts for each process of the run; what a process takes behind the
last look at it is left out, so the sum stands beside what the system counts for all of them together.
"""
import collections
import os
import re
import resource
import subprocess
import sys
import time

TICKS = os.sysconf("SC_CLK_TCK")
KINDS = ["proof", "tests", "edits", "program"]


def read(path):
    try:
        with open(path, "rb") as file:
            return file.read().decode(errors="replace")
    except OSError:
        return ""


def processes():
    """Each process by its number: its parent, and its processor seconds."""
    found = {}
    for name in os.listdir("/proc"):
        fields = read(f"/proc/{name}/stat").rpartition(")")[2].split() if name.isdigit() else []
        if len(fields) > 12:
            found[int(name)] = (int(fields[1]), (int(fields[11]) + int(fields[12])) / TICKS)
    return found


def descendants(root, found):
    known = {root}
    for number in sorted(found):
        line = []
        while number in found and number not in known:
            line.append(number)
            number = found[number][0]
        if number in known:
            known.update(line)
    return known - {root}


def what_it_does(number):
    """The crate that a process is at and what it does of it; None where it is none of the prover's."""
    words = read(f"/proc/{number}/cmdline").split("\0")
    if "--crate-name" not in words:
        return None
    crate = words[words.index("--crate-name") + 1]
    try:
        folder = os.readlink(f"/proc/{number}/cwd")
    except OSError:
        folder = ""
    if "/rt-edit" in folder or any("/rt-edits-" in word for word in words):
        return crate, "edits"
    if "--test" in words:
        return crate, "tests"
    if "--backend" in words and "rattle" in words:
        return crate, "program"
    return crate, "proof"


def watch(words):
    """The seconds of each crate and kind, those of all else, and the seconds by the clock; and how the run ended."""
    begun = time.time()
    run = subprocess.Popen(["rt", "ci", *words], stdout=sys.stderr)
    labels, seconds = {}, {}
    while run.poll() is None:
        found = processes()
        for number in descendants(run.pid, found):
            labels[number] = what_it_does(number) or labels.get(number)
            seconds[number] = found[number][1]
        time.sleep(0.1)
    table = collections.defaultdict(collections.Counter)
    other = 0.0
    for number, taken in seconds.items():
        if labels[number]:
            crate, kind = labels[number]
            table[crate][kind] += taken
        else:
            other += taken
    return table, other, time.time() - begun, run.returncode


def below():
    lines = (line.partition(":") for line in read("crates.txt").splitlines() if ":" in line)
    return {name.split()[0]: names.split() for name, _, names in lines}


def longest_chain(table):
    """The crates of the costliest chain, from the lowest on, and its seconds of proof."""
    libraries, best = below(), {}

    def chain(crate):
        if crate not in best:
            under = max((chain(name) for name in libraries[crate] if name in libraries), default=(0.0, []))
            best[crate] = (under[0] + table[crate]["proof"], under[1] + [crate])
        return best[crate]

    return max((chain(crate) for crate in libraries), default=(0.0, []))


def main():
    table, other, clock, status = watch(sys.argv[1:])
    used = resource.getrusage(resource.RUSAGE_CHILDREN)
    counted = used.ru_utime + used.ru_stime
    sums = collections.Counter()
    for row in table.values():
        sums.update(row)
    taken, chain = longest_chain(table)
    lines = [
        "# What the gate takes",
        "",
        "Made by docs/gate_costs.py from one run of `rt ci` from nothing on a machine that did nothing else. The columns are",
        "processor seconds; a crate without tests, edits or a program has none there.",
        "",
        f"- By the system's count {counted / 60:.0f} processor minutes, {clock / 60:.0f} minutes by the clock, on {os.cpu_count()} processors; "
        f"`rt ci` ended with {status}.",
        "- " + ", ".join(f"{kind} {sums[kind] / 60:.0f}" for kind in KINDS) + f", all else {other / 60:.0f} minutes.",
        f"- The longest chain is {taken / 60:.0f} minutes of proof: {', '.join(chain)}.",
        "",
        "| crate | " + " | ".join(KINDS) + " |",
        "|---|" + "---|" * len(KINDS),
    ]
    for crate in below():
        lines.append(f"| {crate} | " + " | ".join(f"{table[crate][kind]:.0f}" if table[crate][kind] else "" for kind in KINDS) + " |")
    with open("docs/GATE.md", "w") as file:
        file.write("\n".join(lines) + "\n")
    sys.exit(status)


main()
