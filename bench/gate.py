"""Runs the whole gate and tells where its processor time goes.

Samples the times of the gate's processes: a proof runs in its crate's folder, a crate's tests are built with `--test`, and an
edit is tried on a copy of its crate. The sum is exact; the share of each crate lacks what its processes took since their last
sample, a quarter of a second at most. Prints a table as it stands in README.md.
"""
import collections
import os
import re
import resource
import subprocess
import sys
import time

STEP = 0.25
TICKS = os.sysconf("SC_CLK_TCK")
KINDS = ("proof", "tests", "edits", "build")


def text_of(path):
    try:
        with open(path, "rb") as file:
            return file.read()
    except OSError:
        return b""


def processes():
    """Each process: its number and start, its parent, its own processor seconds."""
    for name in os.listdir("/proc"):
        if not name.isdigit():
            continue
        stat = text_of(f"/proc/{name}/stat").rpartition(b")")[2].split()
        if len(stat) > 19:
            yield int(name), int(stat[19]), int(stat[1]), (int(stat[11]) + int(stat[12])) / TICKS


def label_of(number, known):
    """The crate that a process of the prover works for, and what it does there."""
    words = text_of(f"/proc/{number}/cmdline").decode(errors="replace").split("\0")
    if not words or os.path.basename(words[0]) != "rattle":
        return None
    crate = next((b for a, b in zip(words, words[1:]) if a == "--crate-name"), None)
    if crate not in known:
        return None
    try:
        folder = os.readlink(f"/proc/{number}/cwd")
    except OSError:
        return None
    if not folder.endswith(f"/crates/{crate}"):
        return crate, "edits"
    if "--crate-checked" in words:
        return crate, "build"
    return crate, "tests" if "--test" in words else "proof"


def sample(root, known, times, labels):
    """Notes the times of all that runs below a process."""
    below, found = {root}, list(processes())
    while True:
        more = {number for number, _, parent, _ in found if parent in below} - below
        if not more:
            break
        below |= more
    for number, start, _, seconds in found:
        if number in below:
            key = number, start
            if not labels.get(key):
                labels[key] = label_of(number, known)
            times[key] = seconds


def run_gate(log, known):
    times, labels = {}, {}
    with open(log, "wb") as out:
        gate = subprocess.Popen(["rt", "ci"], stdin=subprocess.DEVNULL, stdout=out, stderr=subprocess.STDOUT)
        while gate.poll() is None:
            sample(gate.pid, known, times, labels)
            time.sleep(STEP)
    shares = collections.Counter()
    for key, seconds in times.items():
        if labels.get(key):
            shares[labels[key]] += seconds
    return gate.returncode, shares


def lines_in(folder, ending):
    return sum(
        text_of(os.path.join(at, name)).count(b"\n")
        for at, _, names in os.walk(folder)
        for name in names
        if name.endswith(ending)
    )


def functions_in(folder):
    code = b"\n".join(
        text_of(os.path.join(at, name)) for at, _, names in os.walk(folder) for name in names if name.endswith(".rt")
    )
    return len(re.findall(rb"^\s*(?:pub(?:\([a-z]+\))? )?(?:final )?fn ", code, re.M))


def edits_in(folder):
    try:
        return sum(name.endswith(".edit") for name in os.listdir(folder))
    except OSError:
        return 0


def main():
    log = sys.argv[1]
    crates = [line.split(":")[0].split()[0] for line in open("crates.txt") if line.strip() and not line.startswith("#")]
    begun = time.time()
    status, shares = run_gate(log, set(crates))
    clock, used = time.time() - begun, resource.getrusage(resource.RUSAGE_CHILDREN)
    print("| crate | code | definitions | proofs | functions | edits | proof s | tests s | edits s | build s |")
    print("|---|---|---|---|---|---|---|---|---|---|")
    for crate in sorted(crates, key=lambda it: -sum(shares[it, kind] for kind in KINDS)):
        folder = f"crates/{crate}"
        counts = [lines_in(f"{folder}/src", ".rt"), lines_in(f"{folder}/specs", ".antt"), lines_in(f"{folder}/proofs", ".antt")]
        counts += [functions_in(f"{folder}/src"), edits_in(f"{folder}/must-fail")]
        seconds = [f"{shares[crate, kind]:.0f}" for kind in KINDS]
        print(f"| `{crate}` | {' | '.join(map(str, counts))} | {' | '.join(seconds)} |")
    sums = [sum(shares[crate, kind] for crate in crates) / 60 for kind in KINDS]
    print(f"minutes: {', '.join(f'{kind} {it:.1f}' for kind, it in zip(KINDS, sums))}")
    print(f"whole: {(used.ru_utime + used.ru_stime) / 60:.1f} processor minutes, {clock / 60:.1f} on the clock, {os.cpu_count()} processors, status {status}")
    print(text_of(log).decode(errors="replace").rstrip().rpartition("\n")[2])
    return status


if __name__ == "__main__":
    sys.exit(main())
