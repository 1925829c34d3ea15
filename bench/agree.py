#!/usr/bin/env python3
"""Compares what `run` tells of a file that the HDF5 library made with what h5ls tells, and times both on a large one.

usage: bench/agree.sh [PROGRAM]   (the built program, crates/h5stack/out/h5stack)
"""
import os
import re
import subprocess
import sys
import tempfile

import h5py
import numpy

PLAIN = set(range(0x21, 0x7F)) - {ord("\\"), ord(">")}


def spelled(name):
    """A name's bytes as the script language spells them."""
    return "".join(chr(b) if b in PLAIN else f"\\x{b:02X}" for b in name)


def make(path):
    """A file with what the reading of a tree meets: nested groups, names with escapes, soft links, datasets of several kinds."""
    with h5py.File(path, "w") as f:
        for i in range(40):
            g = f.create_group(f"run {i}/detector>a\\b")
            g.create_dataset(b"caf\xc3\xa9", data=numpy.arange(4, dtype="<i2"))
            g.create_dataset("big endian", data=numpy.arange(3, dtype=">u4"))
            g.create_dataset("float", data=numpy.zeros(3))
            g.create_dataset("grown", shape=(30, 40), maxshape=(None, 50), chunks=(7, 5), dtype="<i4", fillvalue=7)
            g.create_dataset("packed", data=numpy.zeros((50, 50), dtype="u1"), chunks=(10, 10), compression="gzip")
            g.create_dataset("text", data=numpy.array([b"ab", b"c"], dtype="S5"))
            g.create_dataset("scalar", data=numpy.int64(-5))
            g["soft"] = h5py.SoftLink("/run 0/no where")
            g.create_group("empty")
        many = f.create_dataset("many", shape=(3000,), maxshape=(None,), chunks=(1,), dtype="u1")
        many[:] = 1
        for i in range(500):
            f.create_group(f"deep/{i:04}")


def listed(path):
    """What h5ls tells: for each path (as bytes) its kind, sizes and maximum sizes."""
    out = subprocess.run(["h5ls", "-r", path], stdout=subprocess.PIPE, check=True).stdout
    found = {}
    for line in out.split(b"\n"):
        told = re.match(rb"^(/(?:\\.|[^ \\])*) +(Group|Dataset \{(.*)\}|Soft Link \{(.*)\}|Type.*)$", line)
        if not told:
            continue
        name = re.sub(rb"\\(x[0-9a-fA-F]{2}|[0-7]{3}|.)", unescaped, told[1])
        found[name] = told[2]
    return found


def unescaped(match):
    text = match[1]
    if text[:1] == b"x" and len(text) == 3:
        return bytes([int(text[1:], 16)])
    if re.fullmatch(rb"[0-7]{3}", text):
        return bytes([int(text, 8)])
    return text


def ask(program, path, lines):
    script = "".join(line + "\n" for line in lines)
    ran = subprocess.run([program, "run", "plain=" + os.path.basename(path)], cwd=os.path.dirname(path), input=script.encode(), stdout=subprocess.PIPE, stderr=subprocess.PIPE)
    answers = ran.stdout.decode().split("\n")[:-1]
    if len(answers) != len(lines):
        sys.exit(f"status {ran.returncode}: {ran.stderr.decode()}")
    return answers


def told_of(kind, answer):
    """Whether an answer of `stat` tells what h5ls tells."""
    if kind == b"Group":
        return answer.startswith("ok group ")
    if kind.startswith(b"Soft Link"):
        return answer.startswith("ok link ")
    if answer == "ok other":
        return True
    sizes = kind[9:-1].decode()
    if sizes in ("SCALAR", ""):
        return answer.startswith("ok data ") and " dims - " in answer
    dims = [part.split("/") for part in sizes.split(", ")]
    size = ",".join(part[0] for part in dims)
    most = ",".join(part[-1] for part in dims).replace("Inf", "*")
    return answer.startswith("ok data ") and f" dims {size} max {most} " in answer


def compare(program, path):
    found = listed(path)
    names = sorted(found)
    lines = ["/" if name == b"/" else "/".join(spelled(part) for part in name.split(b"/")) for name in names]
    answers = ask(program, path, ["stat " + line for line in lines])
    wrong = [(line, found[name], answer) for name, line, answer in zip(names, lines, answers) if not told_of(found[name], answer)]
    groups = [(name, line) for name, line in zip(names, lines) if found[name] == b"Group"]
    lists = ask(program, path, ["ls " + line for name, line in groups])
    for (name, line), answer in zip(groups, lists):
        front = b"" if name == b"/" else name
        inside = [other[len(front) + 1:] for other in names if other.startswith(front + b"/") and other != b"/" and b"/" not in other[len(front) + 1:]]
        told = [link[2:].split(">")[0] for link in answer.split(" ")[1:]]
        if told != [spelled(part) for part in sorted(inside)]:
            wrong.append((line, inside, answer))
    for case in wrong[:5]:
        print("differs:", case)
    print(f"{len(names)} paths, {len(groups)} groups: {len(wrong)} differences")
    return not wrong


def timed(words, cwd, script=b""):
    """Seconds and megabytes of one run, by GNU time: a child of this program would count this program's own memory."""
    told = os.path.join(cwd, "told")
    subprocess.run(["/usr/bin/time", "-o", told, "-f", "%e %M", *words], cwd=cwd, input=script, stdout=subprocess.DEVNULL, check=True)
    seconds, kilobytes = open(told).read().split()
    return float(seconds), int(kilobytes) / 1024


def large(program, folder):
    """60,000 objects: time and memory to open the file, beside h5stat."""
    path = os.path.join(folder, "large.h5")
    with h5py.File(path, "w") as f:
        for i in range(600):
            g = f.create_group(f"g{i}")
            for j in range(99):
                g.create_dataset(f"d{j}", shape=(4,), dtype="<i4")
    ours = min(timed([program, "run", "plain=large.h5"], folder, b"stat /\n") for _ in range(3))
    theirs = min(timed(["h5stat", path], folder) for _ in range(3))
    print(f"60,001 objects, {os.path.getsize(path)} bytes: {ours[0]:.2f} s and {ours[1]:.0f} MB; h5stat {theirs[0]:.2f} s and {theirs[1]:.0f} MB; ratios {ours[0] / theirs[0]:.3f} and {ours[1] / theirs[1]:.2f}")


def main():
    program = os.path.realpath(sys.argv[1])
    with tempfile.TemporaryDirectory() as folder:
        path = os.path.join(folder, "made.h5")
        make(path)
        before = open(path, "rb").read()
        good = compare(program, path)
        print("the file is as it was" if open(path, "rb").read() == before else "THE FILE CHANGED")
        large(program, folder)
    sys.exit(0 if good else 1)


main()
