#!/usr/bin/env python3
"""Times what a request costs against the size of its object, with the built program on disks in memory.

    cd crates/rados_tier && rt run -- run < stdin     # builds the program, once
    bench/objects.py [--folder FOLDER] [--lines N] [--runs N]

Each row is a script that makes one object and then asks the same small thing of it many times: an
append of one byte to a small and to a large body, an omapset among few and among many entries, a
request that is refused, a stat. The time of the script without these lines is taken off, so that a row is the time of one
line. A line that writes also reads, spells and commits the whole state, which is linear in the
object; so a row is told beside its object's size. The disks lie in a folder in memory, where a sync
costs nothing. All in one call, so that the figures of one call can be compared.
"""
import argparse
import os
import shutil
import subprocess
import sys
import tempfile
import time

PROGRAM = os.path.join(os.path.dirname(os.path.abspath(__file__)), "..", "crates", "rados_tier", "out", "rados_tier")

MIB = 1_048_576


def body(size):
    """Lines that make an object `a` with a body of so many bytes."""
    return [f"op 1 1 a writefull {'78' * size or '-'}"]


def omap(count):
    """Lines that make an object `a` with so many entries of 8 bytes, sixteen to a line."""
    lines = []
    for first in range(0, count, 16):
        sets = [f"omapset {f'k{at:04}'.encode().hex()} 7676767676767676" for at in range(first, min(first + 16, count))]
        lines.append(f"op 1 {1 + first} a " + " ; ".join(sets))
    return lines


def rows(lines):
    """What is timed: a name, the lines that make the object, and the same thing asked many times."""
    times = range(2_000, 2_000 + lines)
    appended = [f"op 1 {tid} a append 78" for tid in times]
    looked = ["get 1 a stat"] * lines
    entered = [f"op 1 {tid} a omapset {b'k0000'.hex()} {tid:016x}" for tid in times]
    refused = [f"op 1 {tid} a create" for tid in times]
    undone = [f"op 1 {tid} a append 78 ; create" for tid in times]
    for size in (0, 65_536, MIB // 4, MIB - lines):
        yield f"append of 1 byte to {size} bytes", size, body(size), appended
    for size in (0, MIB - lines):
        yield f"refused on {size} bytes", size, body(size), refused
        yield f"refused behind an append to {size} bytes", size, body(size), undone
        yield f"stat of {size} bytes", size, body(size), looked
    for count in (16, 256, 1_024):
        yield f"omapset of a key among {count}", 21 * count, omap(count), entered


def seconds(folder, lines):
    """The time of one run over new disks, whose answers are counted."""
    place = tempfile.mkdtemp(dir=folder)
    try:
        with open(os.path.join(place, "script"), "w+b") as source, open(os.path.join(place, "answers"), "w+b") as sink:
            source.write(("\n".join(lines) + "\n").encode())
            source.seek(0)
            begin = time.perf_counter()
            subprocess.run([PROGRAM, "run"], stdin=source, stdout=sink, cwd=place, check=True)
            taken = time.perf_counter() - begin
            sink.seek(0)
            told = sink.read().decode().splitlines()
    finally:
        shutil.rmtree(place)
    if len(told) != len(lines):
        sys.exit(f"{len(told)} answers to {len(lines)} lines, the last of them {told[-1:]}")
    return taken


def main():
    parser = argparse.ArgumentParser(description=__doc__, formatter_class=argparse.RawDescriptionHelpFormatter)
    parser.add_argument("--folder", default="/dev/shm", help="where the disks are made; in memory, so that a sync costs nothing")
    parser.add_argument("--lines", type=int, default=500, help="how many times the same thing is asked")
    parser.add_argument("--runs", type=int, default=3, help="of which the fastest counts")
    asked = parser.parse_args()
    if not os.path.exists(PROGRAM):
        sys.exit("the program is not built: cd crates/rados_tier && rt run -- run < stdin")
    print(f"{'':<44} {'object':>9} {'a line':>11} {'a byte of it':>13}")
    for name, size, made, asks in rows(asked.lines):
        alone = min(seconds(asked.folder, made) for _ in range(asked.runs))
        whole = min(seconds(asked.folder, made + asks) for _ in range(asked.runs))
        line = max(whole - alone, 0) / len(asks)
        each = f"{line * 1e9 / size:9.2f} ns" if size >= 4_096 else ""
        print(f"{name:<44} {size:>9} {line * 1e6:8.1f} us {each:>13}")


if __name__ == "__main__":
    main()
