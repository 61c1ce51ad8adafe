#!/usr/bin/env python3
"""Times the built program on its own generated script, on real files, against what the disk allows.

    cd crates/rados_tier && rt run -- run < stdin     # builds the program, once
    bench/run.py [--folder FOLDER] [--no-sync FOLDER] [--lines N] [--runs N] [--limits]

The script is what `rados_tier gen` prints: writefull, append, read and stat in equal parts, over 3,000 names by 16 clients. A commit costs
two writes, each of which is settled before the next: its record, and the one byte that opens the record's gate. The bound is that alone: 64
bytes are written behind a file's end, fdatasync, one byte of them is written again, fdatasync, as many times as the script has writes. The
bound is measured before and after each run, in the same folder, and the ratio is the program's commits a second to the mean of the two. The
answers go to a file in memory, so that no reader of them takes part. Then the same script runs in a folder without a disk behind it (a
tmpfs), where a sync costs nothing: that is the time of the code alone. All in one call, so that the figures of one call can be compared.

--limits measures the most lines instead: 1,000,000 are generated and checked, and one more is refused, with the time and the most memory.
"""
import argparse
import os
import shutil
import subprocess
import sys
import tempfile
import time

PROGRAM = os.path.join(os.path.dirname(os.path.abspath(__file__)), "..", "crates", "rados_tier", "out", "rados_tier")


def bound(folder, commits):
    """Commits a second of nothing but the writes and the syncs."""
    path = os.path.join(folder, "bound")
    file = os.open(path, os.O_RDWR | os.O_CREAT | os.O_TRUNC, 0o644)
    record, gate = b"\0" * 64, b"\1"
    begin = time.perf_counter()
    for k in range(commits):
        os.pwrite(file, record, 64 * k)
        os.fdatasync(file)
        os.pwrite(file, gate, 64 * k)
        os.fdatasync(file)
    seconds = time.perf_counter() - begin
    os.close(file)
    os.unlink(path)
    return commits / seconds


def answered(told):
    """Whether the text of a line is an answer of the generated script on empty disks: a fresh write, or a read, of a name or of none."""
    words = told.split(" ")
    return words[1] in ("done", "values") and words[-1] != "kept" or words[1:4] == ["refused", "0", "noent"]


def generated(lines):
    """The generated script, and how many of its lines write."""
    with tempfile.TemporaryDirectory() as place:
        text = subprocess.run([PROGRAM, "gen", "--count", str(lines)], stdin=subprocess.DEVNULL, stdout=subprocess.PIPE, cwd=place, check=True).stdout
    return text, sum(line.startswith(b"op ") for line in text.splitlines())


def timed(folder, memory, script, lines):
    """Seconds of one run over new disks in a folder, whose answers go to a file in memory and are checked."""
    place = tempfile.mkdtemp(dir=folder)
    try:
        with open(script, "rb") as source, tempfile.TemporaryFile(dir=memory) as sink:
            begin = time.perf_counter()
            subprocess.run([PROGRAM, "run"], stdin=source, stdout=sink, cwd=place, check=True)
            seconds = time.perf_counter() - begin
            sink.seek(0)
            told = sink.read().decode().splitlines()
        used = os.path.getsize(os.path.join(place, "base0.img"))
    finally:
        shutil.rmtree(place)
    wrong = [line for line in told if not answered(line)]
    if len(told) != lines or wrong:
        sys.exit(f"{len(told)} answers, {len(wrong)} of them wrong: {wrong[:1]}")
    return seconds, used


def measured(place, words, script, out):
    """Status, seconds and the most memory, in MiB, of a call in a process of its own."""
    with open(script, "rb") as source, open(out, "wb") as sink:
        begin = time.perf_counter()
        child = subprocess.Popen([PROGRAM, *words], stdin=source, stdout=sink, cwd=place)
        _, status, usage = os.wait4(child.pid, 0)
        return os.waitstatus_to_exitcode(status), time.perf_counter() - begin, usage.ru_maxrss / 1024


def limits(folder):
    """Generates and checks the most lines that a script may have, and one more."""
    most = 1_000_000
    with tempfile.TemporaryDirectory(dir=folder) as place:
        script, out = os.path.join(place, "script"), os.path.join(place, "out")
        open(out, "wb").close()
        for name, words, source, sink in (
            (f"gen --count {most}", ["gen", "--count", str(most)], out, script),
            (f"check of {most} lines", ["check"], script, out),
        ):
            status, seconds, memory = measured(place, words, source, sink)
            print(f"{name}: status {status}, {seconds:.2f} s, {memory:.0f} MiB, {os.path.getsize(sink)} bytes out")
        with open(script, "ab") as file:
            file.write(b"\n")
        status, seconds, memory = measured(place, ["check"], script, out)
        with open(out, "rb") as file:
            print(f"check of {most + 1} lines: status {status}, {seconds:.2f} s, {memory:.0f} MiB, {file.read()}")


def main():
    parser = argparse.ArgumentParser(description=__doc__, formatter_class=argparse.RawDescriptionHelpFormatter)
    parser.add_argument("--folder", default=".", help="where the disks are made; it is to be on a real disk")
    parser.add_argument("--no-sync", default="/dev/shm", help="a folder in memory")
    parser.add_argument("--lines", type=int, default=20_000)
    parser.add_argument("--runs", type=int, default=3)
    parser.add_argument("--limits", action="store_true", help="measure the most lines instead")
    asked = parser.parse_args()
    if not os.path.exists(PROGRAM):
        sys.exit("the program is not built: cd crates/rados_tier && rt run -- run < stdin")
    if asked.limits:
        return limits(asked.folder)
    text, commits = generated(asked.lines)
    memory = asked.no_sync if os.path.isdir(asked.no_sync) else None
    with tempfile.TemporaryDirectory(dir=asked.folder) as folder:
        script = os.path.join(folder, "script")
        with open(script, "wb") as file:
            file.write(text)
        print(f"script: {asked.lines} lines, {commits} of them writes")
        before = bound(folder, commits)
        for run in range(1, asked.runs + 1):
            seconds, used = timed(folder, memory, script, asked.lines)
            after = bound(folder, commits)
            rate, limit = commits / seconds, (before + after) / 2
            print(
                f"run {run}: {seconds:.2f} s, {asked.lines / seconds:,.0f} lines/s, {rate:,.0f} commits/s, "
                f"bound {before:,.0f} before and {after:,.0f} after, ratio {rate / limit:.3f}, {used} bytes of log"
            )
            before = after
        if memory is not None:
            for run in range(1, asked.runs + 1):
                seconds, _ = timed(memory, memory, script, asked.lines)
                print(f"without a disk {run}: {seconds:.3f} s, {asked.lines / seconds:,.0f} lines/s, {commits / seconds:,.0f} commits/s")


if __name__ == "__main__":
    main()
