#!/usr/bin/env python3
"""Kills the built program at random moments, and looks whether every write that it told as done is there.

    cd crates/rados_tier && rt run -- run < stdin     # builds the program, once
    bench/kill.py [--folder FOLDER] [--kills N] [--lines N] [--names N] [--seed N]

A script of writes runs in a folder and is killed (signal 9) after a random time. Then the program is started anew and reads all names: what
they have has to be what the first M lines leave on a plain store, where M is the number of lines that were told so far, or one more. The
same script is then run again in the same folder, over what is there, and killed again; where it comes to its end, a new folder is begun.
"""
import argparse
import os
import random
import shutil
import subprocess
import sys
import tempfile
import time

import load

PROGRAM = os.path.join(os.path.dirname(os.path.abspath(__file__)), "..", "crates", "rados_tier", "out", "rados_tier")


def leave(lines, count):
    """The version and the bytes of each name behind the first lines."""
    names = {}
    for _, name, value in lines[:count]:
        ver, _ = names.get(name, (0, None))
        names[name] = (ver + 1, value)
    return names


def read_back(place, names):
    """The version and the bytes of each name that the program now tells."""
    script = "".join(f"get 1 {name} read 0 0\n" for name in names).encode()
    done = subprocess.run([PROGRAM, "run"], input=script, stdout=subprocess.PIPE, cwd=place, check=False)
    if done.returncode != 0:
        sys.exit(f"the program ended with status {done.returncode} after a kill: {done.stdout[:200]!r}")
    told, found = done.stdout.decode().splitlines(), {}
    if len(told) != len(names):
        sys.exit(f"{len(told)} answers to {len(names)} readings")
    for name, line in zip(names, told):
        words = line.split(" ")
        if words[1] == "values":
            found[name] = (int(words[2][1:]), words[4])
        elif words[1:4] != ["refused", "0", "noent"] or words[4] != "v0":
            sys.exit(f"{name} was answered {line}")
    return found


def run_and_kill(place, script, wait):
    """How many lines were told before the program was killed, or None where it came to its end before."""
    out = os.path.join(place, "told")
    with open(script, "rb") as source, open(out, "wb") as sink:
        program = subprocess.Popen([PROGRAM, "run"], stdin=source, stdout=sink, cwd=place)
        time.sleep(wait)
        ended = program.poll()
        program.kill()
        program.wait()
    with open(out, "rb") as file:
        told = file.read()
    os.unlink(out)
    whole = told[: told.rfind(b"\n") + 1].decode().splitlines()
    for number, line in enumerate(whole, 1):
        words = line.split(" ")
        if words[0] != str(number) or words[1] not in ("done", "stale"):
            sys.exit(f"line {number} was answered {line}")
    if ended is not None and ended != 0:
        sys.exit(f"the program ended with status {ended}")
    return len(whole), ended is not None


def main():
    parser = argparse.ArgumentParser(description=__doc__, formatter_class=argparse.RawDescriptionHelpFormatter)
    parser.add_argument("--folder", default=".")
    parser.add_argument("--kills", type=int, default=60)
    parser.add_argument("--lines", type=int, default=20_000)
    parser.add_argument("--names", type=int, default=3_000)
    parser.add_argument("--longest", type=float, default=1.0, help="the longest time before a kill, in seconds")
    parser.add_argument("--seed", type=int, default=1)
    asked = parser.parse_args()
    if not os.path.exists(PROGRAM):
        sys.exit("the program is not built: cd crates/rados_tier && rt run -- run < stdin")
    chance = random.Random(asked.seed)
    lines = load.writes(asked.lines, asked.names)
    names = sorted({name for _, name, _ in lines})
    kills = early = doubtful = folders = 0
    with tempfile.TemporaryDirectory(dir=asked.folder) as folder:
        script = os.path.join(folder, "script")
        with open(script, "w", encoding="ascii") as file:
            file.writelines(line for line, _, _ in lines)
        place = None
        while kills < asked.kills:
            if place is None:
                place, there, folders = tempfile.mkdtemp(dir=folder), 0, folders + 1
            told, ended = run_and_kill(place, script, chance.uniform(0, asked.longest))
            kills += not ended
            early += told <= there
            there = max(there, told)
            found = read_back(place, names)
            if found == leave(lines, there + 1) and there < len(lines):
                doubtful += found != leave(lines, there)
                there += 1
            elif found != leave(lines, there):
                lost = [name for name, left in leave(lines, there).items() if found.get(name) != left]
                sys.exit(f"kill {kills}: {there} lines were told, and {len(lost)} names are not as they leave them: {lost[:3]}")
            if ended:
                shutil.rmtree(place)
                place = None
    print(f"{kills} kills in {folders} folders, seed {asked.seed}: every write that was told is there; {doubtful} times one more was; {early} kills came before a new line")


if __name__ == "__main__":
    main()
