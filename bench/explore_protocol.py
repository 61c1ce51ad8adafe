#!/usr/bin/env python3
"""Walks small systems of the protocol between the two pools and tests each clause that holds, and
of each move that it takes no epoch back.

    explore_protocol.py all DEPTH            every run of one name up to this many moves
    explore_protocol.py random RUNS MOVES    random runs over two names
    explore_protocol.py wrong [RULE]         leaves one rule out at a time, and prints the
                                             shortest run found that breaks a clause; fails
                                             where none is found
    explore_protocol.py seen [RULE]          the same, with a run in which a client sees it
    explore_protocol.py clauses [CLAUSE]     for each clause a state that breaks it alone, and
                                             the moves by which that breaks another one; fails
                                             where no state is found

protocol_model.py has the moves, with commits in doubt, lists of chunks and lists of reads;
protocol_clauses.py has the clauses.
"""
import random
import sys

from protocol_clauses import CLAUSES, broken, numbers, seen
from protocol_model import (
    DOWN, NUMBERS, RAISED, REQUESTS, UP, Options, System, at, begin, chunks, moves)

RULES = [
    "older epochs are refused", "service waits for fenced", "a dropped call leaves its write",
    "an install of no higher seq is refused", "clean only at the seq that was sent",
    "only clean records are evicted", "each operation has a number of its own",
    "a stop takes the cache down", "a stop forgets all work",
    "a write is sent under its own number", "a chunk is of this promotion",
    "a chunk is the wanted one", "a blocking flush keeps writes out",
    "a doubt is settled by what is there", "fenced is of this epoch",
    "a reply is of this work", "a write has one driver", "an install has the kept requests",
    "work stands where there is no record", "a flush is of a dirty record",
    "a raise goes above both", "operations are counted from 1", "an adopted write keeps its owner",
    "an act is its owner's", "a fault leaves its call open", "a call acts once",
]
OVER_TWO_NAMES = {"a write is sent under its own number"}
OF_CALLS = {"a write has one driver", "an adopted write keeps its owner", "an act is its owner's",
            "a fault leaves its call open", "a call acts once"}


def started(names):
    """The system after its first start."""
    system = begin(names)
    while system.memory.phase == DOWN:
        system = dict(moves(system))["raise"]
    epoch = system.worlds[0].cache_epoch
    for want in ("fence", "deliver %s" % (("fence", epoch),), "up"):
        system = dict(moves(system))[want]
    return system


# ---- runs

def fallen(system, after):
    """The pools whose epoch the move takes back, below every world of before."""
    return [pool + " falls" for pool in ("cache_epoch", "base_epoch")
            if min(getattr(world, pool) for world in after.worlds)
            < min(getattr(world, pool) for world in system.worlds)]


def all_runs(names, depth, most, test=broken, speaks=False):
    first = started(names)
    before, level = {first: None}, [first]
    for step in range(depth):
        following = []
        for system in level:
            for label, after in moves(system):
                if after in before:
                    continue
                before[after] = (system, label)
                wrong = test(after) or fallen(system, after)
                if wrong:
                    run = [label]
                    while before[system] is not None:
                        system, label = before[system]
                        run.insert(0, label)
                    return len(before), run, wrong
                following.append(after)
            if len(before) > most:
                return len(before), None, None
        level = following
        if speaks:
            print("moves", step + 1, "states", len(before), flush=True)
    return len(before), None, None


def random_run(names, length, rng, calmness, test=broken):
    """A random run: its moves, the clauses that its last state breaks, and that state."""
    system, run = started(names), []
    for _ in range(length):
        choices = [c for c in moves(system) if c[1] != system]
        if not choices:
            break
        wild = ("stop", "drop", "end", "fill")
        calm = [c for c in choices if not c[0].startswith(wild) and not c[0].endswith("doubt")]
        if calm and rng.random() < calmness:
            choices = calm
        before = system
        label, system = rng.choice(choices)
        run.append(label)
        wrong = test(system) or fallen(before, system)
        if wrong:
            return run, wrong, system
    return run, None, system


def replayed(names, run, test):
    """The clauses that the run breaks with its last move, or None."""
    system = started(names)
    for label in run:
        system = dict(moves(system)).get(label)
        if system is None:
            return None
        wrong = test(system)
        if wrong:
            return wrong if label == run[-1] else None
    return None


def shortened(names, run, wrong, test):
    """The run without what it does not need."""
    again = True
    while again:
        again = False
        for i in range(len(run) - 1):
            shorter = run[:i] + run[i + 1:]
            found = replayed(names, shorter, test)
            if found:
                run, wrong, again = shorter, found, True
                break
    return run, wrong


def wrong_run(rule, test, seeds):
    """The shortest run found of the protocol without the rule in which the test finds a wrong."""
    names = 2 if rule in OVER_TWO_NAMES else 1
    Options.left_out, Options.fills = rule, rule == "operations are counted from 1"
    Options.vectors, Options.attempts = (0,), 2 if rule in OF_CALLS else 1
    _, run, wrong = all_runs(names, 9, 40000, test)
    if run:
        return run, wrong
    best = None
    for seed in range(seeds):
        rng = random.Random(seed)
        for _ in range(80):
            run, wrong, _ = random_run(names, 34, rng, (0.9, 0.7)[seed % 2], test)
            if wrong:
                run, wrong = shortened(names, run, wrong, test)
                if best is None or len(run) < len(best[0]):
                    best = (run, wrong)
        if best is not None and seed >= 9:
            break
    return best


# ---- clauses, each taken out in turn

def any_state(rng):
    """A state that requests can leave, at times one request too long."""
    rest, state = sorted(REQUESTS + [(2, 2)]), []
    for _ in range(rng.choice((0, 0, 1, 1, 2, 2, 3, 4))):
        fit = [r for r in rest if all(q[0] != r[0] or q[1] > r[1] or q == r for q in rest)]
        state.append(rng.choice(fit))
        rest.remove(state[-1])
    return tuple(state)


def any_number(rng, memory):
    """A number, often one that work has."""
    given = [x for flight in memory.work for x in numbers(flight)]
    return rng.choice(given) if given and rng.random() < 0.5 else rng.randrange(0, memory.next + 2)


def any_message(rng, world, memory):
    epoch = world.cache_epoch + rng.choice((0, 0, 0, 0, -1, 1))
    number, name = any_number(rng, memory), rng.randrange(len(world.records))
    return rng.choice((
        ("fence", epoch), ("get", epoch, number, name, rng.randrange(2)),
        ("look", epoch, number, name, rng.randrange(2)),
        ("write", epoch, number, name, rng.choice(REQUESTS + [(3, 1)])),
        ("install", epoch, number, name, rng.choice((any_state(rng), world.plain[name])))))


def any_reply(rng, world, memory):
    epoch, number = world.cache_epoch + rng.choice((0, 0, 0, -1, 1)), any_number(rng, memory)
    place, state = rng.randrange(2), any_state(rng)
    return rng.choice((
        ("fenced", epoch), ("chunk", epoch, number, place, chunks(state)[place]),
        ("looked", epoch, number, 0, state),
        ("wrote", epoch, number, rng.choice((("fresh",), ("again",), ("worn",)))),
        ("installed", epoch, number, len(state)), ("no space", epoch, number, "write")))


def any_work(rng, world, memory, name):
    number, request = any_number(rng, memory), rng.choice(REQUESTS)
    call = (name, request, rng.randrange(2))
    return rng.choice((
        None, ("promote", number, chunks(any_state(rng))[:rng.randrange(3)]),
        ("write", number, request, call, None),
        ("reads", ((number, 0),)), ("reads", ((number, 0), (any_number(rng, memory), 1))),
        ("flush", number, rng.randrange(4), rng.random() < 0.5)))


def changed(rng, system):
    """The system with one part of it made anew."""
    world, memory = system.worlds[0], system.memory
    name = rng.randrange(len(world.records))
    what = rng.randrange(15)
    if what <= 2:
        message = any_message(rng, world, memory)
        memory = memory._replace(wire=memory.wire | {message})
        if message[0] == "write":
            call = (message[3], message[4], rng.randrange(2))
            memory = memory._replace(owned=memory.owned | {(message[1], message[2], call)})
    elif what <= 4:
        memory = memory._replace(replies=memory.replies | {any_reply(rng, world, memory)})
    elif what <= 6:
        memory = memory._replace(work=at(memory.work, name, any_work(rng, world, memory, name)))
        drivers = {f[4] for f in memory.work if f is not None and f[0] == "write"}
        memory = memory._replace(waits=memory.waits & drivers)
    elif what == 7:
        memory = memory._replace(next=max(0, memory.next + rng.choice((-2, -1, 1))))
    elif what == 8:
        memory = memory._replace(phase=rng.choice((DOWN, RAISED, UP)), fenced=rng.random() < 0.3)
    elif what == 9:
        plain = rng.choice((world.plain[name], any_state(rng)))
        others, opening = tuple(c for c in world.acts if c[0] != name), ()
        acts = others + tuple((name, r, 0) for r in plain)
        if rng.random() < 0.3:
            acts, opening = others, plain
        elif rng.random() < 0.2:
            acts = rng.choice((acts[:-1], acts + acts[-1:], acts[::-1]))
        base = rng.choice((plain, plain[:-1], any_state(rng)))
        record = rng.choice((None, (plain, True), (plain, False), (any_state(rng), True)))
        world = world._replace(
            plain=at(world.plain, name, plain), base=at(world.base, name, base),
            opening=at(world.opening, name, opening), records=at(world.records, name, record),
            acts=acts)
    elif what == 10:
        epochs = {"cache_epoch": max(0, world.cache_epoch + rng.choice((-1, 1)))}
        base = {"base_epoch": max(0, world.base_epoch + rng.choice((-1, 1)))}
        world = world._replace(**rng.choice((epochs, base)))
    elif what == 11:
        plain, epoch = ((1, 1), (1, 2), (2, 1), (2, 2)), world.cache_epoch
        world = world._replace(
            opening=at(world.opening, name, plain), plain=at(world.plain, name, plain),
            base=at(world.base, name, plain[:-1]), records=at(world.records, name, (plain, True)),
            acts=tuple(c for c in world.acts if c[0] != name))
        sent = {("install", epoch, 0, name, plain), ("write", epoch, 0, name, (3, 1))}
        memory = memory._replace(
            owned=memory.owned | {(epoch, 0, (name, (3, 1), 0))}, wire=memory.wire | sent)
    elif what == 12:
        memory = memory._replace(wire=frozenset(m for m in memory.wire if rng.random() < 0.3))
    elif what == 13:
        flight = any_work(rng, world, memory, name)
        memory = memory._replace(
            work=at(memory.work, name, flight), wire=frozenset(), replies=frozenset())
    else:
        calls = [(name, r, a) for r in REQUESTS for a in range(2)]
        memory = memory._replace(**rng.choice((
            {"closed": memory.closed ^ {rng.choice(calls)}},
            {"waits": memory.waits ^ {rng.choice(calls)}},
            {"owned": frozenset(x for x in memory.owned if rng.random() < 0.5)},
            {"owned": frozenset((e, op, c[:2] + (1 - c[2],)) for e, op, c in memory.owned)})))
    return System((world,), memory)


def harm(system, clause, most=400, depth=3):
    """The fewest moves from the system by which a clause other than this one breaks."""
    seen, level = {system}, [(system, [])]
    for _ in range(depth):
        following = []
        for system, run in level:
            for label, after in moves(system):
                if len(after.worlds) == 2 or after in seen or after.memory.next > NUMBERS:
                    continue
                seen.add(after)
                others = [c for c in broken(after) if c != clause]
                if others:
                    return run + [label], others
                following.append((after, run + [label]))
            if len(seen) > most:
                return None
        level = following
    return None


def clause_states(wanted, rounds):
    """For each clause a run, what is changed then, so that the state breaks this clause alone, and
    the harm."""
    Options.fills, Options.vectors, Options.attempts = True, (0, 1), 2
    rng, best, tried = random.Random(7), {}, {}
    for _ in range(rounds):
        run, _, system = random_run(rng.choice((1, 2)), rng.randrange(0, 14), rng, 0.8)
        if len(system.worlds) == 2:
            continue
        for _ in range(60):
            state = system
            for _ in range(rng.choice((1, 1, 2, 3))):
                state = changed(rng, state)
            wrong = broken(state)
            if len(wrong) != 1 or wrong[0] not in wanted or tried.get(wrong[0], 0) > 400:
                continue
            clause = wrong[0]
            tried[clause] = tried.get(clause, 0) + 1
            done = best.get(clause)
            if done is not None and cost(done) <= len(run) + 1:
                continue
            found = (run, shown(system, state), harm(state, clause))
            if done is None or cost(found) < cost(done):
                best[clause] = found
    return best


def cost(found):
    """The moves before and behind the state; a state without a harm is the last choice."""
    return len(found[0]) + (100 if found[2] is None else len(found[2][0]))


def shown(system, state):
    """What was made anew of the system: each part, or what was added to it and taken from it."""
    parts = []
    for old, new in ((system.worlds[0], state.worlds[0]), (system.memory, state.memory)):
        for part in old._fields:
            a, b = getattr(old, part), getattr(new, part)
            if isinstance(a, frozenset):
                parts += ["%s + %s" % (part, x) for x in sorted(b - a, key=repr)]
                parts += ["%s - %s" % (part, x) for x in sorted(a - b, key=repr)]
            elif a != b:
                parts.append("%s %s" % (part, b))
    return "; ".join(parts)


# ---- the command

def main():
    what, words = sys.argv[1], sys.argv[2:]
    if what == "all":
        count, run, wrong = all_runs(1, int(words[0]), 2000000, speaks=True)
        print("states", count, "broken", wrong, run)
        return 1 if wrong else 0
    if what == "random":
        Options.fills, Options.vectors, Options.attempts = True, (0, 1), 2
        rng, kinds, doubts = random.Random(1), {}, 0
        for _ in range(int(words[0])):
            run, wrong, _ = random_run(2, int(words[1]), rng, 0.9)
            for label in run:
                kind = label.split()[0].rstrip(",")
                kinds[kind] = kinds.get(kind, 0) + 1
                doubts += label.endswith("doubt")
            if wrong:
                print("broken", wrong, run)
                return 1
        print("moves", sum(kinds.values()), "doubts", doubts)
        print(", ".join("%s %d" % k for k in sorted(kinds.items())))
        return 0
    if what in ("wrong", "seen"):
        test, seeds, missed = (broken, 60, 0) if what == "wrong" else (seen, 16, 0)
        for rule in words or RULES:
            best = wrong_run(rule, test, seeds)
            missed += best is None
            print(rule, "|", "NOT FOUND" if best is None else "%d moves, %s: %s" % (
                len(best[0]), ", ".join(best[1]), "; ".join(best[0])), flush=True)
        return 1 if missed and what == "wrong" else 0
    if what == "clauses":
        best = clause_states(words or CLAUSES, 1500)
        for clause in words or CLAUSES:
            if clause not in best:
                print(clause, "|", "NOT FOUND")
                continue
            run, change, found = best[clause]
            harmed = "no harm in three moves"
            if found is not None:
                harmed = "%s: %s" % ("; ".join(found[0]), ", ".join(found[1]))
            print(clause, "|", "; ".join(run), "|", change, "|", harmed, flush=True)
        return 1 if len(best) < len(words or CLAUSES) else 0
    print(__doc__)
    return 2


if __name__ == "__main__":
    sys.exit(main())
