"""Every clause of the invariant of the protocol between the two pools, by name."""
from protocol_model import LIMIT, RAISED, UP, DOWN, act, chunks, kept

# the rows of the tables of docs/semantics/protocol.md, in their order
CLAUSES = [
    "work stands only while up", "numbers are below the next", "silent until fenced",
    "no epoch above the cache's",
    "a number's message is its work's", "numbers are apart", "counted from 1",
    "both epochs are one", "epochs are known", "the base is behind or level",
    "clean is level, records show", "seq has its limit", "bare work has no record",
    "chunks are the first ones", "flushes stand over dirty",
    "installs are behind", "writes are harmless", "answers hold",
    "the history is legal", "writes have owners", "owners are open or spent",
    "a write's owner is told", "each driver waits",
]


def numbers(flight):
    if flight is None:
        return ()
    return tuple(r[0] for r in flight[1]) if flight[0] == "reads" else (flight[1],)


def spent(world, memory, name, request):
    if len(world.base[name]) == LIMIT:
        return True
    covered = [world.base[name], world.plain[name]]
    covered += [m[4] for m in memory.wire
                if m[0] == "install" and m[3] == name and len(m[4]) > len(world.base[name])]
    return all(request[1] <= kept(state, request[0]) for state in covered)


def lasting(told):
    return ("again",) if told[0] == "fresh" else told


def memory_clauses(epoch, memory):
    yield "counted from 1", memory.next > 0
    yield "no epoch above the cache's", memory.phase == DOWN or epoch > 0
    yield "work stands only while up", not memory.fenced or memory.phase == UP
    for m in memory.wire:
        yield "no epoch above the cache's", m[1] <= epoch
        if m[0] != "fence":
            yield "silent until fenced", memory.phase != RAISED or m[1] < epoch
            yield "numbers are below the next", m[1] != epoch or m[2] < memory.next
    for p in memory.replies:
        if p[0] == "not fenced":
            continue
        if p[0] == "fenced" or p[0] != "no space" or p[2] != 0:
            yield "no epoch above the cache's", p[1] <= epoch
        if p[0] != "fenced" and (p[0] != "no space" or p[2] != 0):
            yield "silent until fenced", memory.phase != RAISED or p[1] < epoch
            yield "numbers are below the next", p[1] != epoch or p[2] < memory.next
    given = [x for flight in memory.work for x in numbers(flight)]
    yield "numbers are apart", len(given) == len(set(given))
    yield "numbers are below the next", all(x < memory.next for x in given)
    yield "counted from 1", all(x > 0 for x in given)
    kinds = {"promote": "get", "write": "write", "reads": "look", "flush": "install"}
    for name, flight in enumerate(memory.work):
        yield "work stands only while up", flight is None or memory.phase == UP
        for m in memory.wire:
            if flight is not None and m[0] != "fence" and m[1] == epoch and m[2] in numbers(flight):
                own = m[0] == kinds[flight[0]] and m[3] == name
                own = own and (m[0] != "write" or m[4] == flight[2])
                own = own and (m[0] != "look" or all(m[4] == v for x, v in flight[1] if x == m[2]))
                yield "a number's message is its work's", own
        for p in memory.replies:
            if p[:2] == ("no space", epoch) and p[2] in numbers(flight):
                yield "a number's message is its work's", p[3] == kinds[flight[0]]
    drivers = [f[4] for f in memory.work if f is not None and f[0] == "write" and f[4] is not None]
    yield "each driver waits", sorted(drivers) == sorted(memory.waits)


def world_clauses(world, memory):
    epoch = world.cache_epoch
    yield "both epochs are one", memory.phase != UP or world.base_epoch == epoch
    yield "both epochs are one", epoch == 0 or world.base_epoch <= epoch
    for m in memory.wire:
        yield "epochs are known", m[0] == "fence" or m[1] <= world.base_epoch
    for p in memory.replies:
        yield "epochs are known", p[0] != "not fenced"
        if p[0] != "no space" or p[2] != 0:
            yield "epochs are known", p[1] <= world.base_epoch
    for name in range(len(world.records)):
        yield from name_clauses(world, memory, name)
    yield from owner_clauses(world, memory)


def name_clauses(world, memory, name):
    epoch, record, flight = world.cache_epoch, world.records[name], memory.work[name]
    base, plain = world.base[name], world.plain[name]
    yield "the base is behind or level", len(base) < len(plain) or base == plain
    yield "clean is level, records show", (record is not None and record[1]) or base == plain
    yield "clean is level, records show", record is None or record[0] == plain
    yield "seq has its limit", len(plain) <= LIMIT
    for m in memory.wire:
        if m[0] == "install" and m[3] == name:
            yield "installs are behind", len(m[4]) < len(plain) or m[4] == plain
        if m[0] == "write" and m[3] == name and m[1] >= world.base_epoch:
            own = flight is not None and flight[0] == "write" and flight[2] == m[4]
            stopped = memory.phase != UP and record is None
            yield "writes are harmless", own or stopped or spent(world, memory, name, m[4])
    if flight is None:
        return
    yield "bare work has no record", flight[0] == "flush" or record is None
    if flight[0] == "promote":
        yield "chunks are the first ones", flight[2] == chunks(base)[:len(flight[2])]
    if flight[0] == "flush":
        dirty = record is not None and record[1] and flight[2] <= len(plain)
        yield "flushes stand over dirty", dirty and (not flight[3] or flight[2] == len(plain))
        yield "flushes stand over dirty", all(
            flight[2] <= len(m[4]) for m in memory.wire
            if m[0] == "install" and m[1:3] == (epoch, flight[1]))
    for p in memory.replies:
        if p[0] == "fenced" or p[1] != epoch or p[2] not in numbers(flight):
            continue
        if p[0] == "chunk" and flight[0] == "promote":
            yield "chunks are the first ones", p[4] == chunks(base)[p[3]]
        if p[0] == "looked" and flight[0] == "reads":
            yield "answers hold", p[4] == base and all(p[3] == v for x, v in flight[1] if x == p[2])
        if p[0] == "wrote" and flight[0] == "write":
            yield "answers hold", act(base, flight[2])[:1] == lasting(p[3])[:1]
        if p[0] == "installed" and flight[0] == "flush":
            yield "answers hold", flight[2] <= p[3] <= len(base)


def owner_clauses(world, memory):
    for name, plain in enumerate(world.plain):
        state = world.opening[name]
        for call in world.acts:
            if call[0] == name and state is not None:
                answer = act(state, call[1])
                state = answer[1] if answer[0] == "fresh" and call[2] != "too late" else None
        yield "the history is legal", state == plain
    owned = {(e, op): call for e, op, call in memory.owned}
    for m in memory.wire:
        if m[0] != "write":
            continue
        call = owned.get((m[1], m[2]))
        asked = call is not None and call[:2] == m[3:5]
        yield "writes have owners", asked and m[1] <= world.base_epoch
        if call is not None and m[1] >= world.base_epoch:
            free = call not in world.acts and call not in memory.closed
            yield "owners are open or spent", free or spent(world, memory, m[3], m[4])
    for name, flight in enumerate(memory.work):
        if flight is None or flight[0] != "write":
            continue
        number, request, owner = flight[1:4]
        yield "a write's owner is told", owner[:2] == (name, request) and owner not in memory.closed
        again = act(world.base[name], request)[0] == "again"
        yield "a write's owner is told", owner not in world.acts or again
        yield "a write's owner is told", owned.get((world.cache_epoch, number), owner) == owner
        fresh = ("wrote", world.cache_epoch, number, ("fresh",)) in memory.replies
        yield "a write's owner is told", not fresh or owner in world.acts


def broken(system):
    """The names of the clauses that do not hold, in either world."""
    epoch = min(w.cache_epoch for w in system.worlds)
    found = {clause for clause, holds in memory_clauses(epoch, system.memory) if not holds}
    for world in system.worlds:
        found |= {clause for clause, holds in world_clauses(world, system.memory) if not holds}
    return sorted(found)


def seen(system):
    """What a client would see that no plain store shows, in either world."""
    memory, found = system.memory, set()
    drivers = [f[4] for f in memory.work if f is not None and f[0] == "write" and f[4] is not None]
    if sorted(drivers) != sorted(memory.waits):
        found.add("a call is never answered")
    for world in system.worlds:
        if any(clause == "the history is legal" and not holds
               for clause, holds in owner_clauses(world, memory)):
            found.add("an act that no plain store makes, or behind its call's answer")
        if any(p[0] == "not fenced" for p in memory.replies):
            found.add("the base refuses its own cache")
        for name, flight in enumerate(memory.work):
            plain, record = world.plain[name], world.records[name]
            if record is not None and record[0] != plain:
                found.add("the cache shows another state")
            if record is None and flight is None and world.base[name] != plain:
                found.add("a name without a record is lost")
            for p in memory.replies:
                if p[0] == "fenced" or p[1] != world.cache_epoch or p[2] not in numbers(flight):
                    continue
                if p[0] == "looked" and flight[0] == "reads" and p[4] != plain:
                    found.add("a reader is told an old state")
                if p[0] == "wrote" and flight[0] == "write":
                    if act(plain, flight[2])[:1] != lasting(p[3])[:1]:
                        found.add("a writer is told what is not so")
                    if p[3] == ("fresh",) and flight[3] not in world.acts:
                        found.add("a call is told of another's act")
    return sorted(found)
