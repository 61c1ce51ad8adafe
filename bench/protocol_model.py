"""The protocol between the two pools over small values, with every clause of its invariant.

The definitions are those of crates/tier_protocol/specs and crates/tier_owners/specs. A name's
state is the tuple of the requests (client, tid) that acted on it, cut into two chunks; LIMIT
requests wear a name out. A call is (name, request, attempt): a client may ask one request twice.
While a commit is in doubt a system has two worlds over one memory, and the clauses are tested in
both.
"""
from collections import namedtuple

DOWN, RAISED, UP = "down", "raised", "up"
LIMIT, EPOCHS, NUMBERS = 3, 3, 6
REQUESTS = [(1, 1), (1, 2), (2, 1)]


class Options:
    """What a walk has in it: the rule that is left out, wants of space, the vectors that readers
    ask, and how often a client may ask one request."""
    left_out = None
    fills = False
    vectors = (0,)
    attempts = 1


# what the pools have, and the plain store with the calls that acted
World = namedtuple("World", "records base opening plain acts cache_epoch base_epoch")
# what memory and the wire have
Memory = namedtuple("Memory", "work wire replies next phase fenced owned closed waits")
System = namedtuple("System", "worlds memory")


def without(rule):
    return Options.left_out == rule


def at(values, n, value):
    return values[:n] + (value,) + values[n + 1:]


def kept(state, client):
    return max([tid for c, tid in state if c == client], default=0)


def act(state, request):
    tid = kept(state, request[0])
    if request[1] < tid:
        return ("stale", tid)
    if request[1] == tid:
        return ("again",)
    return ("worn",) if len(state) == LIMIT else ("fresh", state + (request,))


def chunks(state):
    return (("head", len(state)), ("seen", state))


def begin(names):
    none, empty = (None,) * names, ((),) * names
    world = World(none, empty, empty, empty, (), 0, 0)
    nothing = frozenset()
    first = 0 if without("operations are counted from 1") else 1
    memory = Memory(none, nothing, nothing, first, DOWN, False, nothing, nothing, nothing)
    return System((world,), memory)


def acted(world, memory, name, request, call):
    """The world in which the request acts on the plain store as well, as the act of this call, or
    as one too late."""
    plain = act(world.plain[name], request)
    if call is None or call in world.acts or call in memory.closed:
        call = (name, request, "too late")
    state = plain[1] if plain[0] == "fresh" else world.plain[name] + (request,)
    return world._replace(plain=at(world.plain, name, state), acts=world.acts + (call,))


# ---- the base

def owner_of(memory, epoch, number):
    return next((call for e, op, call in sorted(memory.owned) if (e, op) == (epoch, number)), None)


def served(world, memory, message):
    """The world after the base took the message, and its reply."""
    kind, epoch, have = message[0], message[1], world.base_epoch
    if kind == "fence":
        if epoch < have:
            return world, None
        return world._replace(base_epoch=epoch), ("fenced", epoch)
    if epoch < have and not without("older epochs are refused"):
        return world, None
    if epoch > have:
        return world, ("not fenced", have, epoch)
    number, name = message[2], message[3]
    state = world.base[name]
    if kind == "get":
        return world, ("chunk", epoch, number, message[4], chunks(state)[message[4]])
    if kind == "look":
        return world, ("looked", epoch, number, message[4], state)
    if kind == "write":
        answer = act(state, message[4])
        if answer[0] == "fresh":
            call = owner_of(memory, epoch, number)
            if without("an act is its owner's"):
                flight = memory.work[name]
                if flight is not None and flight[0] == "write" and flight[4] is not None:
                    call = flight[4]
            world = world._replace(base=at(world.base, name, answer[1]))
            world = acted(world, memory, name, message[4], call)
            answer = ("fresh",)
        return world, ("wrote", epoch, number, answer)
    if len(state) < len(message[4]) or without("an install of no higher seq is refused"):
        world = world._replace(base=at(world.base, name, message[4]))
    return world, ("installed", epoch, number, len(message[4]))


# ---- moves of the pools and of work

def calls_for(world, memory, name, request):
    """The calls that may act, or begin a write, for this request: open, and not waiting; a second
    attempt comes behind the first."""
    owners = {call for _, _, call in memory.owned}
    found = []
    for attempt in range(Options.attempts):
        call = (name, request, attempt)
        used = any(call in calls for calls in (world.acts, memory.closed, owners, memory.waits))
        if call not in memory.waits and (without("a call acts once") or (
                call not in world.acts and call not in memory.closed)):
            found.append(call)
        if not used:
            break
    return found


def sent_state(record):
    """What a flush sends: the whole state, with the requests that are kept."""
    return ((0, 0),) * len(record[0]) if without("an install has the kept requests") else record[0]


def pool_moves(world, memory):
    """(label, world, memory, failed): where the move is a commit, which may be in doubt, the last
    part is the memory that the commit leaves where it fails."""
    epoch, work = world.cache_epoch, memory.work
    for message in sorted(memory.wire):
        after, reply = served(world, memory, message)
        told = memory if reply is None else memory._replace(replies=memory.replies | {reply})
        yield "deliver %s" % (message,), after, told, memory if after != world else None
        if Options.fills and message[0] in ("fence", "write", "install"):
            number = 0 if message[0] == "fence" else message[2]
            reply = ("no space", message[1], number, message[0])
            told = memory._replace(replies=memory.replies | {reply})
            yield "fill %s" % (message,), world, told, None
    first = 0 if without("operations are counted from 1") else 1
    if memory.phase == DOWN and epoch < EPOCHS:
        higher = max(epoch, world.base_epoch) + 1
        if without("a raise goes above both"):
            higher = max(epoch, 1)
        raised = memory._replace(next=first, phase=RAISED, fenced=False)
        yield "raise", world._replace(cache_epoch=higher), raised, memory
    if memory.phase != DOWN:
        yield "fence", world, memory._replace(wire=memory.wire | {("fence", epoch)}), None
    if memory.phase == UP or (without("service waits for fenced") and memory.phase == RAISED):
        for name in range(len(work)):
            yield from begin_moves(world, memory, name)
            yield from record_moves(world, memory, name)
            yield from work_moves(world, memory, name)


def begin_moves(world, memory, name):
    epoch, work = world.cache_epoch, memory.work
    number = 1 if without("each operation has a number of its own") else memory.next
    record, flight = world.records[name], work[name]
    if number >= NUMBERS:
        return

    def starts(flight, message, **more):
        return memory._replace(
            work=at(work, name, flight), wire=memory.wire | {message}, next=number + 1, **more)

    bare = record is None or (without("work stands where there is no record") and not record[1])
    if bare and flight is None:
        asked = starts(("promote", number, ()), ("get", epoch, number, name, 0))
        yield "promote %d" % name, world, asked, None
        for request in REQUESTS:
            for call in calls_for(world, memory, name, request):
                used = number
                if without("a write is sent under its own number"):
                    used = next((f[1] for f in work if f is not None and f[0] == "write"), number)
                asked = starts(
                    ("write", number, request, call, call), ("write", epoch, used, name, request),
                    owned=memory.owned | {(epoch, used, call)}, waits=memory.waits | {call})
                yield "write %s" % (call,), world, asked, None
    if bare and (flight is None or flight[0] == "reads"):
        for vector in Options.vectors:
            reads = (() if flight is None else flight[1]) + ((number, vector),)
            yield ("read %d %d" % (name, vector), world,
                   starts(("reads", reads), ("look", epoch, number, name, vector)), None)
    dirty = record is not None and record[1]
    any_record = without("a flush is of a dirty record") and record is not None
    if flight is None and (dirty or any_record):
        for blocking in (False, True):
            yield ("flush %d blocking %s" % (name, blocking), world,
                   starts(("flush", number, len(record[0]), blocking),
                          ("install", epoch, number, name, sent_state(record))), None)


def record_moves(world, memory, name):
    record, flight = world.records[name], memory.work[name]
    if record is None:
        return

    def put(record):
        return world._replace(records=at(world.records, name, record))

    lets = flight is None or (flight[0] == "flush" and (
        not flight[3] or without("a blocking flush keeps writes out")))
    for request in REQUESTS if lets else []:
        answer = act(record[0], request)
        for call in calls_for(world, memory, name, request) if answer[0] == "fresh" else []:
            done = memory._replace(closed=memory.closed | {call})
            after = acted(put((answer[1], True)), memory, name, request, call)
            yield "act %s" % (call,), after, done, memory
    if flight is None and (not record[1] or without("only clean records are evicted")):
        yield "evict %d" % name, put(None), memory, memory


def work_moves(world, memory, name):
    epoch, work = world.cache_epoch, memory.work
    record, flight = world.records[name], work[name]
    if flight is None:
        return
    free = memory._replace(work=at(work, name, None))

    def sends(message, **more):
        return memory._replace(wire=memory.wire | {message}, **more)

    def put(record):
        return world._replace(records=at(world.records, name, record))

    def replies(kind, number, rule=""):
        return [p for p in sorted(memory.replies, key=repr)
                if p[:2] == (kind, epoch) and (p[2] == number or without(rule))]

    number = flight[1]
    if flight[0] == "reads":
        for read in flight[1]:
            asked = sends(("look", epoch, read[0], name, read[1]))
            yield "look again %s" % (read,), world, asked, None
    if flight[0] == "promote":
        got = flight[2]
        if len(got) < 2:
            yield "ask again %d" % name, world, sends(("get", epoch, number, name, len(got))), None
        for reply in replies("chunk", number, "a chunk is of this promotion"):
            if reply[3] == len(got) or (without("a chunk is the wanted one") and len(got) < 2):
                more = memory._replace(work=at(work, name, ("promote", number, got + (reply[4],))))
                yield "gather %d %s" % (name, reply), world, more, None
        if len(got) == 2 and got[1][0] == "seen":
            yield "promoted %d" % name, put((got[1][1], False)), free, free
    if flight[0] == "write":
        request, owner, driver = flight[2:]
        owned = memory.owned | {(epoch, number, owner)}
        message = ("write", epoch, number, name, request)
        yield "again %d" % name, world, sends(message, owned=owned), None
        if driver is None or without("a write has one driver"):
            for call in calls_for(world, memory, name, request):
                taken = at(work, name, ("write", number, request, owner, call))
                if without("an adopted write keeps its owner"):
                    taken = at(work, name, ("write", number, request, call, call))
                asked = sends(message, work=taken, waits=memory.waits | {call}, owned=owned)
                yield "adopt %s" % (call,), world, asked, None
        for reply in replies("wrote", number, "a reply is of this work"):
            ended = free._replace(waits=memory.waits - {driver})
            if reply[3][0] != "worn":
                answered = {c for c in (owner, driver) if c is not None}
                ended = ended._replace(closed=memory.closed | answered)
            yield "landed %d %s" % (name, reply), world, ended, None
    if flight[0] == "flush" and record is not None:
        message = ("install", epoch, number, name, sent_state(record))
        yield "flush again %d" % name, world, sends(message), None
        for reply in replies("installed", number):
            if len(record[0]) == flight[2] or without("clean only at the seq that was sent"):
                yield "clean %d %s" % (name, reply), put((record[0], False)), free, free
                yield "drained %d %s" % (name, reply), put(None), free, free


# ---- moves of the memory alone, which go on while a commit is in doubt

def memory_moves(worlds, memory):
    gone = (None,) * len(memory.work)
    down = memory.phase if without("a stop takes the cache down") else DOWN
    work = memory.work if without("a stop forgets all work") else gone
    waits = memory.waits if without("a stop forgets all work") else frozenset()
    yield "stop cache", memory._replace(work=work, phase=down, fenced=False, waits=waits)
    yield "stop base", memory._replace(fenced=False)
    fenced = [p[1] for p in memory.replies if p[0] == "fenced"]
    told = worlds[0].cache_epoch in fenced or (fenced and without("fenced is of this epoch"))
    if memory.phase != DOWN and told:
        yield "up", memory._replace(phase=UP, fenced=True)
    for name, flight in enumerate(memory.work):
        if flight is None:
            continue
        if flight[0] != "write":
            yield "drop %d" % name, memory._replace(work=at(memory.work, name, None))
        elif flight[4] is not None:
            left = flight[:4] + (None,)
            if without("a dropped call leaves its write"):
                left = None
            closed = memory.closed
            if without("a fault leaves its call open"):
                closed = closed | {flight[4]}
            yield "drop %d" % name, memory._replace(
                work=at(memory.work, name, left), waits=memory.waits - {flight[4]}, closed=closed)
        if flight[0] == "reads":
            for read in flight[1]:
                rest = tuple(x for x in flight[1] if x != read)
                left = ("reads", rest) if rest else None
                yield "end read %s" % (read,), memory._replace(work=at(memory.work, name, left))


def settled(worlds, memory):
    for i, world in enumerate(worlds):
        after = memory
        if world.cache_epoch > min(w.cache_epoch for w in worlds) and memory.phase == DOWN:
            first = 0 if without("operations are counted from 1") else 1
            after = memory._replace(next=first, phase=RAISED)
        if without("a doubt is settled by what is there"):
            world = world._replace(plain=worlds[1 - i].plain, acts=worlds[1 - i].acts)
        yield "found %s" % ("with" if i else "without"), System((world,), after)


def moves(system):
    worlds, memory = system
    for label, after in memory_moves(worlds, memory):
        yield label, System(worlds, after)
    if len(worlds) == 2:
        yield from settled(worlds, memory)
        return
    for label, world, after, failed in pool_moves(worlds[0], memory):
        yield label, System((world,), after)
        if failed is not None and world != worlds[0]:
            dropped = {f[4] for f in memory.work if f is not None and f[0] == "write"}
            failed = failed._replace(waits=failed.waits & dropped)
            yield label + ", in doubt", System((worlds[0], world), failed)
