"""A plain model of a worker's session, by the frames and the worlds of docs/FORMATS.md and docs/ARCHITECTURE.md, for
tools/hostile_trial. `answered` gives the status of some bytes, the frames that are written and the line that says why.
"""
import struct

TOP = 2**63 - 1
VERTICES, ENTRIES = 2**22, 2**20


class Refused(Exception):
    """A frame that the session refuses."""


def frame(kind, body):
    return b"\x50\x01" + bytes([kind, 0]) + struct.pack(">I", len(body)) + body


def pairs(updates):
    return b"".join(struct.pack(">IQ", vertex, value) for vertex, value in updates)


# ---- bodies

def rises(items):
    return all(a < b for a, b in zip(items, items[1:]))


def entries_of(form, body):
    """The entries of one form that the body is made of, or None."""
    return list(struct.iter_unpack(form, body)) if len(body) % struct.calcsize(form) == 0 else None


def pairs_of(body, most):
    """Pairs that rise by vertex, or None."""
    found = entries_of(">IQ", body)
    fits = found is not None and len(found) <= most and rises([pair[0] for pair in found])
    return found if fits and all(vertex < VERTICES and value <= TOP for vertex, value in found) else None


def load_entries(kind, body):
    """The entries of a load frame, or None."""
    if kind == 3:
        found = pairs_of(body, ENTRIES)
    else:
        found = entries_of({2: ">Q", 4: ">I", 5: ">III"}[kind], body)
    if not found or len(found) > ENTRIES:
        return None
    if kind == 2 and any(value > TOP for value, in found) or kind == 4 and not rises(found):
        return None
    if kind == 5 and found != sorted(found):
        return None
    if kind in (4, 5) and any(vertex >= VERTICES for entry in found for vertex in entry[:2]):
        return None
    return found


def program_of(codes, first, second, number, needed):
    """The six fields of a program, or None where the bytes spell none."""
    form, reads, start, along, fold, own = codes
    small = lambda x: x < 2**32 or x == TOP
    if form > 2 or reads > 2 or start > 2 or along > 5 or fold > 3 or own > 1:
        return None
    if not small(first) or not small(second) or (start and second) or (start == 2 and first):
        return None
    if number >= 2**32 or (number and along not in (1, 5)) or (needed and fold != 3):
        return None
    text = lambda x: "inf" if x == TOP else str(x)
    return (["given", "back", "simple"][form], ["all", "earlier id", "earlier degree"][reads],
            ["source %s %s" % (text(first), text(second)), "each " + text(first), "id"][start],
            ["same", "plus %d" % number, "plus weight", "floor weight", "cap weight", "minus %d" % number][along],
            ["least", "greatest", "mex", "count %d" % needed][fold], ["keep", "drop"][own])


def setup_of(body):
    """A setup: index, low, high, program, chunks, and how many mirrors, boundary vertices and reads; or None."""
    if len(body) != 62:
        return None
    index, low, high, form, reads, start, first, second, along, number, fold, needed, own, chunks, mirrors, boundary, total = (
        struct.unpack(">IIIBBBQQBQBIBIIII", body))
    program = program_of((form, reads, start, along, fold, own), first, second, number, needed)
    fits = index < 64 and low <= high <= VERTICES and 1 <= chunks <= 64
    fits = fits and mirrors <= VERTICES and boundary <= VERTICES and total <= 2**25
    return (low, high, program, mirrors, boundary, total) if fits and program else None


def body_of(kind, body):
    """What the body of this kind says, or None where it is no frame's."""
    if kind == 1:
        return setup_of(body)
    if kind in (2, 3, 4, 5):
        return load_entries(kind, body)
    if kind == 6:
        return True if not body else None
    head = {7: ">IQI", 8: ">I", 9: ">IQBI", 10: ">II"}[kind]
    size = struct.calcsize(head)
    if len(body) < size:
        return None
    said, rest = struct.unpack(head, body[:size]), body[size:]
    if kind == 8:
        return said if not rest else None
    if kind == 10:
        values = entries_of(">Q", rest)
        fits = values is not None and len(values) == said[1] <= VERTICES and all(value <= TOP for value, in values)
        return (said[0], values) if fits else None
    updates = pairs_of(rest, VERTICES)
    fits = updates is not None and len(updates) == said[-1] and (kind == 7 or said[2] <= 1)
    return said[:-1] + (updates,) if fits else None


# ---- worlds

class World:
    """A worker's part, and what it knows of it: core values, or who is alive and how many living each counts."""

    def __init__(self, model, program, low, high, rows, starts, mirrors, boundary):
        self.model, self.program, self.low, self.high, self.rows = model, program, low, high, rows
        self.starts, self.boundary = starts, boundary
        self.epoch = self.round = 0
        self.needed = int(program[4].split()[1]) if program[4].startswith("count") else None
        keep = program[5] == "keep"
        self.masters = [x if keep else 0 for x in starts]
        self.mirrors = {m: (x if keep else 0) for m, x in mirrors}
        if self.needed is not None:
            self.masters, self.counts = [1] * len(rows), [len(row) for row in rows]

    def takes(self, vertex):
        return self.low <= vertex < self.high if self.needed is not None else vertex in self.mirrors

    def step(self, epoch, round, updates):
        """The body of the answer."""
        if epoch < self.epoch or not all(self.takes(vertex) for vertex, _ in updates):
            raise Refused()
        fresh, before = self.epoch < epoch, self.masters
        self.epoch, self.round = epoch, round
        told = self.count(fresh, updates) if self.needed is not None else self.renew(fresh, updates)
        changed = before != self.masters
        return struct.pack(">IQBI", epoch, round, changed, len(told)) + pairs(told)

    def report(self, epoch):
        if epoch != self.epoch:
            raise Refused()
        return struct.pack(">II", epoch, len(self.masters)) + b"".join(struct.pack(">Q", x) for x in self.masters)

    def pull(self, k):
        """What master k gathers."""
        _, _, _, along, fold, _ = self.program
        turn = (lambda x: TOP - x) if fold == "greatest" else (lambda x: x)
        value = lambda u: self.masters[u - self.low] if self.low <= u < self.high else self.mirrors[u]
        items = [turn(self.model.edge_value(along, turn(value(u)), weight)) for u, weight in self.rows[k]]
        return self.model.least_absent(items) if fold == "mex" else min([self.starts[k]] + items)

    def renew(self, fresh, updates):
        """Puts the updates in place and renews all masters; gives what is announced."""
        self.mirrors.update(updates)
        before, pulled = self.masters, [self.pull(k) for k in range(len(self.rows))]
        self.masters = [min(x, y) for x, y in zip(before, pulled)] if self.program[5] == "keep" else pulled
        at = lambda v: v - self.low
        return [(v, self.masters[at(v)]) for v in self.boundary if fresh or before[at(v)] != self.masters[at(v)]]

    def reads_of(self, k, dead):
        return sum(1 for u, _ in self.rows[k] if self.low <= u < self.high and dead(u - self.low))

    def count(self, fresh, updates):
        """Takes the updates off the counts and lets masters die; gives what is announced."""
        alive, counts = self.masters, self.counts
        if fresh:
            counts = [len(row) - self.reads_of(k, lambda j: not alive[j]) for k, row in enumerate(self.rows)]
        taken = dict(updates)
        counts = [max(0, count - taken.get(self.low + k, 0)) for k, count in enumerate(counts)]
        dying = [bool(alive[k]) and counts[k] < self.needed for k in range(len(alive))]
        self.masters = [int(alive[k] and not dying[k]) for k in range(len(alive))]
        self.counts = [max(0, counts[k] - self.reads_of(k, lambda j: dying[j])) for k in range(len(alive))]
        told = [k for k in range(len(alive)) if (not self.masters[k] if fresh else dying[k])]
        times = lambda m: sum(1 for k in told for u, _ in self.rows[k] if u == m)
        return [(m, times(m)) for m in sorted(self.mirrors) if times(m)]


# ---- sessions

class Session:
    """Takes a load and then orders."""

    def __init__(self, model):
        self.model, self.setup, self.world = model, None, None
        self.last, self.lists = 0, {2: [], 3: [], 4: [], 5: []}

    def take(self, kind, said):
        """The frame that is answered, or no bytes."""
        if self.world:
            if kind not in (7, 8):
                raise Refused()
            return frame(9, self.world.step(*said)) if kind == 7 else frame(10, self.world.report(*said))
        if kind > 6 or kind < self.last or (kind == 1) != (self.setup is None):
            raise Refused()
        self.last = kind
        if kind == 1:
            if self.model.class_of(said[2]) not in self.model.CLASSES:
                raise Refused()
            self.setup = said
        elif kind == 6:
            self.world = self.ready()
        else:
            self.lists[kind] += said
        return b""

    def ready(self):
        """The new world of the part that was loaded."""
        low, high, program, mirrors, boundary, total = self.setup
        starts, pairs_loaded, sent, triples = ([x for x in self.lists[kind]] for kind in (2, 3, 4, 5))
        starts, sent = [x for x, in starts], [v for v, in sent]
        names = [m for m, _ in pairs_loaded]
        inside = lambda v: low <= v < high
        fits = (len(starts), len(names), len(sent), len(triples)) == (high - low, mirrors, boundary, total)
        fits = fits and rises(names) and rises(sent) and triples == sorted(triples)
        fits = fits and not any(map(inside, names)) and all(map(inside, sent))
        if not fits or not all(inside(v) and (inside(u) or u in names) for v, u, _ in triples):
            raise Refused()
        rows = [[(u, weight) for v, u, weight in triples if v == low + k] for k in range(high - low)]
        return World(self.model, program, low, high, rows, starts, pairs_loaded, sent)


def next_frame(rest):
    """The kind, what its body says, and its length; or why there is none."""
    if len(rest) < 8:
        return "cut"
    length = struct.unpack(">I", rest[4:8])[0]
    if rest[:2] != b"\x50\x01" or not 1 <= rest[2] <= 10 or rest[3] or length > 2**26:
        return "not a frame"
    if len(rest) < 8 + length:
        return "cut"
    said = body_of(rest[2], rest[8:8 + length])
    return "not a frame" if said is None else (rest[2], said, 8 + length)


def answered(model, data):
    """The status, the frames and the line of the bytes."""
    session, at, out = Session(model), 0, b""
    while at < len(data):
        found = next_frame(data[at:])
        if not isinstance(found, str):
            try:
                out += session.take(*found[:2])
                at += found[2]
                continue
            except Refused:
                found = "refused"
        return 13, out, "phoenix: frame at byte %d: %s\n" % (at, found)
    return 0, out, ""
