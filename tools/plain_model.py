"""A plain model of runs, written after docs/PROTOCOL.md and docs/FORMATS.md: the code, digests and stamps, nodes, writers,
readers, liars, the device, lines and why they are refused, and histories with their reports. The program isn't asked.

It is made for small clusters and some hundred lines, and is as slow as it is plain.
"""

import collections
import functools
import hashlib

LAST_TIME = 2**64 - 1

# ---- The field and the code


def product(one, other):
    """The product of two bytes as polynomials, modulo 0x11D."""
    total = 0
    while other:
        if other & 1:
            total ^= one
        one <<= 1
        if one & 0x100:
            one ^= 0x11D
        other >>= 1
    return total


PRODUCTS = [bytes(product(one, other) for other in range(256)) for one in range(256)]


@functools.lru_cache(None)
def weights(places, at):
    """What the values at these places are multiplied by, to sum up to the value of their polynomial at another place."""
    result = []
    for own in places:
        weight = 1
        for other in places:
            if other != own:
                weight = product(weight, product(at ^ other, PRODUCTS[own ^ other].index(1)))
        result.append(weight)
    return result


def row_at(parts, at):
    """The row at a place, of the polynomials that go through these rows by their places."""
    total = 0
    for weight, row in zip(weights(tuple(parts), at), parts.values()):
        total ^= int.from_bytes(row.translate(PRODUCTS[weight]), "big")
    length = len(next(iter(parts.values())))
    return total.to_bytes(length, "big")


def digest(string):
    return hashlib.sha256(string).digest()


Stamp = collections.namedtuple("Stamp", "time client verifier")
Version = collections.namedtuple("Version", "stamp sum fragment")


def verifier_of(sums):
    return digest(b"".join(sums))


def versions_of(time, client, fragments):
    """The version of each node, under one stamp."""
    sums = tuple(digest(fragment) for fragment in fragments)
    stamp = Stamp(time, client, verifier_of(sums))
    return [Version(stamp, sums, fragment) for fragment in fragments]


class Cluster:
    """A configuration, and what its numbers make of blocks."""

    def __init__(self, edition, *numbers):
        self.edition, self.numbers = edition, numbers
        self.n, self.t, self.b, self.qc, self.m, self.size, self.blocks = numbers
        assert self.is_valid(), numbers
        self.wait = self.n - self.t
        self.complete = self.qc + self.b
        self.repairable = self.qc - self.t
        self.length = -(-self.size // self.m)
        self.zeros = bytes(self.size)
        self.first = versions_of(0, 0, self.fragments(self.zeros))

    def is_valid(self):
        n, t, b, qc, m, size, blocks = self.numbers
        most = 4096 if self.edition == 1 else 16384
        quorum = b <= t and t + b + 1 <= qc and qc + t + b <= n and 1 <= m and m + t <= qc
        return 1 <= n <= 16 and quorum and 1 <= size <= most and 1 <= blocks <= 4096

    def head(self):
        return [f"pasis {self.edition}", "cluster " + " ".join(map(str, self.numbers))]

    def fragments(self, value):
        padded = value.ljust(self.m * self.length, b"\0")
        rows = {k: padded[k * self.length : (k + 1) * self.length] for k in range(self.m)}
        return [row_at(rows, node) for node in range(self.n)]

    def decoded(self, parts):
        return b"".join(row_at(parts, k) for k in range(self.m))[: self.size]

    def mixed(self, value, other):
        pairs = zip(self.fragments(value), self.fragments(other))
        return [pair[node % 2] for node, pair in enumerate(pairs)]


# ---- Messages and lines as text

# A tag is the client's life, the number of the operation in it, and the phase; the last two count from 1. How later lives count
# on is left open: no text is made of their messages. Bodies are tuples that begin with their word.
Message = collections.namedtuple("Message", "word client node tag block body")


def hex_of(value):
    return "x" + value.hex()


def stamp_text(stamp):
    return f"{stamp.time}.{stamp.client}.{stamp.verifier.hex()}"


def field_text(field):
    if isinstance(field, bytes):
        return hex_of(field)
    if isinstance(field, Stamp):
        return stamp_text(field)
    if isinstance(field, Version):
        return f"{stamp_text(field.stamp)} {hex_of(b''.join(field.sum))} {hex_of(field.fragment)}"
    if isinstance(field, Message):
        return message_text(field)
    return str(field)


def message_text(message):
    life, operation, phase = message.tag
    assert life == 0
    block = [message.block] if message.word == "ask" else []
    fields = [message.word, message.client, message.node, operation, phase, *block, *message.body]
    return " ".join(map(field_text, fields))


def line_text(line):
    return " ".join(map(field_text, line))


# ---- Nodes


def is_in(stamp, bound):
    if bound[0] == "all":
        return True
    return stamp <= bound[1] if bound[0] == "atmost" else stamp < bound[1]


class Node:
    """An honest node: its versions of each block, by stamp."""

    def __init__(self, cluster, number):
        self.cluster, self.number = cluster, number
        first = cluster.first[number]
        self.blocks = [{first.stamp: first} for _ in range(cluster.blocks)]

    def reply(self, block, body):
        """What the node answers to an ask; it keeps what it is told to write."""
        if block >= self.cluster.blocks:
            return ("refused", 1)
        kept = self.blocks[block]
        if body[0] == "time":
            return ("time", max(kept).time)
        if body[0] == "read":
            stamps = [stamp for stamp in kept if is_in(stamp, body[1:])]
            return ("found", kept[max(stamps)]) if stamps else ("nothing",)
        refusal = self.refusal(body[1])
        if refusal:
            return ("refused", refusal)
        kept.setdefault(body[1].stamp, body[1])
        return ("ack",)

    def refusal(self, version):
        if len(version.sum) != self.cluster.n or len(version.fragment) != self.cluster.length:
            return 2
        if version.stamp.time == 0:
            return 3
        if version.stamp.verifier != verifier_of(version.sum):
            return 4
        return 5 if digest(version.fragment) != version.sum[self.number] else 0

    def prune(self, block, stamp):
        kept = self.blocks[block]
        last = max(other for other in kept if other <= stamp)
        first = self.cluster.first[0].stamp
        self.blocks[block] = {s: v for s, v in kept.items() if s == first or s >= last}


def lie_of(cluster, node, rule, body):
    """What a lying node answers to an ask by a rule."""
    if body[0] == "time":
        return ("time", LAST_TIME if rule == "top" else 0)
    if body[0] == "write":
        return ("ack",)
    first = cluster.first[node]
    if rule == "old":
        return ("found", first)
    if rule == "bad":
        return ("found", first._replace(fragment=bytes([first.fragment[0] ^ 1]) + first.fragment[1:]))
    top = versions_of(LAST_TIME, node, cluster.fragments(b"\xff" * cluster.size))[node]
    return ("found", top) if is_in(top.stamp, body[1:]) else ("nothing",)


# ---- Clients

ANSWERS = {"time": ("time",), "read": ("found", "nothing"), "write": ("ack",)}


class Record:
    """An operation of a correct client."""

    def __init__(self, client, block, value, start):
        self.client, self.block, self.value, self.start = client, block, value, start
        self.writes = value is not None
        self.end = self.stamp = self.outcome = None
        self.rounds, self.repaired = 0, False


class Client:
    """A correct client: its operation, and the phase that it is in. `bodies` is what the phase asks of each node."""

    def __init__(self, cluster, number, met):
        self.cluster, self.number, self.met = cluster, number, met
        self.crashed = False
        self.life, self.operations, self.phase = 0, 0, 0
        self.record, self.bodies, self.answers = None, [], {}
        self.steps = []

    def start(self, block, value, place):
        self.operations += 1
        self.phase = 0
        self.record = Record(self.number, block, value, place)
        if self.record.writes:
            self.ask([("time",)] * self.cluster.n)
        else:
            self.ask_round("all")

    def ask(self, bodies):
        self.phase += 1
        self.bodies, self.answers = bodies, {}

    def ask_round(self, *bound):
        self.record.rounds += 1
        self.ask([("read", *bound)] * self.cluster.n)

    def store(self, versions):
        self.ask([("write", version) for version in versions])

    def tag(self):
        return (self.life, self.operations, self.phase)

    def outstanding(self, node):
        return Message("ask", self.number, node, self.tag(), self.record.block, self.bodies[node])

    def mail(self):
        return [self.outstanding(node) for node in range(self.cluster.n)]

    def counts(self, message):
        """Whether an answer is one that the phase waits for."""
        if self.record is None or message.tag != self.tag() or message.node in self.answers:
            return False
        return message.body[0] in ANSWERS[self.bodies[0][0]]

    def hear(self, message, place):
        """The mail that the client sends when it hears an answer."""
        if not self.counts(message):
            self.met["an answer that changes nothing"] += 1
            return []
        self.answers[message.node] = message.body
        if len(self.answers) < self.cluster.wait:
            return []
        record = self.record
        self.end_phase()
        if record.outcome:
            record.end = place
            self.record = None
            return []
        return self.mail()

    def end_phase(self):
        word = self.bodies[0][0]
        if word == "time":
            self.choose()
        elif word == "read":
            self.decide()
        else:
            self.record.outcome = "wrote" if self.record.writes else "gave"

    def choose(self):
        times = sorted((body[1] for body in self.answers.values()), reverse=True)
        time = times[self.cluster.b]
        if time == LAST_TIME:
            self.record.outcome = "spent"
            self.met["a write that is spent"] += 1
            return
        versions = versions_of(time + 1, self.number, self.cluster.fragments(self.record.value))
        self.record.stamp = versions[0].stamp
        self.store(versions)

    def is_valid(self, node, body):
        if body[0] != "found" or not is_in(body[1].stamp, self.bodies[0][1:]):
            return False
        stamp, sums, fragment = body[1]
        if len(sums) != self.cluster.n or len(fragment) != self.cluster.length:
            return False
        if verifier_of(sums) != stamp.verifier or digest(fragment) != sums[node]:
            return False
        return stamp.time >= 1 or stamp == self.cluster.first[0].stamp

    def decide(self):
        """The first rule that applies to the answers of a round."""
        valid = {node: body[1] for node, body in sorted(self.answers.items()) if self.is_valid(node, body)}
        self.met["an answer that isn't valid"] += len(self.answers) - len(valid)
        stamps = sorted((version.stamp for version in valid.values()), reverse=True)
        assert len(stamps) >= self.cluster.repairable, "rule 1"
        pivot = stamps[self.cluster.repairable - 1]
        if pivot == self.cluster.first[0].stamp:
            self.give(3, pivot, self.cluster.zeros)
            return
        support = [node for node, version in valid.items() if version.stamp == pivot]
        if len(support) < self.cluster.repairable:
            self.met["rule 4"] += 1
            self.ask_round("atmost", pivot)
            return
        value = self.cluster.decoded({node: valid[node].fragment for node in support[: self.cluster.m]})
        self.decide_decoded(pivot, value, valid[support[0]].sum, len(support))

    def decide_decoded(self, pivot, value, sums, support):
        versions = versions_of(pivot.time, pivot.client, self.cluster.fragments(value))
        if versions[0].sum != sums:
            self.met["rule 5"] += 1
            self.ask_round("below", pivot)
        elif support >= self.cluster.complete:
            self.give(6, pivot, value)
        else:
            self.met["rule 7"] += 1
            self.record.stamp, self.record.value, self.record.repaired = pivot, value, True
            self.store(versions)

    def give(self, rule, stamp, value):
        self.met[f"rule {rule}"] += 1
        self.record.stamp, self.record.value, self.record.outcome = stamp, value, "gave"


# ---- The device


def device_steps(cluster, offset, length, put):
    """The block steps of a range: ("read", block), ("whole", block, value) or ("merge", block, at, bytes)."""
    steps = []
    for block in range(offset // cluster.size, (offset + length - 1) // cluster.size + 1):
        start = block * cluster.size
        low, high = max(offset, start), min(offset + length, start + cluster.size)
        if put is None:
            steps.append(("read", block))
        elif high - low == cluster.size:
            steps.append(("whole", block, put[low - offset : high - offset]))
        else:
            steps += [("read", block), ("merge", block, low - start, put[low - offset : high - offset])]
    return steps


# ---- The world


# Who a line has: c a client and i a node that take part, b a client that comes back, C a client and I a node that lie.
ROLES = {"write": "c", "read": "c", "next": "c", "resend": "c", "hear": "c", "crash client": "c", "back client": "b"}
ROLES |= {"give": "i", "crash node": "i", "restart node": "i", "prune": "i", "call": "ci", "lost": ""}
ROLES |= {"tell": "cI", "poke": "Ci", "false": "cI", "sound": "Ci", "mix": "Ci"}


def roles_of(word, fields):
    if word == "lie":
        return "C" if fields[0].word == "ask" else "I"
    return ROLES[word]


def split_line(line):
    """The words that a line begins with, and its fields."""
    if line[0] in ("crash", "back", "restart"):
        return f"{line[0]} {line[1]}", line[2:]
    return line[0], line[1:]


def actors_of(word, fields):
    """The client and the node of a line, where it has them."""
    if isinstance(fields[0], Message):
        return fields[0].client, fields[0].node
    if word in ("give", "prune", "crash node", "restart node"):
        return None, fields[0]
    return fields[0], fields[1] if len(fields) > 1 else None


class World:
    """What the lines of a script lead to. Each line is a tuple of its words and fields; `cause` says why it can't take place,
    and `play` does it."""

    def __init__(self, cluster, lying_nodes, lying_clients, met):
        self.cluster, self.met = cluster, met
        self.lying_nodes, self.lying_clients = lying_nodes, lying_clients
        self.nodes = [Node(cluster, number) for number in range(cluster.n)]
        self.crashed_nodes = set()
        self.clients, self.queues = {}, {}
        self.pool, self.records, self.place = [], [], 0

    def client(self, number):
        if number not in self.clients:
            self.clients[number] = Client(self.cluster, number, self.met)
        return self.clients[number]

    def play(self, line):
        assert self.cause(line) is None, line
        self.place += 1
        word, fields = split_line(line)
        self.met[word] += 1
        getattr(self, "play_" + word.replace(" ", "_"))(*fields)

    # Why a line can't take place

    def cause(self, line):
        """The number of the cause for which a line is refused, with its fault; None where it takes place."""
        word, fields = split_line(line)
        if word in ("put", "get"):
            return self.device_cause(*fields)
        if word == "next" and not self.client(fields[0]).steps:
            return "18"
        faults = [*self.actor_faults(roles_of(word, fields), *actors_of(word, fields)), *self.lacks(word, fields)]
        return f"19.{min(faults)}" if faults else None

    def device_cause(self, client, offset, put):
        length = put if isinstance(put, int) else len(put)
        if offset + length > self.cluster.size * self.cluster.blocks:
            return "16.1"
        if length == 0:
            return "16.2"
        return "17" if self.client(client).steps else None

    def actor_faults(self, roles, client, node):
        """What is wrong with who takes part in a line, and with who lies in it."""
        is_liar = {"c": client in self.lying_clients, "i": node in self.lying_nodes}
        has_crashed = {"c": self.is_crashed(client), "i": node in self.crashed_nodes}
        for actor in "ci":
            if actor in roles and has_crashed[actor]:
                yield 5
            if actor.upper() in roles and not is_liar[actor]:
                yield 6
            if actor in roles and is_liar[actor]:
                yield 8
        if "b" in roles and is_liar["c"]:
            yield 8

    def is_crashed(self, client):
        return client in self.clients and self.clients[client].crashed

    def lacks(self, word, fields):
        """What else a line lacks."""
        if word in ("write", "read", "next") and self.client(fields[0]).record:
            yield 4
        if word in ("resend", "call", "false") and fields[0] not in self.lying_clients:
            if self.client(fields[0]).record is None:
                yield 7
        if word in ("give", "hear"):
            yield from self.message_faults(word, *fields)
        if word in ("lie", "tell", "poke"):
            if fields[0].node >= self.cluster.n or not 1 <= fields[0].client <= 1000:
                yield 1
        if word == "prune":
            yield from self.prune_faults(fields[1])
        if word == "back client" and not self.client(fields[0]).crashed:
            yield 12

    def message_faults(self, word, receiver, number):
        if number >= len(self.pool):
            yield 2
            return
        message = self.pool[number]
        is_to = ("ask", message.node) if word == "give" else ("answer", message.client)
        if (message.word, receiver) != is_to:
            yield 3

    def prune_faults(self, block):
        if any(c.record and c.record.block == block and not c.crashed for c in self.clients.values()):
            yield 9
        if not self.given_stamps(block):
            yield 10

    # What takes place

    def given_stamps(self, block):
        return [r.stamp for r in self.records if r.block == block and r.outcome == "gave"]

    def start(self, number, block, value):
        client = self.client(number)
        client.start(block, value, self.place)
        self.records.append(client.record)
        self.pool += client.mail()

    def handle(self, message):
        reply = self.nodes[message.node].reply(message.block, message.body)
        if reply[0] == "refused":
            self.met[f"refused {reply[1]}"] += 1
        answer = message._replace(word="answer", block=None, body=reply)
        self.pool.append(answer)
        return answer

    def let_hear(self, answer):
        self.pool += self.client(answer.client).hear(answer, self.place)

    def play_write(self, client, block, value):
        self.start(client, block, value)

    def play_read(self, client, block):
        self.start(client, block, None)

    def play_resend(self, client):
        self.pool += self.client(client).mail()

    def play_call(self, client, node):
        self.let_hear(self.handle(self.client(client).outstanding(node)))

    def play_give(self, _node, number):
        self.handle(self.pool[number])

    def play_hear(self, _client, number):
        self.let_hear(self.pool[number])

    def play_lost(self, *_):
        pass

    play_restart_node = play_lost

    def play_crash_node(self, node):
        self.crashed_nodes.add(node)

    def play_crash_client(self, client):
        self.client(client).crashed = True

    def play_back_client(self, number):
        client = self.client(number)
        client.crashed, client.record, client.steps = False, None, []
        client.life += 1
        client.operations = 0

    def play_prune(self, node, block):
        self.nodes[node].prune(block, max(self.given_stamps(block)))

    def play_lie(self, message):
        self.pool.append(message)

    def play_tell(self, message):
        self.play_lie(message)
        self.let_hear(message)

    def play_poke(self, message):
        self.play_lie(message)
        self.handle(message)

    def play_false(self, client, node, rule):
        ask = self.client(client).outstanding(node)
        body = lie_of(self.cluster, node, rule, ask.body)
        self.play_tell(ask._replace(word="answer", block=None, body=body))

    def play_sound(self, client, node, block, time, value):
        self.foist(client, node, block, time, self.cluster.fragments(value))

    def play_mix(self, client, node, block, time, value, other):
        self.foist(client, node, block, time, self.cluster.mixed(value, other))

    def foist(self, client, node, block, time, fragments):
        version = versions_of(time, client, fragments)[node]
        self.play_poke(Message("ask", client, node, (0, 0, 0), block, ("write", version)))

    def play_put(self, client, offset, put):
        self.client(client).steps = device_steps(self.cluster, offset, len(put), put)

    def play_get(self, client, offset, length):
        self.client(client).steps = device_steps(self.cluster, offset, length, None)

    def play_next(self, number):
        word, block, *rest = self.client(number).steps.pop(0)
        value = None
        if word == "whole":
            value = rest[0]
        elif word == "merge":
            at, put = rest
            old = self.latest_given(number, block)
            value = old[:at] + put + old[at + len(put) :]
        self.start(number, block, value)

    def latest_given(self, client, block):
        own = [r for r in self.records if r.client == client and r.block == block and r.outcome == "gave"]
        return max(own, key=lambda record: record.end).value


# ---- Histories

Entry = collections.namedtuple("Entry", "block stamp kind client start end value")


def entry_of(record):
    kind = "write" if record.writes else "read"
    return Entry(record.block, record.stamp, kind, record.client, record.start, record.end, record.value)


def place_in_history(entry):
    end = LAST_TIME + 1 if entry.end is None else entry.end
    return entry.block, entry.stamp, entry.kind == "read", end, entry.client, entry.start


def history_of(world):
    reads = [entry_of(r) for r in world.records if r.outcome == "gave"]
    given = {(read.block, read.stamp) for read in reads}
    writes = []
    for record in world.records:
        is_read = record.outcome is None and (record.block, record.stamp) in given
        if record.writes and (record.outcome == "wrote" or is_read):
            writes.append(entry_of(record))
    known = {(write.block, write.stamp) for write in writes}
    for read in sorted(reads, key=lambda read: read.end):
        pair = (read.block, read.stamp)
        if pair not in known and read.stamp != world.cluster.first[0].stamp:
            known.add(pair)
            writes.append(read._replace(kind="foreign", client=read.stamp.client, start=None, end=None))
    return sorted(reads + writes, key=place_in_history)


def first_flaw(entries, zeros):
    """What `check` says of a history. An entry that ended before an earlier one of its block began is out of time."""
    for second, entry in enumerate(entries):
        earlier = [(i, e) for i, e in enumerate(entries[:second]) if e.block == entry.block]
        writes = [(i, e) for i, e in earlier if e.kind != "read"]
        number, value = (writes[-1][0], writes[-1][1].value) if writes else (second, zeros)
        if entry.kind == "read" and entry.value != value:
            return f"illegal value {number + 1} {second + 1}"
        for first, other in earlier:
            if None not in (entry.end, other.start) and entry.end < other.start:
                return f"illegal time {first + 1} {second + 1}"
    return "legal"


def entry_lines(entries):
    lines = []
    for entry in entries:
        stamp = entry.stamp
        same = {e.stamp.verifier for e in entries if (e.block, e.stamp[:2]) == (entry.block, stamp[:2])}
        mark = sorted(same).index(stamp.verifier) + 1
        start, end = ("-" if place is None else place for place in (entry.start, entry.end))
        front = f"{entry.block} {stamp.time}.{stamp.client}.{mark} {entry.kind} {entry.client}"
        lines.append(f"{front} {start} {end} {hex_of(entry.value)}")
    return lines


def end_lines(world):
    """The writes that were spent, and the counts."""
    spent = [r for r in world.records if r.outcome == "spent"]
    done = [r for r in world.records if r.outcome in ("wrote", "gave")]
    reads = [r for r in done if not r.writes]
    pending = len(world.records) - len(done) - len(spent)
    counts = f"end done={len(done)} spent={len(spent)} pending={pending} "
    counts += f"repaired={sum(r.repaired for r in reads)} rounds={sum(r.rounds for r in reads)}"
    return [f"spent {r.client} {r.start} {r.end}" for r in spent] + [counts]


def seen_strings(world):
    versions = [m.body[1] for m in world.pool if isinstance(m.body[-1], Version)]
    for value in [world.cluster.zeros] + [r.value for r in world.records if r.value is not None]:
        versions += versions_of(0, 0, world.cluster.fragments(value))
    return {version.fragment for version in versions} | {b"".join(version.sum) for version in versions}


def is_safe(world, entries):
    """Whether the history has no flaw, and no two different strings that were seen share a digest."""
    strings = seen_strings(world)
    return first_flaw(entries, world.cluster.zeros) == "legal" and len(set(map(digest, strings))) == len(strings)
