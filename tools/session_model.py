#!/usr/bin/env python3
"""A second, plain reading of a whole connection to pasis_store, to hold the built program against: the handshake as handshake_model.py
reads it, and then requests to an array of bytes. It shares nothing with the proved code but docs/FORMATS.md.
    tools/session_model.py check                    the recorded connections end as they say
    tools/session_model.py fuzz COUNT [PROGRAM]     COUNT mutations of recorded connections, each played by the built program
                                                    (crates/pasis_store/out/pasis_store) and by this model, one after the other, on one
                                                    store: replies, the end, and the exit status must agree, none may take more than ten
                                                    seconds, and none more than 64 MiB of memory
    tools/session_model.py cases COUNT [PROGRAM]    the same of crates/store_sessions, which plays them over disks in memory, each on a store
                                                    of its own; --try in the place of PROGRAM plays them by `rt try`, unproved
    tools/session_model.py print NAME..             what the server sends in these recorded connections, for the file of cases
The last line is 'N passed, M failed', and it ends with 1 where something failed. SEED chooses other mutations."""
import os
import random
import resource
import struct
import subprocess
import sys
import tempfile

import handshake_model

TOP = os.path.dirname(os.path.dirname(os.path.realpath(__file__)))
CASES = f"{TOP}/crates/store_sessions/data/sessions.cases"
PROGRAM = f"{TOP}/crates/pasis_store/out/pasis_store"
READ, WRITE, LEAVE, FLUSH, TRIM, ZEROES = 0, 1, 2, 3, 4, 6
INVALID, NO_SPACE = 22, 28
MAGIC, REPLY = 0x25609513, 0x67446698
MOST = 32 << 20
MEMORY = 64 << 10
BATCH = 10_000
# what the program writes on standard error for each end
LINES = {
    "unknown flags": "the client has flags that no handshake has",
    "bad option": "an option begins with other bytes",
    "cut option": "the input ends within the handshake",
    "unknown export": "the client wants an export that isn't there",
    "too many options": "too many options",
    "bad request": "a request begins with other bytes",
    "cut request": "the input ends within a request",
}


def preferred(size):
    return max(512, 1 << (size - 1).bit_length())


def error_of(flags, kind, offset, count, size):
    known = kind in (READ, WRITE, FLUSH, TRIM, ZEROES)
    if not known or flags & ~(3 if kind == ZEROES else 1) or kind in (READ, WRITE) and count > MOST:
        return INVALID
    if kind == FLUSH or offset + count <= size:
        return 0
    return NO_SPACE if kind in (WRITE, ZEROES) else INVALID


def serve(data, array):
    """The replies to the requests in these bytes, which change the array, and how the session ends."""
    sent, at = b"", 0
    while at < len(data):
        if len(data) - at >= 4 and struct.unpack_from(">I", data, at)[0] != MAGIC:
            return sent, "bad request", at
        if len(data) - at < 28:
            return sent, "cut request", at
        _, flags, kind, handle, offset, count = struct.unpack_from(">IHH8sQI", data, at)
        if kind == LEAVE:
            return sent, "over", at
        end = at + 28 + (count if kind == WRITE else 0)
        if end > len(data):
            return sent, "cut request", at
        error = error_of(flags, kind, offset, count, len(array))
        sent += struct.pack(">II8s", REPLY, error, handle)
        if error == 0 and kind == READ:
            sent += array[offset:offset + count]
        elif error == 0 and kind == WRITE:
            array[offset:offset + count] = data[at + 28:end]
        elif error == 0 and kind in (TRIM, ZEROES):
            array[offset:offset + count] = bytes(count)
        at = end
    return sent, "over", at


def connect(data, array, size):
    """What the server sends in a connection that gives these bytes, and how it ends; `size` is that of a block."""
    server = handshake_model.Server(len(array), preferred(size), data)
    end = server.run()
    if end == "departure":
        return server.sent, "over", ""
    if end != "transmission":
        text, _, place = end.partition(" at ")
        return server.sent, {"bad magic": "bad option", "cut": "cut option"}.get(text, text), place
    sent, end, place = serve(data[server.at:], array)
    return server.sent + sent, end, "" if end == "over" else str(place)


def recorded(path):
    cases = []
    for line in open(path):
        mark, _, text = line.rstrip("\n").partition(" ")
        if mark == "#":
            cases.append({"name": text, "size": 0, "blocks": 0, "input": b"", "output": b"", "end": ""})
        elif not cases or not mark:
            continue
        elif mark == "device":
            cases[-1]["size"], cases[-1]["blocks"] = map(int, text.split())
        elif mark[0] == "<":
            cases[-1]["input"] += handshake_model.digits(mark[1:], text)
        elif mark[0] == ">":
            cases[-1]["output"] += handshake_model.digits(mark[1:], text)
        elif mark == "end":
            cases[-1]["end"] = text
    return cases


def played(case):
    sent, end, place = connect(case["input"], bytearray(case["size"] * case["blocks"]), case["size"])
    return sent, end + (f" at {place}" if place else "")


def check():
    passed = failed = 0
    for case in recorded(CASES):
        sent, end = played(case)
        good = (end, sent) == (case["end"], case["output"])
        passed, failed = passed + good, failed + (not good)
        if not good:
            print(f"{case['name']}: {end}, {sent.hex()}")
    return passed, failed


def request(rng, device):
    kind = rng.choice((READ, READ, WRITE, WRITE, LEAVE, FLUSH, TRIM, ZEROES, 5, rng.randrange(1 << 16)))
    flags = rng.choice((0, 0, 0, 1, 2, 3, 4, 1 << 15))
    offset = rng.choice((rng.randrange(device), device, device - 1, 1 << 63, (1 << 64) - 1, rng.randrange(64)))
    count = rng.choice((rng.randrange(64), rng.randrange(device), device, 0, 1, MOST, MOST + 1, (1 << 32) - 1))
    data = rng.randbytes(rng.choice((count, count, 0, 7)) if count < 1 << 16 else 40) if kind == WRITE else b""
    return struct.pack(">IHHQQI", MAGIC, flags, kind, rng.randrange(1 << 64), offset, count) + data


def mutated(rng, bases, device):
    """A few changes of a recorded connection: bits, bytes, numbers, parts that are cut out, doubled or of another one, and requests."""
    data = bytearray(rng.choice(bases))
    for _ in range(rng.choice((1, 1, 2, 3, 6))):
        at = rng.randrange(len(data) + 1)
        end = min(len(data), at + rng.choice((1, 2, 4, 8, 28, 64)))
        way = rng.randrange(9)
        if way == 0 and at < len(data):
            data[at] ^= 1 << rng.randrange(8)
        elif way == 1 and at + 4 <= len(data):
            data[at:at + 4] = struct.pack(">I", rng.choice((0, 1, 2, 3, 6, 7, 28, MAGIC, MOST, MOST + 1, 1 << 31, (1 << 32) - 1)))
        elif way == 2:
            del data[at:end]
        elif way == 3:
            data[at:at] = data[at:end]
        elif way == 4:
            other = rng.choice(bases)
            start = rng.randrange(len(other) + 1)
            data[at:end] = other[start:start + rng.randrange(96)]
        elif way == 5:
            del data[at:]
        else:
            data += request(rng, device)
    return bytes(data)


def difference(words, data, array, size):
    """What the program did otherwise than the model, if anything. The array becomes what the model leaves."""
    wanted, end, _ = connect(data, array, size)
    try:
        done = subprocess.run(words, input=data, capture_output=True, timeout=10)
    except subprocess.TimeoutExpired:
        return "it hangs"
    status, line = (0, "") if end == "over" else (3, f"pasis_store: {LINES[end]}\n")
    if done.returncode != status:
        return f"status {done.returncode}, wanted {status} ({end}): {done.stderr[-300:]}"
    if done.stdout != wanted:
        return f"{len(done.stdout)} bytes, wanted {len(wanted)}: {done.stdout[-80:].hex()}, wanted {wanted[-80:].hex()}"
    return "" if done.stderr.decode(errors="replace") == line else f"it says {done.stderr}, wanted {line!r}"


def fuzz(count, words):
    program = os.path.realpath(words[0] if words else PROGRAM)
    rng = random.Random(int(os.environ.get("SEED", "1")))
    bases = [case["input"] for case in recorded(CASES) if len(case["input"]) < 4000]
    size, blocks = 16, 24
    passed = failed = 0
    with tempfile.TemporaryDirectory(dir="/dev/shm" if os.path.isdir("/dev/shm") else None) as room:
        folders = [f"{room}/n{i}" for i in range(3)]
        subprocess.run([program, "create", *f"3 1 0 2 1 {size} {blocks}".split(), *folders], check=True)
        array = bytearray(size * blocks)
        while passed + failed < count:
            data = mutated(rng, bases, len(array))
            told = difference([program, "serve", *folders], data, array, size)
            passed, failed = passed + (not told), failed + bool(told)
            if told:
                print(f"input {data.hex()}: {told}", flush=True)
            if failed > 20:
                break
    most = resource.getrusage(resource.RUSAGE_CHILDREN).ru_maxrss
    print(f"the greatest memory of a child was {most >> 10} MiB")
    return passed, failed + (most > MEMORY)


def written(connections, size, blocks):
    lines = []
    for number, data in enumerate(connections):
        sent, end, place = connect(data, bytearray(size * blocks), size)
        lines += [f"# {number}", f"device {size} {blocks}", f"< {data.hex()}", f"> {sent.hex()}", f"end {end}" + (f" at {place}" if place else "")]
    return "\n".join(line for line in lines if line not in ("< ", "> ")) + "\n"


def cases(count, words):
    rng = random.Random(int(os.environ.get("SEED", "1")))
    bases = [case["input"] for case in recorded(CASES) if len(case["input"]) < 4000]
    crate = f"{TOP}/crates/store_sessions"
    passed = failed = 0
    while passed + failed < count:
        batch = [mutated(rng, bases, 64) for _ in range(min(BATCH, count - passed - failed))]
        good = handshake_model.agreed(crate, "sessions.cases", written(batch, 4, 16), len(batch), words)
        passed, failed = passed + good, failed + len(batch) - good
    return passed, failed


def main():
    words = sys.argv[1:]
    if words == ["check"]:
        passed, failed = check()
    elif len(words) >= 2 and words[0] == "fuzz":
        passed, failed = fuzz(int(words[1]), words[2:])
    elif len(words) >= 2 and words[0] == "cases":
        passed, failed = cases(int(words[1]), words[2:])
    elif len(words) >= 2 and words[0] == "print":
        for case in recorded(CASES):
            if case["name"] in words[1:]:
                sent, end = played(case)
                print(f"# {case['name']}", f"> {sent.hex()}", f"end {end}", sep="\n")
        return
    else:
        sys.exit(__doc__)
    print(f"{passed} passed, {failed} failed")
    sys.exit(failed > 0)


if __name__ == "__main__":
    main()
