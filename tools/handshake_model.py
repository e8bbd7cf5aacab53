#!/usr/bin/env python3
"""A second, plain reading of the fixed newstyle handshake of NBD, as a server of one export speaks it, to hold crates/handshake_sessions
against. It shares nothing with the proved code but the protocol's page.
    tools/handshake_model.py check                      the recorded handshakes end as they say
    tools/handshake_model.py fuzz COUNT [PROGRAM]       COUNT mutations of the recorded handshakes, each played by the built program
                                                        (crates/handshake_sessions/out/handshake_sessions) and by this model
    tools/handshake_model.py fuzz COUNT --try           the same by `rt try`, in the crate's folder
The last line is 'N passed, M failed', and it ends with 1 where something failed."""
import os
import random
import struct
import subprocess
import sys
import tempfile

TOP = os.path.dirname(os.path.dirname(os.path.realpath(__file__)))
CRATE = f"{TOP}/crates/handshake_sessions"
OPTION = b"IHAVEOPT"
REPLY = struct.pack(">Q", 0x3E889045565A9)
EXPORT_NAME, ABORT, LIST, INFO, GO = 1, 2, 3, 6, 7
ACK, SERVER, INFORMATION = 1, 2, 3
UNSUPPORTED, INVALID, UNKNOWN, TOO_BIG = ((1 << 31) + n for n in (1, 3, 6, 9))
FLAGS = 1 | 1 << 2 | 1 << 3 | 1 << 5 | 1 << 6


class Ended(Exception):
    pass


class Server:
    """One handshake over an input that is all there."""

    def __init__(self, size, preferred, data):
        self.size, self.preferred, self.data, self.at, self.sent = size, preferred, data, 0, b""

    def need(self, count, start):
        if len(self.data) - self.at < count:
            self.at = len(self.data)
            raise Ended(f"cut at {start}")
        self.at += count
        return self.data[self.at - count:self.at]

    def reply(self, option, kind, data=b""):
        self.sent += REPLY + struct.pack(">III", option, kind, len(data)) + data

    def run(self):
        try:
            self.speak()
        except Ended as end:
            return str(end)

    def speak(self):
        self.sent = b"NBDMAGIC" + OPTION + struct.pack(">H", 3)
        if not self.data:
            raise Ended("departure")
        flags, = struct.unpack(">I", self.need(4, 0))
        if flags & ~3:
            raise Ended("unknown flags")
        for _ in range(256):
            self.option(flags)
        raise Ended("too many options")

    def option(self, flags):
        start = self.at
        if start == len(self.data):
            raise Ended("departure")
        if self.need(8, start) != OPTION:
            raise Ended(f"bad magic at {start}")
        option, count = struct.unpack(">II", self.need(8, start))
        data = self.need(count, start)
        if option == EXPORT_NAME:
            if data:
                raise Ended(f"unknown export at {start}")
            self.sent += struct.pack(">QH", self.size, FLAGS) + (b"" if flags & 2 else bytes(124))
            raise Ended("transmission")
        if option == ABORT:
            self.reply(option, ACK)
            raise Ended("departure")
        if option == LIST:
            if data:
                return self.reply(option, INVALID)
            self.reply(option, SERVER, struct.pack(">I", 0))
            return self.reply(option, ACK)
        if option in (INFO, GO):
            return self.about(option, data)
        self.reply(option, UNSUPPORTED)

    def about(self, option, data):
        if len(data) > 8192:
            return self.reply(option, TOO_BIG)
        if len(data) < 6:
            return self.reply(option, INVALID)
        name, = struct.unpack(">I", data[:4])
        rest = data[4 + name:]
        if len(rest) < 2 or len(rest) != 2 + 2 * struct.unpack(">H", rest[:2])[0]:
            return self.reply(option, INVALID)
        if name:
            return self.reply(option, UNKNOWN)
        self.reply(option, INFORMATION, struct.pack(">HQH", 0, self.size, FLAGS))
        self.reply(option, INFORMATION, struct.pack(">HIII", 3, 1, self.preferred, 32 << 20))
        self.reply(option, ACK)
        if option == GO:
            raise Ended("transmission")


def digits(times, text):
    return bytes.fromhex(text) * int(times or 1)


def recorded(path):
    cases = []
    for line in open(path):
        mark, _, text = line.rstrip("\n").partition(" ")
        if mark == "#":
            cases.append({"name": text, "size": 0, "preferred": 512, "input": b"", "left": b"", "output": b"", "end": ""})
        elif not cases or not mark:
            continue
        elif mark == "device":
            cases[-1]["size"], cases[-1]["preferred"] = map(int, text.split())
        elif mark[0] == "<":
            cases[-1]["input"] += digits(mark[1:], text)
        elif mark[0] == ">":
            cases[-1]["output"] += digits(mark[1:], text)
        elif mark == "left":
            cases[-1]["left"] = digits("", text)
        elif mark == "end":
            cases[-1]["end"] = text
    return cases


def check():
    passed = failed = 0
    for case in recorded(f"{CRATE}/data/handshakes.cases"):
        server = Server(case["size"], case["preferred"], case["input"] + case["left"])
        end = server.run()
        good = (end, server.sent, server.data[server.at:]) == (case["end"], case["output"], case["left"])
        passed, failed = passed + good, failed + (not good)
        if not good:
            print(f"{case['name']}: {end}, {server.sent.hex()}, left {server.data[server.at:].hex()}")
    return passed, failed


def mutated(rng, bases):
    """One or a few changes of a recorded handshake: bits, bytes, numbers of four bytes, parts cut out, doubled, or of another one."""
    case = rng.choice(bases)
    data = bytearray(case["input"] + case["left"])
    for _ in range(rng.choice((1, 1, 1, 2, 3, 6))):
        at = rng.randrange(len(data) + 1)
        end = min(len(data), at + rng.choice((1, 2, 4, 8, 16, 64)))
        way = rng.randrange(8)
        if way == 0 and at < len(data):
            data[at] ^= 1 << rng.randrange(8)
        elif way == 1 and at < len(data):
            data[at] = rng.randrange(256)
        elif way == 2 and at + 4 <= len(data):
            data[at:at + 4] = struct.pack(">I", rng.choice((0, 1, 2, 3, 5, 6, 7, 8, 10, 8192, 8193, 1 << 31, (1 << 32) - 1)))
        elif way == 3:
            del data[at:end]
        elif way == 4:
            data[at:at] = data[at:end]
        elif way == 5:
            other = rng.choice(bases)["input"]
            start = rng.randrange(len(other) + 1)
            data[at:end] = other[start:start + rng.randrange(64)]
        elif way == 6:
            data[at:at] = OPTION + struct.pack(">II", rng.randrange(12), rng.choice((0, 0, 4, 6, 8, 12)))
        else:
            del data[at:]
    return case, bytes(data)


def written(cases):
    lines = []
    for number, (case, data) in enumerate(cases):
        server = Server(case["size"], case["preferred"], data)
        end = server.run()
        lines += [f"# {number}", f"device {case['size']} {case['preferred']}", f"< {data[:server.at].hex()}", f"> {server.sent.hex()}"]
        lines += [f"left {data[server.at:].hex()}"] if server.at < len(data) else []
        lines += [f"end {end}"]
    return "\n".join(line for line in lines if line not in ("< ", "> ")) + "\n"


def agreed(crate, name, text, count, words):
    """Plays so many cases by a crate's built program, by the one that is named, or by `rt try`. Returns how many ended as they say."""
    with tempfile.TemporaryDirectory() as room:
        path = f"{room}/{name}"
        with open(path, "w") as file:
            file.write(text)
        if words == ["--try"]:
            run = ["rt", "try", "--seconds", "900", "--data", f"{name}={path}"]
            done = subprocess.run(run, cwd=crate, capture_output=True, text=True)
        else:
            program = os.path.realpath(words[0]) if words else f"{crate}/out/{os.path.basename(crate)}"
            done = subprocess.run([program], cwd=room, capture_output=True, text=True, timeout=900)
    lines = [line for line in done.stdout.splitlines() if line.split(":")[0].isdigit()]
    good = sum(line.endswith(" bytes") for line in lines) if done.returncode == 0 else 0
    if good < count:
        print(f"status {done.returncode}", *[line for line in lines if not line.endswith(" bytes")][:10], done.stderr[-500:], sep="\n")
    return good


def fuzz(count, words):
    rng = random.Random(int(os.environ.get("SEED", "1")))
    bases = [case for case in recorded(f"{CRATE}/data/handshakes.cases") if len(case["input"]) < 2000]
    passed = failed = 0
    while passed + failed < count:
        batch = [mutated(rng, bases) for _ in range(min(10_000, count - passed - failed))]
        good = agreed(CRATE, "handshakes.cases", written(batch), len(batch), words)
        passed, failed = passed + good, failed + len(batch) - good
    return passed, failed


def main():
    words = sys.argv[1:]
    if words == ["check"]:
        passed, failed = check()
    elif len(words) >= 2 and words[0] == "fuzz":
        passed, failed = fuzz(int(words[1]), words[2:])
    else:
        sys.exit(__doc__)
    print(f"{passed} passed, {failed} failed")
    sys.exit(failed > 0)


if __name__ == "__main__":
    main()
