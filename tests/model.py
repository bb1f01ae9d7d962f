#!/usr/bin/env python3
"""What `frames` prints, written from document 01 and the later requests alone.
usage: tests/model.py [all] < CAPTURE    (with that word, each frame's payload behind its line, and the counts at the end)
       tests/model.py counts < CAPTURE   (request 6's five counts alone)
       tests/model.py cables < CAPTURE   (what request 14's two cables hear)
       tests/model.py splits < LIST      (the answers to a list's cases of the splitter, docs/CASES.md, each behind its line's number)"""
import sys

HOLD = 2048
LARGEST = 2 ** 64 - 1
COUNTS = ("taken", "dropped", "framed", "lost", "held")
ADDRESSES = (0x10, 0x12, 0x30, 0x40)
CODES = {1: 0xF0, 2: 0xF1, 3: 0xFD, 4: 0xFA}
ESCAPES = {byte: code for code, byte in CODES.items()}


def stuff(data):
    return b"".join(bytes([0xFD, ESCAPES[b]]) if b in ESCAPES else bytes([b]) for b in data)


def encode(dest, src, kind, payload=b""):
    """The wire: the checksum adds the stuffed bytes before it."""
    body = stuff(bytes([dest, src, kind]) + payload)
    return b"\xF0" + body + stuff((sum(body) % 65536).to_bytes(2, "big")) + b"\xF1"


def split(stream):
    """The frames, each from an F0 to the next F1, and the bytes that stay open."""
    frames, at = [], stream.find(0xF0)
    while at >= 0:
        end = stream.find(0xF1, at)
        if end < 0:
            return frames, stream[at:]
        frames.append(stream[at:end + 1])
        at = stream.find(0xF0, end + 1)
    return frames, b""


class Splitter:
    """Request 6: a state and its counts, a byte at a time. `held` are the open frame's bytes, none where it is skipped."""

    def __init__(self, hold, held=b"", skipping=0, counts=(0, 0, 0, 0, 0)):
        self.hold, self.held, self.skipping, self.frames = hold, held, skipping, []
        self.taken, self.dropped, self.framed, self.lost, self.still = counts

    def counts(self):
        return self.taken, self.dropped, self.framed, self.lost, self.still

    def refusal(self, chunk):
        bad = len(self.held) > self.hold or self.skipping > 1 or (self.skipping and self.held)
        if bad or self.taken != self.dropped + self.framed + self.lost + self.still or self.still != len(self.held):
            return 9
        return 13 if self.taken + len(chunk) > LARGEST else 0

    def feed(self, chunk):
        for byte in chunk:
            self.taken += 1
            if byte != 0xF0 and not self.held and not self.skipping:
                self.dropped += 1
            else:
                self.add(byte)
        self.still = len(self.held)

    def add(self, byte):
        """One byte more of a frame, which may outgrow the hold buffer with it, or end."""
        self.held += bytes([byte])
        if self.skipping or len(self.held) > self.hold:
            self.lost += len(self.held)
            self.held, self.skipping = b"", 1
        if byte == 0xF1:
            self.frames.append(None if self.skipping else self.held)
            self.framed += len(self.held)
            self.held, self.skipping = b"", 0


def tally(stream):
    """The five counts at the end of a stream, one a line."""
    splitter = Splitter(HOLD)
    splitter.feed(stream)
    return "".join(f"{name} {n}\n" for name, n in zip(COUNTS, splitter.counts()))


def heard(stream, hold):
    """Request 14: what a cable hears of a stream, however it cuts it: each frame and each Overlong, then the state and the held bytes."""
    splitter = Splitter(hold)
    splitter.feed(stream)
    shown = lambda name, given: name + "".join(f" {byte:02x}" for byte in given)
    events = ["overlong" if frame is None else shown("frame", frame) for frame in splitter.frames]
    end = " ".join(map(str, ["end", len(splitter.held), splitter.skipping, *splitter.counts()]))
    return "".join(f"{text}\n" for text in [*events, end, shown("held", splitter.held)])


def cables(stream):
    """What `cables_run` prints: two cables with 256 bytes of hold, then two with 8, and how each cuts."""
    return "".join(f"by {cut}, hold {hold}\n{heard(stream, hold)}" for hold in (256, 8) for cut in ("bytes", "pieces"))


def asked(case):
    """The answer to a splitter's case: a stream to a fresh one, or a chunk to a state, whose counts may stand before it."""
    a, b, given = int.from_bytes(case[1:9], "big"), int.from_bytes(case[9:17], "big"), case[17:]
    if case[0] == 0x22:
        splitter, chunk = Splitter(a), given
    else:
        numbers, chunk = (a, 0, 0, 0, a), given
        if case[0] == 0x25:
            numbers, chunk = [int.from_bytes(given[i:i + 8], "little") for i in range(0, 40, 8)], given[40:]
        if a > b >> 8:  # which may be far more than there are bytes for
            return "9 :"
        splitter = Splitter(b >> 8, b"\xA5" * a, b % 256, numbers)
    if refusal := splitter.refusal(chunk):
        return f"{refusal} :"
    splitter.feed(chunk)
    lengths = [-1 if frame is None else len(frame) for frame in splitter.frames]
    shown = b"".join(frame or b"" for frame in splitter.frames) + splitter.held
    return " ".join(map(str, [0, *lengths, len(splitter.held), splitter.skipping, *splitter.counts()])) + f" :{shown.hex()}"


def unstuff(inner):
    """Each byte with the offset where it starts; or the first bad escape's refusal."""
    units, i = [], 0
    while i < len(inner):
        if inner[i] != 0xFD:
            units.append((inner[i], i))
            i += 1
            continue
        if i + 1 == len(inner):
            return None, (12, i)
        code = inner[i + 1]
        if code not in CODES:
            return None, (4, code, i)
        units.append((CODES[code], i))
        i += 2
    return units, None


def opened(wire):
    """((dest, src, type, payload), None), or (None, (number, values ..)): the tests in document 01's order."""
    if len(wire) < 7:
        return None, (1, len(wire))
    if wire[0] != 0xF0:
        return None, (2, wire[0])
    if wire[-1] != 0xF1:
        return None, (3,)
    inner = wire[1:-1]
    units, refusal = unstuff(inner)
    if refusal:
        return None, refusal
    if len(units) < 5:
        return None, (1, len(wire))
    received = units[-2][0] * 256 + units[-1][0]
    computed = sum(inner[:units[-2][1]]) % 65536
    if received != computed:
        return None, (5, received, computed)
    for address in (units[0][0], units[1][0]):
        if address not in ADDRESSES:
            return None, (6, address)
    dest, src, kind, *payload = (byte for byte, _ in units[:-2])
    return (dest, src, kind, payload), None


def line(number, wire, hold, shown):
    if len(wire) > hold:
        return f"{number} - LONG"
    fields, refusal = opened(wire)
    if refusal:
        return f"{number} {len(wire)} NO " + " ".join(map(str, refusal))
    dest, src, kind, payload = fields
    copied = "\npayload" + "".join(f" {byte:02X}" for byte in payload) if shown else ""
    return f"{number} {len(wire)} OK {dest:02X} {src:02X} {kind:02X} {len(payload)}" + copied


def frames(stream, hold=HOLD, shown=False):
    """All that the program prints; each payload behind its frame's line, where it is to be shown."""
    wires, rest = split(stream)
    end = f"end {len(rest)} 0" if len(rest) <= hold else "end 0 1"
    return "".join(text + "\n" for text in [*(line(n, w, hold, shown) for n, w in enumerate(wires)), end])


def splits(lines):
    """Each case of the splitter with its number in the list, and its answer."""
    for number, text in enumerate(lines, 1):
        case = bytes.fromhex(text)
        if case[0] in (0x22, 0x23, 0x25):
            yield f"{number} {asked(case)}\n"


PRINTED = {
    (): frames,
    ("all",): lambda given: frames(given, shown=True) + tally(given),
    ("counts",): tally,
    ("cables",): cables,
    ("splits",): lambda given: "".join(splits(given.decode().split())),
}

if __name__ == "__main__":
    words = tuple(sys.argv[1:])
    if words not in PRINTED:
        sys.exit(__doc__)
    sys.stdout.write(PRINTED[words](sys.stdin.buffer.read()))
