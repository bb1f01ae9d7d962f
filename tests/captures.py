#!/usr/bin/env python3
"""Writes the sample captures, what `frames`, `frames_run`, `cables_run` and `noise` are run on, and beside each what the client's documents say is printed for it."""
import pathlib
import sys

sys.dont_write_bytecode = True
from model import cables, encode, frames, tally

ROOT = pathlib.Path(__file__).resolve().parent.parent
APP, DSP = 0x10, 0x40
EXAMPLE = b"\x00\xF0\x40\x10\x01\x00\x51\xF1\xF0\xF1"


def int24(*numbers):
    return b"".join((n % 2**24).to_bytes(3, "big") for n in numbers)


def text(words):
    return encode(APP, DSP, 0xE5, words.encode() + b"\0")


def flight():
    """D4: 52 numbers; thousandths but for the counts, the polynomials over number 36."""
    figures = [7, 1204, 0, 0, 2130, 67056, -1250, 14300, 201168, 6480, 31500, 199940, 0, -5210]
    spins = [2680, -410, 95, 2410, -380, 90, 23100, -21700, -640]
    rest = [0, 0, 0, 0, 0, 44704, 2100, -3400, 30900, 58200, 1900, 18300, 1250]
    scale, polynomial = 1000, [2130, 66120, -4012, 118, -2, 0, 16810, -4370, 60, 0, 0, -1460, 210, -9, 0]
    return encode(APP, DSP, 0xD4, b"\x9C" + int24(*figures, *spins, *rest, scale, *polynomial))


def early():
    """E8: 31 numbers."""
    figures = [7, 44704, 67056, 6480, 201168, 31500, -5210, 14300, -1250, 1204, 231000, 2680, -410, 9807, 2100, 1000]
    return encode(APP, DSP, 0xE8, b"\x5D" + int24(*figures, *[2130, 66120, -4012, 118, -2, 0, 16810, -4370, 60, 0, 0, -1460, 210, -9, 0]))


def club():
    """ED: a flags byte, then 55 numbers."""
    figures = [24, 4470, 3090, 210, -340, 125, 1830, 1500, 12, 190, 5820, 90, 340, 15, 22, 100]
    return encode(APP, DSP, 0xED, b"\xA6\x03" + int24(*figures, *range(-18, 18), 3072, 2048, 61))


def shot():
    status = encode(APP, DSP, 0xE9, bytes([81, 2, 1]) + int24(131072, 0xFFFFFF, 140250) + bytes(70))
    spin = encode(APP, DSP, 0xEF, bytes([137]) + bytes(k * 7 % 251 for k in range(137)))
    speed = encode(APP, DSP, 0xD9, bytes([131, 1, 40, 20]) + int24(100) + bytes([0xFF, 0xF6, 0x6F, 0xC4, 0]) + b"".join((1200 + 55 * k).to_bytes(2, "big") for k in range(60)))
    points = encode(APP, DSP, 0xEC, bytes([3, 0, 0, 2]) + bytes(k % 256 for k in range(120)))
    return b"".join([text("BALL TRIGGER"), status, early(), club(), club(), points, flight(), spin, speed, text("PROCESSED"), text("IDLE")])


def noisy():
    wire = early()
    return b"".join([
        b"\x00\xFF\xF1\x13", wire,
        wire[:40] + b"\x00" + wire[41:],                     # a byte lost its bits: the checksum tells
        b"\xF0\x40\x10\x01\xFD\x09\x51\xF1",                 # FD 09 is no escape
        b"\xF0\x40\x10\x01\xFD\x00\x51\xF1",                 # nor is FD 00: a confused sender
        b"\xF0\x40\x10\x01\x00\xFD\xF1",                     # an FD with nothing behind it: a cut cable
        encode(0x22, DSP, 0x01), encode(APP, 0x99, 0x01),    # no such DEST, no such SRC
        b"\xF0\x40\x10\xF1", b"\xF0\xFD\x01\x40\x10\x01\xF1",    # too short, raw and unstuffed
        b"\xF0" + bytes(2100) + b"\xF1",                     # longer than the hold buffer
        wire[:30], text("IDLE"), b"\xA5\x5A", text("PROCESSED"), wire[:12],
    ])


def long():
    """Longer than a piece: frames lie across its end, one as long as the hold buffer and one longer, one left open."""
    full = b"\xF0" + bytes(k % 0xF0 for k in range(2046)) + b"\xF1"
    return b"".join([EXAMPLE, full, b"\xF0\x01" + full[1:], noisy(), b"\xF1", shot(), encode(APP, DSP, 0xEC, bytes(1900)), b"\xF0" + bytes(2060)])


def small():
    """What frames_run prints of its own streams, each at once and then cut: the hold buffer 2,048 bytes long, then shorter."""
    streams = [(2048, EXAMPLE), *((hold, EXAMPLE + b"\xF0") for hold in (7, 6, 1, 0))]
    return "".join(2 * frames(stream, hold) for hold, stream in streams)


def main():
    for name, stream in [("samples/shot", shot()), ("samples/noise", noisy())]:
        (ROOT / f"{name}.bin").write_bytes(stream)
        (ROOT / f"{name}.txt").write_text(frames(stream))
    counted = long() + b"\xF1\x13" + early()[:12]    # the last one is closed after all, and another is left open
    programs = [
        ("frames", EXAMPLE, frames(EXAMPLE)),
        ("frames_run", long(), small() + frames(long())),
        ("cables_run", counted, cables(counted)),
        ("noise", counted, tally(counted)),
    ]
    for name, stream, printed in programs:
        (ROOT / f"crates/{name}/stdin").write_bytes(stream)
        (ROOT / f"crates/{name}/stdout").write_text(printed)


main()
