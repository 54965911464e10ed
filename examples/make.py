#!/usr/bin/env python3
"""Writes the recordings of this folder, p1 and hall, and the same for a console: NAME.program and NAME.inputs. README.md tells what they show.

A recording is numbers only (document 01, "Program bytes" and "The listing program"), so what stands here is the list of them with names.
"""
import os

HERE = os.path.dirname(os.path.abspath(__file__))

OFF, ON = 0, 1
BL, SR, PL, AL, DL, OS, FL, CN, UD, CP, OG, ZC, ST = range(13)
NOT, AND, OR, XOR, NAND, NOR = range(6)


def number(v):
    """One to three groups of seven bits, lowest first."""
    groups = [v & 127]
    while v > 127:
        v >>= 7
        groups[-1] |= 128
        groups.append(v & 127)
    return bytes(groups)


def numbers(vs):
    return b"".join(number(v) for v in vs)


def bit(i):
    return 2 + i


def out(k):
    return 34 + k


def word(k):
    return 8 + k


def pm(v):
    return 32768 + v


def node(reference):
    return 6 + reference


def scan(elapsed, bits, words=()):
    return elapsed, bits, list(words)


def scan_bytes(elapsed, bits, words):
    """A scan as scanlist reads it."""
    return numbers([elapsed, bits & 65535, bits >> 16] + [pm(w) for w in words + [0] * (8 - len(words))])


def scan_line(elapsed, bits, words):
    """A scan as a console reads it."""
    return " ".join([f"{elapsed}", f"{bits:#x}"] + [f"{w}" for w in words]) + "\n"


def write(name, data):
    with open(os.path.join(HERE, name), "wb") as f:
        f.write(data)


def write_example(name, blocks, alarms, scans):
    program = numbers([len(blocks)] + [n for b in blocks for n in b] + [len(alarms)] + alarms)
    write(name, number(len(program)) + program + b"".join(scan_bytes(*s) for s in scans))
    write(name + ".program", program)
    write(name + ".inputs", "".join(scan_line(*s) for s in scans).encode())


# P1: one counter of input bit 0, up to 2, and an alarm on it.
write_example("p1", [[CN, bit(0), OFF, 2]], [out(0)], [scan(10, 1), scan(10, 0), scan(10, 1)])

# The hall: two belts in a row, the second feeds the first.
BARRIER, ACKNOWLEDGE, START, NEW_SHIFT = 0, 1, 2, 3  # input bits; 4 to 31 are the chutes that report full
JAM, TRIPPED, FIRST, SECOND, BEACON, JAMS, LOAD, HEAVY, STOPPED = range(9)
HALL = [
    [DL, bit(BARRIER), OFF, 1, 20, 0],  # JAM: the barrier is covered for 20 times 10 ticks, 2 s
    [SR, out(JAM), bit(ACKNOWLEDGE), 1],  # TRIPPED: set by a jam, reset by the button, but not while it lasts
    [BL, AND, node(bit(START)), NOT, node(out(TRIPPED))],  # FIRST belt runs
    [DL, out(FIRST), OFF, 0, 0, 50],  # SECOND belt follows it at once, and stops half a second after it
    [FL, out(TRIPPED), 1, 5, 5],  # BEACON: half a second on, half a second off
    [CN, out(TRIPPED), bit(NEW_SHIFT), 2],  # JAMS of this shift: on from the second
    [OG, ON, pm(5), pm(2), pm(-100), 0],  # LOAD in kg, from the scale at analog A01
    [CP, out(FIRST), 1, word(LOAD), 33768 + 900],  # HEAVY: over 900 kg on a running belt
    [BL, NOR, node(out(SECOND)), NOT, node(bit(START))],  # STOPPED: the second belt stands though it was started
]
ALARMS = [out(TRIPPED), out(STOPPED), out(JAMS), out(HEAVY)] + [bit(i) for i in range(4, 32)]

RUN, COVERED, BUTTON = 1 << START, 1 << BARRIER, 1 << ACKNOWLEDGE
CHUTES = sum(1 << i for i in range(4, 32))
SCANS = (
    [scan(50, RUN, [200])] * 2  # the belts start
    + [scan(50, RUN | COVERED, [300])] * 3  # a parcel stands in the barrier,
    + [scan(25, RUN | COVERED, [300])] * 7  # for 2 s: a jam; half a second later the second belt stops too
    + [scan(50, RUN | BUTTON, [200])]  # the parcel is taken off, the button pressed
    + [scan(50, RUN, [450])] * 2  # a heavy load
    + [scan(50, RUN, [200])]
    + [scan(100, RUN | COVERED, [200])] * 4  # the second jam of the shift, and a scan later the second belt stops
    + [scan(100, RUN | CHUTES, [200])]  # a dip of the supply: every chute reports full,
    + [scan(100, RUN, [200])]  # for a second,
    + [scan(100, RUN | CHUTES, [200])]  # and again
    + [scan(100, RUN | BUTTON, [200])] * 2
)
write_example("hall", HALL, ALARMS, SCANS)
