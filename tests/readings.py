#!/usr/bin/env python3
"""Compares the two other readings of acceptance, oracle/controller.c and acceptance.py: tests/readings.py [TIMES].

All programs of up to two bytes; the oracle's of seeds; good ones cut, changed and continued; every beginning of some with
every way to go on; the stored cases; random bytes. What is drawn by chance is drawn 300,000 times, or TIMES as often. Prints how
often each refusal was answered and how many differ; exit 0 if none does. Needs cc; run from anywhere.
"""
import collections
import ctypes
import os
import random
import subprocess
import sys
import tempfile

import acceptance
import controller

ORACLE = os.path.join(os.path.dirname(os.path.abspath(__file__)), "..", "oracle")
# numbers whole, cut, not shortest and over three groups
TAILS = [bytes.fromhex(t) for t in ("", "80", "81", "FF", "8080", "FFFF", "808080", "FFFFFF", "8000", "8100", "808000", "818000",
                                    "00", "808001")]


class Answer(ctypes.Structure):
    _fields_ = [("refusal", ctypes.c_uint), ("place", ctypes.c_size_t), ("memory", ctypes.c_uint32), ("steps", ctypes.c_uint32)]


def load(folder):
    library = os.path.join(folder, "oracle.so")
    sources = [os.path.join(ORACLE, name) for name in ("controller.c", "recordings.c")]
    subprocess.run(["cc", "-std=c99", "-O2", "-fPIC", "-shared", "-o", library, *sources], check=True)
    oracle = ctypes.CDLL(library)
    oracle.oracle_accept.restype = Answer
    oracle.oracle_accept.argtypes = [ctypes.c_char_p, ctypes.c_size_t]
    oracle.oracle_program.restype = ctypes.c_size_t
    oracle.oracle_program.argtypes = [ctypes.c_uint64, ctypes.c_char_p, ctypes.c_size_t]
    return oracle


def made(oracle, seed):
    room = ctypes.create_string_buffer(65536)
    return room.raw[:oracle.oracle_program(seed, room, 65536)]


def programs(oracle, times):
    chance = random.Random(1)
    yield b""
    yield from (bytes([x]) for x in range(256))
    yield from (bytes([x, y]) for x in range(256) for y in range(256))
    for group in acceptance.GROUPS:
        yield from (data for _, data in group())
    of_seeds = [made(oracle, seed) for seed in range(1, 3001)]
    yield from of_seeds
    good = [acceptance.GOOD] + [controller.random_program(random.Random(n), 1 + n % 14) for n in range(60)]
    good += [data for data in of_seeds if len(data) < 250 and acceptance.accept(data)[0] == 0][:500]
    for data in good[:120]:
        yield from (data[:n] + tail for n in range(min(len(data), 120)) for tail in TAILS)

    def cut(data):
        return data[:chance.randrange(len(data))]

    def changed(data):
        data = bytearray(data)
        for _ in range(chance.randint(1, 3)):
            data[chance.randrange(len(data))] = chance.choice([0, 127, 128, 129, 255, chance.randrange(256)])
        return bytes(data)

    def some_bytes(least, most):
        return bytes(chance.randrange(256) for _ in range(chance.randint(least, most)))

    for _ in range(50000 * times):
        data = chance.choice(good)
        yield cut(data) + chance.choice(TAILS)
        yield changed(data)
        yield cut(changed(data)) + chance.choice(TAILS)
        yield cut(data) + some_bytes(1, 4)
        yield data + chance.choice(TAILS)
        yield some_bytes(3, 24)


def main(args):
    answers, count, differ = collections.Counter(), 0, 0
    with tempfile.TemporaryDirectory() as folder:
        oracle = load(folder)
        for data in programs(oracle, int(args[0]) if args else 1):
            one = oracle.oracle_accept(data, len(data))
            other = acceptance.accept(data)
            count += 1
            answers[other[0]] += 1
            if (one.refusal, one.place, one.memory, one.steps) != other:
                differ += 1
                print(data.hex(), one.refusal, one.place, one.memory, one.steps, other)
    print(" ".join(f"{answers[n]} refused {n}," if n else f"{answers[n]} good," for n in sorted(answers)), f"{count} programs, {differ} differ")
    return 1 if differ else 0


if __name__ == "__main__":
    sys.exit(main(sys.argv[1:]))
