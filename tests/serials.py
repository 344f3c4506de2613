#!/usr/bin/env python3
# Holds the library's order of serials against that of dns.serial (the package python3-dnspython), which name servers use for the serials of zones: the same
# RFC 1982, written by others. By hand; needs a C compiler. Where the package is missing, the order is told by arithmetic modulo 2^32 instead, and the
# last line says so.
#   serials.py [FOLDER] [PAIRS] [SEED]     FOLDER is one that build-archive made (target/archive); PAIRS random pairs beside the chosen ones (200000)
import os
import random
import struct
import subprocess
import sys
import tempfile

try:
    import dns.serial
except ImportError:
    dns = None

ALL, HALF = 2**32, 2**31


# 1 where a is greater, -1 where it is less, 0 where both are equal, None where they have no order
def order_by_package(a, b):
    a, b = dns.serial.Serial(a, 32), dns.serial.Serial(b, 32)
    return 0 if a == b else 1 if a > b else -1 if a < b else None


def order_by_arithmetic(a, b):
    ahead = (a - b) % ALL
    return 0 if ahead == 0 else None if ahead == HALF else 1 if ahead < HALF else -1


order = order_by_package if dns else order_by_arithmetic


# Every two of the places where something turns and their neighbours, then random ones and random ones half of all serials apart or nearly.
def pairs(count, seed):
    r = random.Random(seed)
    near = sorted({(middle + k) % ALL for middle in (0, HALF // 2, HALF, HALF + HALF // 2) for k in range(-6, 7)})
    for a in near:
        for b in near:
            yield a, b
    for k in range(count):
        b = r.randrange(ALL)
        yield (r.randrange(ALL) if k % 2 else b + HALF * (k % 4 // 2) + r.randrange(-3, 4)) % ALL, b


# What the six numbers of serials.c must be. The lag is told by the order and by which step leads from b to a.
def expected(a, b):
    way = order(a, b)
    lag = (15, 0) if way is None else (0, 0 if way == 0 else (a - b) % ALL if way > 0 else -((b - a) % ALL))
    heard = (15, b) if way is None else (0, a if way > 0 else b)
    return lag + heard + (0, a)


def answers(folder, asked):
    here = os.path.dirname(os.path.abspath(__file__))
    with tempfile.TemporaryDirectory() as work:
        program = os.path.join(work, "serials")
        subprocess.run([os.environ.get("CC", "cc"), "-std=c99", "-O1", "-I", folder, os.path.join(here, "serials.c"),
                        os.path.join(folder, "libwiregantry.a"), "-o", program], check=True)
        said = subprocess.run([program], input=b"".join(struct.pack("=II", a, b) for a, b in asked), stdout=subprocess.PIPE, check=True)
    return [tuple(int(n) for n in line.split()) for line in said.stdout.splitlines()]


def main(folder="target/archive", count="200000", seed="1982"):
    asked = list(pairs(int(count), int(seed)))
    given = answers(folder, asked)
    if len(given) != len(asked):
        sys.exit("serials: %d pairs asked, %d answers" % (len(asked), len(given)))
    for (a, b), got in zip(asked, given):
        if got != expected(a, b):
            sys.exit("serials: %d and %d: %s, not %s" % (a, b, got, expected(a, b)))
    ways = [order(a, b) for a, b in asked]
    print("serials: %d pairs, none otherwise than by %s: %d greater, %d less, %d equal, %d without an order" % (
        len(asked), "dns.serial" if dns else "arithmetic modulo 2^32 (dns.serial is not installed)",
        ways.count(1), ways.count(-1), ways.count(0), ways.count(None)))


main(*sys.argv[1:])
