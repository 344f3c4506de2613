#!/usr/bin/env python3
# Holds the numbers of a group, one by one, against two others that know unsigned LEB128: Python's integers, which have no width, and the assembler, whose
# directive .uleb128 writes the numbers of DWARF's tables. Needs a C compiler.
#   leb128.py [FOLDER] [COUNT] [SEED]     FOLDER is one that build-archive made (target/archive); COUNT random numbers beside the chosen ones (20000)
import os
import random
import subprocess
import sys
import tempfile

ALL, M = 2**64, 2**32 - 1


def encoded(number):
    out = bytearray()
    while number > 127:
        out.append(128 + number % 128)
        number //= 128
    out.append(number)
    return bytes(out)


# None where the bytes are not one number in its shortest form
def decoded(string):
    number = sum((byte & 127) << 7 * k for k, byte in enumerate(string))
    return number if encoded(number) == string else None


# All around each width, each power of two, and random ones of each width.
def numbers(count, r):
    near = {2**bits + k for bits in range(65) for k in (-2, -1, 0, 1)} | {10**k for k in range(20)} | set(range(300))
    yield from sorted(n for n in near if 0 <= n < ALL)
    for _ in range(count):
        yield r.randrange(ALL) >> r.randrange(64)


# Right ones, past 64 bits too, and such as a loose reader would take: padded, cut, with a byte more, with a bit turned over, or any bytes.
def strings(count, r):
    for number in list(numbers(0, r)) + [ALL + k for k in range(3)] + [2**k for k in range(64, 80)] + [2**70 - 1, 2**70 + 5]:
        right = encoded(number)
        padded = right[:-1] + bytes([right[-1] | 128])
        yield from (right, padded, padded + b"\0", padded + b"\x80\0", right[:-1], right + b"\0", right + b"\1")
    for _ in range(count):
        right = bytearray(encoded(r.randrange(2 ** r.randrange(1, 80))))
        right[r.randrange(len(right))] ^= r.choice((0, 1 << r.randrange(8)))
        yield bytes(right)
        yield bytes(r.randrange(256) if r.randrange(3) else r.choice((0, 128)) for _ in range(r.randrange(14)))


# As an id, as a gap less 1 and as a length less 1: a place takes numbers below its own limit.
LIMITS = (ALL, ALL - 1, M)


def to_be_written(number):
    return tuple(encoded(number).hex() if number < limit else "-" for limit in LIMITS)


def to_be_read(string):
    number = decoded(string)
    return tuple((0, number) if number is not None and number < limit else (17, 0) for limit in LIMITS)


def assembly(some):
    lines = ["\t.data", "\t.globl assembled", "assembled:"] + ["\t.uleb128 %d" % n for n in some]
    return "\n".join(lines + ["\t.globl assembled_end", "assembled_end:", "\t.byte 0", '\t.section .note.GNU-stack,"",%progbits', ""])


def answers(folder, some, questions):
    here = os.path.dirname(os.path.abspath(__file__))
    with tempfile.TemporaryDirectory() as work:
        program, source = os.path.join(work, "leb128"), os.path.join(work, "assembled.s")
        with open(source, "w") as file:
            file.write(assembly(some))
        subprocess.run(os.environ.get("CC", "cc").split() + ["-std=c99", "-O1", "-I", folder, os.path.join(here, "leb128.c"), source,
                        os.path.join(folder, "libwiregantry.a"), "-o", program], check=True)
        said = subprocess.run([program], input="\n".join(questions) + "\n", stdout=subprocess.PIPE, universal_newlines=True, check=True)
    return said.stdout.splitlines()


def main(folder="target/archive", count="20000", seed="128"):
    r = random.Random(int(seed))
    some, them = list(numbers(int(count), r)), list(strings(int(count), r))
    given = answers(folder, some, ["= %d" % n for n in some] + ["? " + s.hex() for s in them] + ["!"])
    if len(given) != len(some) + len(them) + 1:
        sys.exit("leb128: %d questions, %d answers" % (len(some) + len(them) + 1, len(given)))
    for number, got in zip(some, given):
        if tuple(got.split()) != to_be_written(number):
            sys.exit("leb128: %d is written %s, not %s" % (number, got, to_be_written(number)))
    for string, got in zip(them, given[len(some):]):
        got = [int(n) for n in got.split()]
        if tuple(zip(got[0::2], got[1::2])) != to_be_read(string):
            sys.exit("leb128: %s is read as %s, not %s" % (string.hex(), got, to_be_read(string)))
    if given[-1] != "".join(encoded(n).hex() for n in some):
        sys.exit("leb128: the assembler writes the numbers otherwise")
    print("leb128: %d numbers are written as Python's arithmetic and the assembler write them; of %d strings of bytes %d are read, the same ones" % (
        len(some), len(them), sum(to_be_read(s)[0][0] == 0 for s in them)))


main(*sys.argv[1:])
