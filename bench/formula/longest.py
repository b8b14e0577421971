#!/usr/bin/env python3
"""Prints the length of the longest text that a formula of an accepted job can have, and the sides of a job that has it.

One more clash or one more table adds clauses. In a job where every pair has a table and no table has a good pair, one more value of a variable, or one more
variable behind the last one and of its side, adds clauses too, and no boolean's number falls. So the longest text is that of a job with 32 variables of 16
values, 496 tables and no good pair; only the sides are left. (A universal variable of 9 to 15 values has 16 codes too and gives the same text.)

Every variable then has 16 ways, each denied in 16 clauses with each of the 31 others. What a variable adds depends on its side, on how many booleans come before
it and on whether the side before it is another: the place, the number of existential variables before it and the last side are enough. `longest` goes
through the places and keeps the best text for each of these, so all 2^32 rows of sides are covered.

`longest.py check PROGRAM` compares `length` with what PROGRAM (crates/to_qdimacs/out/to_qdimacs: a job in, its text out) writes, for the longest job and 200 smaller
ones."""
import random, struct, subprocess, sys

N, SIZE = 32, 16


def width(universal, size):
    """How many booleans a variable becomes."""
    return max(1, (size - 1).bit_length()) if universal else size


def ways(universal, size):
    return 2 ** width(universal, size) if universal else size


def words(base, count):
    """The length of the numbers behind `base`, each with a blank."""
    return sum(len(str(base + t + 1)) + 1 for t in range(count))


def denials(universal, size, base):
    """The length of all denials of a variable's ways: a minus for every bit that is set, and for each existential boolean."""
    w = width(universal, size)
    return ways(universal, size) * words(base, w) + w * ways(universal, size) // 2 if universal else words(base, size) + size


def length(sides, sizes):
    """The length of the text of a job with these variables, in which every pair has a table and no table has a good pair."""
    n, total, clauses, bases = len(sides), 0, 0, [0]
    for u, d in zip(sides, sizes):
        bases.append(bases[-1] + width(u, d))
    booleans = bases[n] + sides[-1]
    for k in range(n):
        if k == 0 or sides[k] != sides[k - 1]:
            total += len("e 0\n")
        total += words(bases[k], width(sides[k], sizes[k]))
        if not sides[k]:
            total += words(bases[k], sizes[k]) + len("0\n")
            clauses += 1
    for i in range(n):
        for j in range(i + 1, n):
            a, b = ways(sides[i], sizes[i]), ways(sides[j], sizes[j])
            total += b * denials(sides[i], sizes[i], bases[i]) + a * denials(sides[j], sizes[j], bases[j]) + a * b * len("0\n")
            clauses += a * b
    if sides[-1]:
        total += len("e 0\n") + words(bases[n], 1) + words(bases[n], 1) + len("0\n")
        clauses += 1
    return total + len("p cnf %d %d\n" % (booleans, clauses))


def longest():
    """The longest text with N variables of SIZE values, and its sides."""
    pairs, each = N * (N - 1) // 2, SIZE * SIZE
    # From the number of existential variables so far and the last side to the best length so far, and its sides.
    best = {(0, None): (pairs * each * len("0\n"), ())}
    for k in range(N):
        further = {}
        for (shift, last), (total, sides) in best.items():
            base = sum(width(u, SIZE) for u in sides)
            for u in (False, True):
                added = words(base, width(u, SIZE)) + (N - 1) * SIZE * denials(u, SIZE, base)
                added += 0 if u else words(base, SIZE) + len("0\n")
                added += 0 if u == last else len("e 0\n")
                state = (shift + (not u), u)
                further[state] = max(further.get(state, (0, ())), (total + added, sides + (u,)))
        best = further
    whole = []
    for (shift, last), (total, sides) in best.items():
        booleans = sum(width(u, SIZE) for u in sides)
        total += 2 * words(booleans, 1) + len("e 0\n") + len("0\n") if last else 0
        total += len("p cnf %d %d\n" % (booleans + last, pairs * each + shift + last))
        whole.append((total, sides))
    return max(whole)


def job(sides, domains):
    n = len(sides)
    out = b"QP" + struct.pack("<BH", n, n * (n - 1) // 2)
    for u, d in zip(sides, domains):
        out += (b"VA" if u else b"VE") + struct.pack("<H", d)
    for i in range(n):
        for j in range(i + 1, n):
            out += b"CT" + bytes([i, j]) + bytes(32)
    return out + b"EN"


def check(program):
    r = random.Random(1)
    jobs = [(longest()[1], [65535] * N)]
    for _ in range(200):
        n = r.randint(1, 32)
        jobs.append(([r.random() < 0.5 for _ in range(n)], [r.randrange(1, 65536) for _ in range(n)]))
    for sides, domains in jobs:
        text = subprocess.run([program], input=job(sides, domains), stdout=subprocess.PIPE, check=True).stdout
        told = length(sides, [bin(d).count("1") for d in domains])
        if len(text) != told or not text.startswith(b"p cnf "):
            sys.exit("longest: %d bytes written, %d computed" % (len(text), told))
    print("longest: %d texts are as long as computed" % len(jobs))


if __name__ == "__main__":
    if sys.argv[1:2] == ["check"]:
        check(sys.argv[2])
    else:
        most, sides = longest()
        assert most == length(sides, [SIZE] * N)
        print(most, "".join("ea"[u] for u in sides))
