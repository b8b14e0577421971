#!/usr/bin/env python3
"""Makes the stored job files, jobs/*.job, from the seeds below; the same bytes each time.

21 variables of 8 values: 0 to 6 existential, 7 to 13 universal, 14 to 20 existential. Half of all pairs (105 of 210) have a table. A pair of values is
compatible with a probability by the class of its pair: both existential; an existential variable before a universal one; a universal one before an
existential one; two universal ones always are.

`make_jobs.py` writes the files. `make_jobs.py search LIBRARY START END` prints verdict and turns of many seeds, by the Rust solver built as a cdylib:
from these the table was chosen, ten won and ten lost, spread over 1,000 to 1,000,000 turns under set 111."""
import ctypes, os, random, struct, sys

N, FIRST, LAST = 21, 7, 13

# name, seed, compatible in 1000: both existential, existential before universal, universal before existential
JOBS = [
    ("won0", 1021, 720, 990, 965),
    ("won1", 2493, 725, 985, 975),
    ("won2", 2403, 765, 995, 980),
    ("won3", 1174, 765, 995, 975),
    ("won4", 1555, 755, 995, 960),
    ("won5", 1314, 760, 990, 950),
    ("won6", 2092, 765, 995, 945),
    ("won7", 2127, 715, 985, 950),
    ("won8", 2174, 755, 985, 950),
    ("won9", 1322, 775, 990, 945),
    ("lost0", 1220, 705, 990, 940),
    ("lost1", 1064, 715, 990, 935),
    ("lost2", 1354, 755, 985, 935),
    ("lost3", 1355, 735, 995, 920),
    ("lost4", 2076, 755, 990, 925),
    ("lost5", 1498, 755, 990, 930),
    ("lost6", 2138, 735, 995, 920),
    ("lost7", 1075, 755, 985, 920),
    ("lost8", 1145, 770, 995, 955),
    ("lost9", 1042, 755, 990, 955),
]


def job(seed, both, before, after):
    r = random.Random(seed)
    universal = lambda k: FIRST <= k <= LAST
    pairs = [(i, j) for i in range(N) for j in range(i + 1, N)]
    chosen = sorted(r.sample(pairs, len(pairs) // 2))
    out = b"QP" + struct.pack("<BH", N, len(chosen)) + b"RS" + bytes([111])
    for k in range(N):
        out += (b"VA" if universal(k) else b"VE") + struct.pack("<H", 255)
    for i, j in chosen:
        chance = 1000 if universal(i) and universal(j) else before if universal(j) else after if universal(i) else both
        rows = [sum((r.randrange(1000) < chance) << b for b in range(8)) for _ in range(8)] + [0] * 8
        out += b"CT" + bytes([i, j]) + struct.pack("<16H", *rows)
    return out + b"EN"


def search(library, start, end):
    solve = ctypes.CDLL(library).rust_judge
    for seed in range(start, end):
        r = random.Random(-seed - 1)
        p = (r.randrange(700, 780, 5), r.randrange(985, 1000, 5), r.randrange(920, 985, 5))
        f = job(seed, *p)
        turns, leaf = ctypes.c_uint64(), ctypes.create_string_buffer(32)
        won = solve(f, ctypes.c_size_t(len(f)), ctypes.c_uint8(111), ctypes.c_size_t(0), ctypes.byref(turns), leaf)
        print(turns.value, "won" if won else "lost", seed, *p, flush=True)


if __name__ == "__main__":
    if sys.argv[1:2] == ["search"]:
        search(os.path.abspath(sys.argv[2]), int(sys.argv[3]), int(sys.argv[4]))
    else:
        folder = os.path.join(os.path.dirname(os.path.abspath(__file__)), "jobs")
        os.makedirs(folder, exist_ok=True)
        for name, *rest in JOBS:
            with open(os.path.join(folder, name + ".job"), "wb") as f:
                f.write(job(*rest))
