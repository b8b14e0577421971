#!/usr/bin/env python3
"""Makes the stored job files, jobs/*.job, from the seeds below; the same bytes each time.

8 to 12 variables of 2 to 6 values, a fifth to three fifths of them universal; a third to all of the pairs have a table. A pair of values is compatible
with a probability by the class of its pair: both existential; an existential variable before a universal one; a universal one before an existential one; two
universal ones always are. All these numbers come from the seed.

`make_jobs.py` writes the files. `make_jobs.py search PROGRAM START END` prints what `PROGRAM count` (target/bench/formula) counts for many seeds: name,
verdict, booleans, clauses, bytes, calls, booleans tried, and the side and size of each variable. From seeds 0 to 4,999 the table was chosen before anything
of it was timed: six won and six lost, spread over 100,000 to 3,000,000 calls, on texts of at most 10,000 bytes; all have universal variables of 3, 5 or 6
values, some of whose values two codes stand for."""
import os, random, struct, subprocess, sys, tempfile

JOBS = [
    ("won0", 4460),
    ("won1", 2029),
    ("won2", 4236),
    ("won3", 2477),
    ("won4", 3456),
    ("won5", 3585),
    ("lost0", 3523),
    ("lost1", 3010),
    ("lost2", 2774),
    ("lost3", 237),
    ("lost4", 3098),
    ("lost5", 1388),
]


def job(seed):
    r = random.Random(seed)
    n, fewest, share, tied = r.randint(8, 12), r.randint(2, 5), r.randint(2, 6), r.randint(33, 100)
    both, before, after = r.randrange(300, 950), r.randrange(600, 1000), r.randrange(500, 1000)
    universal = [r.randrange(10) < share for _ in range(n)]
    domains = [sorted(r.sample(range(16), r.randint(fewest, 6))) for _ in range(n)]
    tables = []
    for i in range(n):
        for j in range(i + 1, n):
            if r.randrange(100) >= tied:
                continue
            chance = 1000 if universal[i] and universal[j] else before if universal[j] else after if universal[i] else both
            rows = [sum((r.randrange(1000) < chance) << b for b in domains[j]) if a in domains[i] else 0 for a in range(16)]
            tables.append(b"CT" + bytes([i, j]) + struct.pack("<16H", *rows))
    out = b"QP" + struct.pack("<BH", n, len(tables))
    for k in range(n):
        out += (b"VA" if universal[k] else b"VE") + struct.pack("<H", sum(1 << a for a in domains[k]))
    return out + b"".join(tables) + b"EN", "".join("ea"[u] + str(len(d)) for u, d in zip(universal, domains))


def search(program, start, end):
    with tempfile.TemporaryDirectory() as folder:
        for seed in range(start, end):
            name = os.path.join(folder, str(seed))
            content, shape = job(seed)
            with open(name, "wb") as f:
                f.write(content)
            counted = subprocess.run([program, "count", name], check=True, capture_output=True, text=True).stdout.strip()
            print(counted, shape, flush=True)
            os.remove(name)


if __name__ == "__main__":
    if sys.argv[1:2] == ["search"]:
        search(os.path.abspath(sys.argv[2]), int(sys.argv[3]), int(sys.argv[4]))
    else:
        folder = os.path.join(os.path.dirname(os.path.abspath(__file__)), "jobs")
        os.makedirs(folder, exist_ok=True)
        for name, seed in JOBS:
            with open(os.path.join(folder, name + ".job"), "wb") as f:
                f.write(job(seed)[0])
