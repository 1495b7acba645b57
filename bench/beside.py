#!/usr/bin/env python3
"""Prints, for each row of the benchmark, the least time over the rounds of this library and of the earlier
one, this divided by the earlier, and this divided by the Rust's. `bench/beside` makes the files."""
import sys

rounds = int(sys.argv[1])


def rows(name):
    """The rows of a printed table, up to an empty line: (operation, inputs) -> (ours, Rust)."""
    found = {}
    with open(name, encoding='utf-8') as file:
        for line in file.read().split('\n\n')[0].splitlines()[1:]:
            ours, rust, _ = line[51:].split()
            found[line[:51].rstrip()] = (float(ours), float(rust))
    return found


now = [rows(f'target/bench/now/{i}') for i in range(1, rounds + 1)]
was = [rows(f'target/bench/was/{i}') for i in range(1, rounds + 1)]
print(f"{'operation':<10} {'inputs':<40} {'now ns':>12} {'was ns':>12} {'now/was':>8} {'now/Rust':>8}")
worst = ('', 0.0)
for row in now[0]:
    ours = min(r[row][0] for r in now)
    if row not in was[0]:
        rust = min(r[row][1] for r in now)
        print(f"{row:<51} {ours:>12.2f} {'-':>12} {'-':>8} {ours / rust:>8.2f}")
        continue
    before = min(r[row][0] for r in was)
    rust = min(r[row][1] for r in now + was)
    ratio = ours / before
    worst = max(worst, (row, ratio), key=lambda w: w[1])
    print(f'{row:<51} {ours:>12.2f} {before:>12.2f} {ratio:>8.2f} {ours / rust:>8.2f}')
print(f'largest now/was: {worst[1]:.2f} ({" ".join(worst[0].split())})')
