"""Writes the program files that the benchmark runs, one folder for each group.

usage: files.py FOLDER PLAIN, where PLAIN is the plain program, which says what is refused.
"""

import random
import struct
import subprocess
import sys
from pathlib import Path

NODE, PAUSE, TABLE, CHOICE, SEQUENCE, LOOP, FORK, ABORT, CLEAR = range(1, 10)
OUT = 255
MOST_STEPS = 512
MOST_ARCS = 512
MOST_BYTES = 32768


def record(kind, body):
    return struct.pack("<HH", 4 + len(body), kind) + body


def leaf(kind, shelf, cycles, ports):
    return record(kind, struct.pack("<BII", shelf, cycles, ports))


def table(shelf, arcs):
    """An arc is (from, to, cycles, ports)."""
    packed = b"".join(struct.pack("<BBII", *arc) for arc in arcs)
    return record(TABLE, struct.pack("<BH", shelf, len(arcs)) + packed)


def on(kind, *shelves):
    return record(kind, bytes(shelves))


# Small programs: random plans of a few levels, those that no question refuses.


def random_label(rng):
    cycles = rng.choice([0, rng.randrange(100), rng.randrange(100_000), rng.randrange(1 << 30)])
    return cycles, rng.getrandbits(32) & rng.getrandbits(32)


def random_table(rng, shelf):
    states = range(rng.randint(1, 6))
    froms = list(states) + rng.choices(states, k=rng.randrange(4))
    return table(shelf, [(at, rng.choice([*states, OUT]), *random_label(rng)) for at in froms])


def random_plan(rng, depth, shelf):
    """A plan made on a shelf, with the help of those above it."""
    kind = rng.choice([NODE, PAUSE, TABLE] if depth == 0 else range(NODE, CLEAR))
    if kind == TABLE:
        return random_table(rng, shelf)
    if kind in (NODE, PAUSE):
        return leaf(kind, shelf, *random_label(rng))
    first = random_plan(rng, depth - 1, shelf)
    if kind == LOOP:
        return first + on(LOOP, shelf)
    return first + random_plan(rng, depth - 1, shelf + 1) + on(kind, shelf, shelf + 1)


def accepted(plain, program):
    lines = subprocess.run([plain], input=program, capture_output=True, check=True).stdout
    return b"refused" not in lines


def small_programs(plain, count):
    rng = random.Random(1)
    programs = []
    while len(programs) < count:
        program = random_plan(rng, rng.randint(1, 7), 0)
        if len(program) > 13 and accepted(plain, program):
            programs.append(program)
    return programs


# Long programs. A record that is accepted costs a step, or it is a clear, and a clear needs a
# shelf that a step has filled. So one table with all the arcs, nodes for the other steps, and a
# clear after each node make the longest program that is accepted.


def widest_table(shelf):
    """A table of all the arcs. Its states go round rings of 3, 4, 5 and 17, so that its set of
    states takes 1,020 ticks to come back."""
    arcs = []
    start = 1
    for ring in (3, 4, 5, 17):
        arcs.append((0, start))
        arcs += [(start + k, start + (k + 1) % ring) for k in range(ring)]
        start += ring
    arcs += [(k % start, OUT) for k in range(MOST_ARCS - len(arcs))]
    return table(shelf, [(*arc, 7, 1) for arc in arcs])


def node_and_clear(shelf):
    return leaf(NODE, shelf, 1, 0) + on(CLEAR, shelf)


def long_program():
    return widest_table(0) + node_and_clear(1) * (MOST_STEPS - 1)


def full_program():
    """A file of the most bytes: its last record is a table with too many arcs."""
    program = widest_table(0) + node_and_clear(1) * 508
    arcs = (MOST_BYTES - len(program) - len(table(1, []))) // 10
    return program + table(1, [(0, 0, 1, 0)] * arcs)


# The slow program. A piece of period 51 that never exits is kept on shelf 0, and pieces of period
# 20 are forked to it. Such a fork has over 1,020 situations, and it leaves the kept piece as it is,
# or a constant more, so that this can be done again until steps and arcs are used up.


def ring(shelf, length, label, exits=()):
    """A table that goes round, with the label at its last state and with ways out."""
    arcs = [(k, k + 1, 0, 0) for k in range(length - 1)] + [(length - 1, 0, *label)]
    return table(shelf, arcs + [(k, OUT, 0, 0) for k in exits])


def ring_of_pauses(shelf, length, label):
    """The same without arcs, and so with more steps."""
    program = leaf(PAUSE, shelf, 0, 0)
    for k in range(1, length):
        program += leaf(PAUSE, shelf + 1, *(label if k == length - 1 else (0, 0)))
        program += on(SEQUENCE, shelf, shelf + 1)
    return program + on(LOOP, shelf)


def kept_piece():
    """3 steps and 20 arcs."""
    return ring(0, 3, (1, 1)) + ring(1, 17, (1, 2)) + on(FORK, 0, 1)


def fork_by_exits():
    """Told apart by the ticks at which it may exit; all labels are 0. 4 steps and 11 arcs."""
    rings = ring(1, 4, (0, 0), exits=[2]) + ring(2, 5, (0, 0), exits=[2])
    return rings + on(CHOICE, 1, 2) + on(FORK, 0, 1)


def fork_by_labels():
    """Told apart by its pauses, which the exit beside each of them outweighs. 22 steps, 2 arcs."""
    rings = ring_of_pauses(1, 4, (2, 4)) + ring_of_pauses(2, 5, (2, 8)) + on(FORK, 1, 2)
    may_exit = table(2, [(0, 0, 1, 0), (0, OUT, 4, 12)])
    return rings + may_exit + on(CHOICE, 1, 2) + on(FORK, 0, 1)


def slow_program():
    """Uses all steps and all arcs; the steps that are left over are loops of the kept piece."""
    by_exits, by_labels = 42, 15
    left_over = MOST_STEPS - (3 + 4 * by_exits + 22 * by_labels)
    forks = fork_by_exits() * by_exits + fork_by_labels() * by_labels
    return kept_piece() + forks + on(LOOP, 0) * left_over


def main():
    folder, plain = Path(sys.argv[1]), sys.argv[2]
    groups = {
        "start": [b""],
        "small": small_programs(plain, 300),
        "long": [long_program()],
        "full": [full_program()],
        "slow": [slow_program()],
    }
    for group, programs in groups.items():
        (folder / group).mkdir(parents=True)
        for number, program in enumerate(programs):
            (folder / group / f"{number:03}.bin").write_bytes(program)


if __name__ == "__main__":
    main()
