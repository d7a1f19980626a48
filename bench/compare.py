"""Runs the proved and the plain program on the same files, compares what they print and times them.

usage: compare.py PROVED PLAIN FOLDER, where FOLDER has a folder of files for each group.
Ends with status 1 when they print different bytes, or when one of them ends with a status but 0.
"""

import os
import subprocess
import sys
import time
from pathlib import Path

GROUPS = ("start", "small", "long", "full", "slow")
ROUNDS = 7
RUNS = 20  # at least so many in a round


def printed(program, file):
    """The status and what is printed."""
    with open(file, "rb") as bytes_in:
        run = subprocess.run([program], stdin=bytes_in, stdout=subprocess.PIPE)
    return run.returncode, run.stdout


def agree(proved, plain, file):
    """Compares the two on a file, and tells of a difference."""
    from_proved, from_plain = printed(proved, file), printed(plain, file)
    if from_proved == from_plain and from_plain[0] == 0:
        return True
    print(f"{file.parent.name}/{file.name}: the outputs differ, or a status is not 0")
    for name, (status, output) in ("proved", from_proved), ("plain", from_plain):
        print(f"{name}, status {status}:\n{output.decode(errors='replace')}", end="")
    return False


def run_once(program, file):
    """A bare spawn and wait, since a subprocess object costs more than a small run."""
    redirected = [
        (os.POSIX_SPAWN_OPEN, 0, file, os.O_RDONLY, 0),
        (os.POSIX_SPAWN_OPEN, 1, os.devnull, os.O_WRONLY, 0),
    ]
    pid = os.posix_spawn(program, [program], os.environ, file_actions=redirected)
    os.waitpid(pid, 0)


def milliseconds(program, files):
    """The mean time of one run, over a round."""
    repeats = -(-RUNS // len(files))
    started = time.perf_counter()
    for file in files * repeats:
        run_once(program, file)
    return (time.perf_counter() - started) * 1000 / (len(files) * repeats)


def best_rounds(proved, plain, files):
    """The least of several rounds for each, taken in alternation."""
    rounds = [(milliseconds(proved, files), milliseconds(plain, files)) for _ in range(ROUNDS)]
    return map(min, zip(*rounds))


def main():
    proved, plain, folder = sys.argv[1], sys.argv[2], Path(sys.argv[3])
    groups = {name: sorted((folder / name).iterdir()) for name in GROUPS}
    if not all(agree(proved, plain, file) for files in groups.values() for file in files):
        return 1
    print("All outputs agree. Milliseconds for one file, the least of", ROUNDS, "rounds:")
    print(f"{'group':8}{'files':>8}{'proved':>10}{'plain':>10}{'ratio':>8}")
    for name, files in groups.items():
        proved_time, plain_time = best_rounds(proved, plain, files)
        ratio = proved_time / plain_time
        print(f"{name:8}{len(files):8}{proved_time:10.3f}{plain_time:10.3f}{ratio:8.2f}")
    print("The group start is an empty file: the start of a process, which also dominates small.")
    return 0


if __name__ == "__main__":
    sys.exit(main())
