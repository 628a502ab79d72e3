"""Runs the map program under valgrind on good, spoilt and truncated files, and on buffers that are one byte short.

usage: check_memory.py MAP [SEED]
Its last line is 'N passed, M failed'. valgrind fails a run on a byte read or written outside of its block, and on a leak.
"""

import os
import random
import subprocess
import sys
import tempfile

from check_plan import damaged
from check_session import E_FILE, LINE_FILE, wanted_page
from reference import network_file

VALGRIND = ["valgrind", "-q", "--error-exitcode=9", "--leak-check=full", "--errors-for-leak-kinds=all"]


def cases(rng):
    grid = [(i, j) for i in range(16) for j in range(16)]
    largest = network_file([(16, f"P{p}") for p in range(48)], [(k % 47, 47, rng.sample(grid, 128)) for k in range(64)])
    yield from [E_FILE, LINE_FILE, largest, b"", E_FILE[:-1], E_FILE[:17], LINE_FILE[: len(LINE_FILE) // 2]]
    yield network_file([(1, "A"), (1, "B")], [(0, 1, [])])
    for _ in range(12):
        yield damaged(rng, rng.choice([E_FILE, LINE_FILE]))


def main():
    rng = random.Random(int(sys.argv[2]) if len(sys.argv) > 2 else 1)
    passed = failed = 0
    with tempfile.TemporaryDirectory() as folder:
        path = os.path.join(folder, "case.net")
        for data in cases(rng):
            with open(path, "wb") as f:
                f.write(data)
            page, refusal = wanted_page(data)
            rooms = [1248, 0] if refusal else [1248, len(page), len(page) - 1, 0]
            for room in rooms:
                want = b"refused %d\n" % refusal.number if refusal else page if room >= len(page) else b"refused 21\n"
                done = subprocess.run(VALGRIND + [sys.argv[1], path, str(room)], capture_output=True, timeout=120)
                if (done.returncode, done.stdout) == (0, want):
                    passed += 1
                else:
                    failed += 1
                    print(f"FAILED in {room} bytes\n  file {data.hex()[:400]}\n  status {done.returncode}\n  got  {done.stdout!r:.300}\n  {done.stderr.decode()[:600]}")
    print(f"{passed} passed, {failed} failed")
    sys.exit(1 if failed else 0)


if __name__ == "__main__":
    main()
