"""Runs the program plan on many files and compares what it prints with the second reader and encoder.

usage: check_plan.py PROGRAM [SEED [halves]]     with `halves`, for session_plan, the program answers `half T` too
Its last line is 'N passed, M failed'.
"""

import os
import random
import subprocess
import sys
import tempfile
import time

from reference import Refused, clauses, end, halves, network_file, numbers, point, read, score

HERE = os.path.dirname(os.path.abspath(__file__))
EXAMPLES = os.path.join(HERE, "..", "examples")
E_FILE = open(os.path.join(EXAMPLES, "berm.net"), "rb").read()


class Checks:
    def __init__(self, program, halves):
        self.program, self.halves, self.passed, self.failed = program, halves, 0, 0
        self.met = {}
        self.folder = tempfile.TemporaryDirectory()
        self.path = os.path.join(self.folder.name, "case.net")

    def run(self, data, lines=()):
        with open(self.path, "wb") as f:
            f.write(data)
        text = b"".join(line + b"\n" for line in lines)
        done = subprocess.run([self.program, self.path], input=text, capture_output=True, timeout=60)
        return done.returncode, done.stdout

    def expect(self, name, got, want, data=b""):
        if got == want:
            self.passed += 1
        else:
            self.failed += 1
            print(f"FAILED {name}\n  file {data.hex()[:400]}\n  got  {got!r:.400}\n  want {want!r:.400}")

    def file(self, name, data, lines=()):
        """What plan prints for a file and lines of input, compared with the second reader."""
        self.expect(name, self.run(data, lines), (0, wanted(data, lines, self.met, self.halves)), data)


def wanted(data, lines, met, half_too):
    try:
        points, tables = read(data)
    except Refused as r:
        met[r.number] = met.get(r.number, 0) + 1
        return f"refused {r.number} at {r.place}\n".encode()
    return b"".join(answer(points, tables, line, half_too) for line in lines)


def answer(points, tables, line, half_too):
    words = line.split(b" ")
    if len(words) == 2 and words[0] == b"number" and words[1] and all(48 <= b <= 57 for b in words[1]):
        places, n = numbers(points), int(words[1])
        return b"%d %d\n" % places[n] if n < len(places) else b"none\n"
    if len(words) == 2 and words[0] == b"clauses" and words[1] in (b"direct", b"support", b"minimal"):
        found = clauses(points, tables, words[1].decode())
        return b"%d\n" % len(found) + b"".join(b" ".join(b"%d" % l for l in c) + b"\n" for c in found)
    if half_too and len(words) == 2 and words[0] == b"half" and words[1] and all(48 <= b <= 57 for b in words[1]):
        if int(words[1]) >= len(tables):
            return b"refused 12\n"
        lower, higher = (score(half) for half in halves(points, tables[int(words[1])]))
        return b"%s %d %d\n" % (b"higher" if higher > lower else b"lower", lower, higher)
    return b"what?\n"


def listed_cases(checks):
    """The worked example, and the spoilt files whose refusals are known by hand."""
    support = b"11\n0 2 4\n6 8\n1 3\n1 5\n3 5\n7 9\n1 6\n3 8\n5\n7 0\n9 2\n"
    direct = b"10\n0 2 4\n6 8\n1 3\n1 5\n3 5\n7 9\n1 9\n3 7\n5 7\n5 9\n"
    minimal = b"9\n0 2 4\n6 8\n1 3\n1 5\n3 5\n7 9\n1 6\n3 8\n5\n"
    asked = [(b"clauses support", support), (b"clauses direct", direct), (b"clauses minimal", minimal)]
    if checks.halves:
        asked += [(b"half 0", b"lower 24 8\n"), (b"half 1", b"refused 12\n")]
    for line, text in asked:
        checks.expect(line.decode(), checks.run(E_FILE, [line]), (0, text))
    e = E_FILE
    spoilt = [
        ("second point left out", e[:14] + e[24:], 6, 14),
        ("table of a missing point", e[:24] + bytes([3, 0, 2]) + e[27:], 7, 24),
        ("pair twice", e[:30] + bytes([4, 0, 0]) + e[33:], 9, 30),
        ("a byte behind", e + b"\0", 11, 36),
        ("unknown kind last", e[:-3] + b"\x09", 2, 33),
        ("17 values", e[:4] + point(17, "TIP") + e[14:], 4, 4),
        ("49 points", bytes([1, 1, 49, 0]), 3, 0),
        ("65 tables", bytes([1, 1, 1, 65]), 3, 0),
        ("47 of 48 points", bytes([1, 1, 48, 1]) + point(1, "P") * 47 + bytes([3, 0, 1]), 6, 474),
    ]
    for name, data, number, place in spoilt:
        checks.expect(name, checks.run(data), (0, b"refused %d at %d\n" % (number, place)), data)
    for length in range(len(e)):
        checks.expect(f"cut at {length}", checks.run(e[:length]), (0, b"refused 1 at %d\n" % length), e[:length])


def limit_cases(checks):
    """Files at the bounds: 16 values, 48 points, 64 tables pass, one more does not."""
    full = [(16, f"P{p}") for p in range(48)]
    grid = [(i, j) for i in range(16) for j in range(16)]
    largest = network_file(full, [(k % 47, 47, grid) for k in range(64)])
    checks.expect("largest file", len(largest), 49831)
    checks.file("largest file", largest, [b"number 767", b"number 768", b"clauses direct", b"clauses support"])
    checks.file("65 tables", network_file(full, [(0, 1, [])] * 65))
    checks.file("49 points", network_file(full + [(1, "Q")], []))
    checks.file("17 values", network_file([(17, "P")], []))
    checks.file("one point", network_file([(1, "")], []), [b"number 0", b"number 1", b"clauses minimal"])
    checks.file("empty file", b"")
    times = []
    for _ in range(5):
        begun = time.monotonic()
        checks.run(largest)
        times.append(time.monotonic() - begun)
    checks.expect("largest file read in under 100 ms, the start of the program with it", min(times) < 0.1, True)
    print(f"largest file: {min(times) * 1000:.1f} ms with the start of the program")


def example_cases(checks):
    for name in ("berm", "line"):
        data = open(os.path.join(EXAMPLES, f"{name}.net"), "rb").read()
        lines = [b"number %d" % n for n in range(130)] + [b"clauses direct", b"clauses support", b"clauses minimal"]
        checks.file(name, data, lines)


def odd_lines(checks):
    """Lines that are no command, and numbers of every size."""
    lines = [b"", b"number", b"number ", b"number x", b"number 1 ", b" number 1", b"number -1", b"number +1", b"Number 1"]
    lines += [b"number 007", b"number " + b"9" * 40, b"number 18446744073709551615", b"number 18446744073709551616"]
    lines += [b"clauses", b"clauses ", b"clauses Direct", b"clauses direct ", b"clauses minimal support", b"\xff\xfe", b"number 1\r"]
    lines += [b"half", b"half ", b"half 00", b"half 1", b"half " + b"9" * 40, b"half x", b"half 0 0"]
    checks.file("odd lines", E_FILE, lines)


def random_network(rng):
    points = [(rng.choice([1, 2, 3, 16, rng.randint(1, 16)]), f"P{p}") for p in range(rng.choice([1, 2, 3, 5, 9]))]
    tables = []
    for _ in range(rng.randint(0, 5) if len(points) > 1 else 0):
        low, high = sorted(rng.sample(range(len(points)), 2))
        density = rng.random()
        pairs = [(i, j) for i in range(points[low][0]) for j in range(points[high][0]) if rng.random() < density]
        rng.shuffle(pairs)
        tables.append((low, high, pairs))
    return points, tables


def damaged(rng, data):
    """A file with one or two things wrong with it, or nothing."""
    data = bytearray(data)
    for _ in range(rng.randint(1, 2)):
        at = rng.randrange(len(data)) if data else 0
        what = rng.randrange(6)
        if what == 0 and data:
            data[at] = rng.choice([0, 1, 2, 3, 4, 5, 6, 16, 17, 48, 49, 64, 65, 126, 127, rng.randrange(256)])
        elif what == 1:
            del data[at:]
        elif what == 2:
            data[at:at] = rng.choice([b"\0", bytes([4, 0, 0]), bytes([3, 0, 1]), end(0), point(2, "NEW"), bytes([1, 1, 1, 0])])
        elif what == 3 and data:
            del data[at : at + rng.choice([1, 2, 3, 10])]
        elif what == 4:
            data += rng.choice([b"\0", end(1), b"\5"])
        elif what == 5 and len(data) > 3:
            step = rng.choice([3, 3, 10])
            data[at : at + step], data[at + step : at + 2 * step] = data[at + step : at + 2 * step], data[at : at + step]
    return bytes(data)


def random_cases(checks, seed, count):
    rng = random.Random(seed)
    for k in range(count):
        points, tables = random_network(rng)
        data = network_file(points, tables)
        lines = [b"number %d" % rng.randrange(200), b"clauses " + rng.choice([b"direct", b"support", b"minimal"])]
        if checks.halves:
            lines += [b"half %d" % t for t in range(len(tables) + 1)]
        checks.file(f"random {k}", data, lines)
        checks.file(f"damaged {k}", damaged(rng, data), lines)


def main():
    seed = int(sys.argv[2]) if len(sys.argv) > 2 else 1
    checks = Checks(sys.argv[1], len(sys.argv) > 3 and sys.argv[3] == "halves")
    listed_cases(checks)
    limit_cases(checks)
    example_cases(checks)
    odd_lines(checks)
    random_cases(checks, seed, 1500)
    print("refusals met: " + ", ".join(f"{n} {checks.met.get(n, 0)} times" for n in range(1, 12)))
    checks.expect("every refusal was met", [n for n in range(1, 12) if not checks.met.get(n)], [])
    print(f"{checks.passed} passed, {checks.failed} failed")
    sys.exit(1 if checks.failed else 0)


if __name__ == "__main__":
    main()
