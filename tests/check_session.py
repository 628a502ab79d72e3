"""Runs session_plan, marks and the map program on many networks and scripts, and compares them with a second session.

usage: check_session.py SESSION_PLAN MARKS MAP [SEED]
Its last line is 'N passed, M failed'.
"""

import os
import random
import subprocess
import sys
import tempfile

from check_plan import damaged, random_network
from reference import Refused, network_file, point, read
from session_reference import Session, domains, reached

HERE = os.path.dirname(os.path.abspath(__file__))
E_FILE = open(os.path.join(HERE, "..", "examples", "berm.net"), "rb").read()
LINE_FILE = open(os.path.join(HERE, "..", "examples", "line.net"), "rb").read()


class Checks:
    def __init__(self, plan, marks, map_program):
        self.plan, self.marks, self.map = plan, marks, map_program
        self.passed = self.failed = 0
        self.folder = tempfile.TemporaryDirectory()
        self.path = os.path.join(self.folder.name, "case.net")

    def expect(self, name, got, want, data=b"", lines=()):
        if got == want:
            self.passed += 1
        else:
            self.failed += 1
            print(f"FAILED {name}\n  file {data.hex()[:600]}\n  lines {lines!r:.800}\n  got  {got!r:.600}\n  want {want!r:.600}")

    def run_plan(self, data, kind, lines):
        with open(self.path, "wb") as f:
            f.write(data)
        text = "".join(line + "\n" for line in lines).encode()
        done = subprocess.run([self.plan, self.path] + ([kind] if kind else []), input=text, capture_output=True, timeout=120)
        return done.returncode, done.stdout.decode("latin-1")

    def script(self, name, data, kind, lines):
        """A script of session calls on an accepted file."""
        points, tables = read(data)
        session = Session(points, tables, kind or "support")
        want = "".join(session.answer(line.split()) + "\n" for line in lines)
        self.expect(name, self.run_plan(data, kind, lines), (0, want), data, lines)

    def run_marks(self, data):
        done = subprocess.run([self.marks], input=data, capture_output=True, timeout=60)
        return done.returncode, done.stdout

    def run_map(self, data, room):
        with open(self.path, "wb") as f:
            f.write(data)
        done = subprocess.run([self.map, self.path, str(room)], capture_output=True, timeout=60)
        return done.returncode, done.stdout


def wanted_page(data):
    """(the page, None), or (None, the refusal)."""
    try:
        points, tables = read(data)
    except Refused as r:
        return None, r
    return Session(points, tables, "support").page().encode("latin-1"), None


def page_cases(checks, name, data):
    """marks and the map program on a file, with buffers that suffice, fit, and are one byte short."""
    page, refusal = wanted_page(data)
    if refusal:
        checks.expect(f"{name}: marks", checks.run_marks(data), (0, b"refused %d at %d\n" % (refusal.number, refusal.place)), data)
        checks.expect(f"{name}: map", checks.run_map(data, 2000), (0, b"refused %d\n" % refusal.number), data)
        return
    checks.expect(f"{name}: marks", checks.run_marks(data), (0, page), data)
    for room in (2000, len(page)):
        checks.expect(f"{name}: map in {room}", checks.run_map(data, room), (0, page), data)
    checks.expect(f"{name}: map, one byte short", checks.run_map(data, len(page) - 1), (0, b"refused 21\n"), data)


def worked_cases(checks):
    """The cases that are known by hand."""
    page = b"TIP      ..-\nCABLE    ..\n"
    checks.expect("marks on the worked network", checks.run_marks(E_FILE), (0, page))
    checks.expect("map on the worked network", checks.run_map(E_FILE, 25), (0, page))
    checks.expect("a buffer of 24", checks.run_map(E_FILE, 24), (0, b"refused 21\n"))
    by_hand = [
        ("support", ["choose 0 0", "page", "choose 0 2"], "taken\nTIP      +--\nCABLE    +-\nrefused 13\n"),
        ("support", ["bar 1 0", "page"], "taken\nTIP      -+-\nCABLE    -+\n"),
        ("direct", ["page", "choose 0 2", "clash", "page", "withdraw", "page"],
         "TIP      ...\nCABLE    ..\nclash\nyes\nclash\ndone\nTIP      ...\nCABLE    ..\n"),
    ]
    for kind, lines, want in by_hand:
        checks.expect(f"worked, {kind}", checks.run_plan(E_FILE, kind, lines), (0, want), E_FILE, lines)
    bare = network_file([(1, "A"), (1, "B")], [(0, 1, [])])
    for kind in ("support", "direct"):
        lines = ["clash", "choose 0 0", "withdraw", "mark 0 0", "left 0", "value 0", "mark 2 0", "decisions"]
        want = "yes\nrefused 16\nrefused 17\nrefused 16\nrefused 16\nrefused 16\nrefused 12\n0\n"
        checks.expect(f"a table of no pair, {kind}", checks.run_plan(bare, kind, lines), (0, want), bare, lines)
    checks.expect("a kind that is none", checks.run_plan(E_FILE, "minimal", [])[0], 1)


def odd_lines(checks):
    """Lines that are no command change nothing."""
    odd = ["choose", "choose 0", "choose 0 0 0", "choose 0  0", "choose  0 0", " choose 0 0", "choose 0 0 ", "choose x 0", "choose 0 -1",
           "Choose 0 0", "withdraw 1", "withdraw ", "page 0", "clash?", "left", "left 0 0", "value", "decisions 1", "mark 0", ""]
    lines = [line for o in odd for line in (o, "decisions")]
    checks.expect("odd lines", checks.run_plan(E_FILE, "support", lines), (0, "what?\n0\n" * len(odd)), E_FILE, lines)
    huge = str(2**70)
    lines = [f"choose {huge} 0", f"choose 0 {huge}", f"bar {2**64 - 1} {2**64}", f"left {huge}", f"value {huge}", f"mark {huge} {huge}", "choose 00 000", "decisions"]
    checks.script("numbers of every size", E_FILE, "support", lines)


def random_lines(rng, points, count):
    """Calls of every kind, some of them on points and values that are missing."""
    def place():
        p = rng.randrange(len(points) + 1)
        most = points[p][0] if p < len(points) else 2
        return f"{p} {rng.randrange(most + (rng.random() < 0.1))}"

    lines = []
    for _ in range(count):
        what = rng.choices(["choose", "bar", "withdraw", "mark", "left", "value", "decisions", "clash", "page"], [6, 5, 4, 3, 2, 2, 1, 2, 2])[0]
        lines.append(f"{what} {place()}" if what in ("choose", "bar", "mark") else f"{what} {rng.randrange(len(points) + 1)}" if what in ("left", "value") else what)
    return lines


def random_cases(checks, seed, count):
    rng = random.Random(seed)
    for k in range(count):
        points, tables = random_network(rng)
        data = network_file(points, tables)
        kind = rng.choice(["support", "direct", None])
        checks.script(f"random {k}", data, kind, random_lines(rng, points, rng.choice([5, 20, 60])))
        page_cases(checks, f"random {k}", data)
        page_cases(checks, f"damaged {k}", damaged(rng, data))


def dense_cases(checks, seed, count):
    """Networks with many tables, where much is struck: arc consistency on domains beside unit propagation on clauses."""
    rng = random.Random(seed + 1)
    for k in range(count):
        points = [(rng.randint(2, 5), f"P{p}") for p in range(rng.randint(3, 7))]
        tables = []
        for _ in range(rng.randint(3, 12)):
            low, high = sorted(rng.sample(range(len(points)), 2))
            density = rng.choice([0.3, 0.5, 0.7])
            tables.append((low, high, [(i, j) for i in range(points[low][0]) for j in range(points[high][0]) if rng.random() < density]))
        data = network_file(points, tables)
        lines = random_lines(rng, points, 80)
        for kind in ("support", "direct"):
            checks.script(f"dense {k}, {kind}", data, kind, lines)
        agree(checks, rng, k, data)


def agree(checks, rng, k, data):
    """The two ways of the second session agree on which values are struck and whether there is a clash."""
    points, tables = read(data)
    session = Session(points, tables, "support")
    places = list(session.number)
    decisions = [2 * session.number[p] + rng.randrange(2) for p in rng.sample(places, rng.randint(0, 2))]
    held, left = reached(session.clauses, decisions), domains(points, tables, decisions)
    clash = any((literal ^ 1) in held for literal in held)
    checks.expect(f"clash two ways {k}", clash, any(not d for d in left), data)
    if not clash:
        struck = {place for place, n in session.number.items() if 2 * n + 1 in held}
        checks.expect(f"struck two ways {k}", struck, {(p, v) for p, v in places if v not in left[p]}, data)


def largest_cases(checks, seed):
    rng = random.Random(seed + 2)
    points = [(16, f"P{p}") for p in range(48)]
    grid = [(i, j) for i in range(16) for j in range(16)]
    tables = [(k % 47, 47, rng.sample(grid, 200)) for k in range(64)]
    data = network_file(points, tables)
    for kind in ("support", "direct"):
        checks.script(f"largest network, {kind}", data, kind, random_lines(rng, points, 12 if kind == "direct" else 60))
    page_cases(checks, "largest network", data)
    deep = network_file(points, [])
    lines = [f"bar {p} {v}" for p in range(48) for v in range(15)] + ["decisions", "choose 0 0", "page"] + ["withdraw"] * 721 + ["page"]
    checks.script("every decision that may stand", deep, "support", lines)
    page_cases(checks, "the example line", LINE_FILE)


def main():
    seed = int(sys.argv[4]) if len(sys.argv) > 4 else 1
    checks = Checks(*sys.argv[1:4])
    worked_cases(checks)
    odd_lines(checks)
    random_cases(checks, seed, 250)
    dense_cases(checks, seed, 100)
    largest_cases(checks, seed)
    print(f"{checks.passed} passed, {checks.failed} failed")
    sys.exit(1 if checks.failed else 0)


if __name__ == "__main__":
    main()
