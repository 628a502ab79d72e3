"""A second session, written from docs/ alone and sharing nothing with the product.

Over support clauses it works on domains (arc consistency); over any clause list it works by plain unit
propagation, going through all clauses until nothing changes. It is slow and plain on purpose.
"""

from reference import clauses, numbers


def reached(clause_list, decisions):
    """The smallest set of literals that holds the decisions and is closed under the clauses."""
    held = set(decisions)
    changed = True
    while changed:
        changed = False
        for clause in clause_list:
            for literal in set(clause):
                if literal not in held and all((other ^ 1) in held for other in clause if other != literal):
                    held.add(literal)
                    changed = True
    return held


def domains(points, tables, decisions):
    """The largest arc-consistent family under the decisions, as a set of values for each point."""
    place = numbers(points)
    left = [set(range(count)) for count, _ in points]
    for literal in decisions:
        p, v = place[literal // 2]
        left[p] &= {v} if literal % 2 == 0 else left[p] - {v}
    changed = True
    while changed:
        changed = False
        for low, high, allowed in tables:
            for p, q, pair in ((low, high, lambda i, j: (i, j)), (high, low, lambda i, j: (j, i))):
                keep = {i for i in left[p] if any(pair(i, j) in allowed for j in left[q])}
                if keep != left[p]:
                    left[p], changed = keep, True
    return left


class Session:
    """A session over a network and the clauses of one kind ('support' or 'direct')."""

    def __init__(self, points, tables, kind):
        self.points, self.tables, self.kind = points, tables, kind
        self.clauses = clauses(points, tables, kind)
        self.number = {place: n for n, place in enumerate(numbers(points))}
        self.decisions = []
        self.look()

    def look(self):
        """Marks and clash under the standing decisions."""
        if self.kind == "support":
            left = domains(self.points, self.tables, self.decisions)
            self.clash = any(not d for d in left)
            self.marks = {}
            for p, (count, _) in enumerate(self.points):
                for v in range(count):
                    self.marks[p, v] = "out" if v not in left[p] else "in" if len(left[p]) == 1 else "open"
        else:
            held = reached(self.clauses, self.decisions)
            self.clash = any((literal ^ 1) in held for literal in held)
            self.marks = {place: "in" if 2 * n in held else "out" if 2 * n + 1 in held else "open" for place, n in self.number.items()}

    def there(self, p, v=None):
        return p < len(self.points) and (v is None or v < self.points[p][0])

    def decide(self, p, v, wanted, refusal):
        if not self.there(p, v):
            return "refused 12"
        if self.clash:
            return "refused 16"
        if self.marks[p, v] == wanted:
            return "already"
        if self.marks[p, v] != "open":
            return f"refused {refusal}"
        if len(self.decisions) >= 768:
            return "refused 15"
        self.decisions.append(2 * self.number[p, v] + (wanted == "out"))
        self.look()
        return "clash" if self.clash else "taken"

    def answer(self, words):
        name, rest = words[0], [int(w) for w in words[1:]]
        if name == "choose":
            return self.decide(*rest, "in", 13)
        if name == "bar":
            return self.decide(*rest, "out", 14)
        if name == "withdraw":
            if not self.decisions:
                return "refused 17"
            self.decisions.pop()
            self.look()
            return "done"
        if name == "decisions":
            return str(len(self.decisions))
        if name == "clash":
            return "yes" if self.clash else "no"
        if name == "page":
            return self.page().rstrip("\n")
        if not self.there(*rest):
            return "refused 12"
        if self.clash:
            return "refused 16"
        if name == "mark":
            return self.marks[tuple(rest)]
        p = rest[0]
        values = [self.marks[p, v] for v in range(self.points[p][0])]
        if name == "left":
            return str(sum(m != "out" for m in values))
        return str(values.index("in")) if "in" in values else "none"

    def page(self):
        if self.clash:
            return "clash\n"
        sign = {"in": "+", "out": "-", "open": "."}
        lines = []
        for p, (count, label) in enumerate(self.points):
            lines.append(label.decode("latin-1") + " " + "".join(sign[self.marks[p, v]] for v in range(count)) + "\n")
        return "".join(lines)
