"""A second reader and encoder, written from docs/ alone and sharing nothing with the product.

It is slow and plain on purpose: the tests compare the product with it.
"""

BODY = {1: 3, 2: 9, 3: 2, 4: 2, 5: 2}
HEAD, POINT, TABLE, PAIR, END = 1, 2, 3, 4, 5


class Refused(Exception):
    def __init__(self, number, place):
        super().__init__(f"refused {number} at {place}")
        self.number, self.place = number, place


def records(data):
    """Yields (place, kind, body) of each record up to the end record; raises 1 and 2."""
    place = 0
    while True:
        if place >= len(data):
            raise Refused(1, len(data))
        kind = data[place]
        if kind not in BODY:
            raise Refused(2, place)
        body = data[place + 1 : place + 1 + BODY[kind]]
        if len(body) < BODY[kind]:
            raise Refused(1, len(data))
        yield place, kind, body
        place += 1 + BODY[kind]
        if kind == END:
            break


def check_alone(place, kind, body):
    """The refusals 3, 4 and 5, which look at one record by itself."""
    if kind == HEAD and not (body[0] == 1 and 1 <= body[1] <= 48 and body[2] <= 64):
        raise Refused(3, place)
    if kind == POINT and not (1 <= body[0] <= 16 and all(0x20 <= b <= 0x7E for b in body[1:])):
        raise Refused(4, place)
    if kind == TABLE and not body[0] < body[1]:
        raise Refused(5, place)


def read(data):
    """The network that a file lists: (points, tables), or Refused."""
    points, tables, pairs, want = [], [], 0, None
    for place, kind, body in records(data):
        check_alone(place, kind, body)
        if want is None:
            if kind != HEAD:
                raise Refused(6, place)
            want = (body[1], body[2])
        elif len(points) < want[0]:
            if kind != POINT:
                raise Refused(6, place)
            points.append((body[0], bytes(body[1:])))
        elif kind == TABLE and len(tables) < want[1]:
            if body[1] >= len(points):
                raise Refused(7, place)
            tables.append((body[0], body[1], set()))
        elif kind == PAIR and tables:
            low, high, allowed = tables[-1]
            if body[0] >= points[low][0] or body[1] >= points[high][0]:
                raise Refused(8, place)
            if (body[0], body[1]) in allowed:
                raise Refused(9, place)
            allowed.add((body[0], body[1]))
            pairs += 1
        elif kind == END and len(tables) == want[1]:
            if int.from_bytes(body, "big") != pairs:
                raise Refused(10, place)
            if place + 3 < len(data):
                raise Refused(11, place + 3)
        else:
            raise Refused(6, place)
    return points, tables


def numbers(points):
    """The (point, value) of each value number, in order."""
    return [(p, v) for p, (count, _) in enumerate(points) for v in range(count)]


def halves(points, table):
    """The support clauses of a table for its lower and for its higher point."""
    number = {place: n for n, place in enumerate(numbers(points))}
    low, high, allowed = table
    lows, highs = range(points[low][0]), range(points[high][0])
    lower = [[2 * number[low, i] + 1] + [2 * number[high, j] for j in highs if (i, j) in allowed] for i in lows]
    higher = [[2 * number[high, j] + 1] + [2 * number[low, i] for i in lows if (i, j) in allowed] for j in highs]
    return lower, higher


def score(half):
    return sum({1: 16, 2: 4, 3: 1}.get(len(c), 0) for c in half)


def clauses(points, tables, kind):
    """The clauses of the network in the encoding 'direct', 'support' or 'minimal'."""
    number = {place: n for n, place in enumerate(numbers(points))}
    out = [[2 * number[p, v] for v in range(count)] for p, (count, _) in enumerate(points)]
    for p, (count, _) in enumerate(points):
        out += [[2 * number[p, i] + 1, 2 * number[p, j] + 1] for i in range(count) for j in range(i + 1, count)]
    for low, high, allowed in tables:
        lows, highs = range(points[low][0]), range(points[high][0])
        direct = [[2 * number[low, i] + 1, 2 * number[high, j] + 1] for i in lows for j in highs if (i, j) not in allowed]
        lower, higher = halves(points, (low, high, allowed))
        better = higher if score(higher) > score(lower) else lower
        out += {"direct": direct, "support": lower + higher, "minimal": better}[kind]
    return out


def point(count, label):
    return bytes([POINT, count]) + label.encode().ljust(8)


def table(low, high, pairs):
    return bytes([TABLE, low, high]) + b"".join(bytes([PAIR, i, j]) for i, j in pairs)


def end(count):
    return bytes([END]) + count.to_bytes(2, "big")


def network_file(points, tables):
    """The written form of a listing: points are (count, label), tables (low, high, pairs)."""
    return (
        bytes([HEAD, 1, len(points), len(tables)])
        + b"".join(point(c, l) for c, l in points)
        + b"".join(table(*t) for t in tables)
        + end(sum(len(t[2]) for t in tables))
    )
