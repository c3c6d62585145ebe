"""Strips by a second and independent reading of docs/STRIPS.md."""


class Fault(Exception):
    """A refusal: its number and the place or position that it names."""


def read(bs):
    """The numbers of positions and goals and the rows of a strip."""
    at = 0

    def field(width):
        nonlocal at
        if at + width > len(bs):
            raise Fault(13, at)
        value = int.from_bytes(bs[at:at + width], "big")
        at += width
        return value

    def want(width, ok):
        start = at
        value = field(width)
        if not ok(value):
            raise Fault(13, start)
        return value

    want(2, lambda v: v == 0x4748)
    n = want(2, lambda v: 1 <= v <= 512)
    k = want(2, lambda v: 1 <= v <= 8)
    rows = []
    for _ in range(n):
        want(2, lambda v: v == 0x4750)
        owner = want(1, lambda v: v <= 1)
        marks = want(1, lambda v: v >> k == 0)
        count = want(2, lambda v: v <= 16)
        moves = []
        for j in range(16):
            if j < count:
                last = moves[-1] if moves else -1
                moves.append(want(2, lambda v: last < v < n))
            else:
                want(2, lambda v: v == 0)
        rows.append((owner, [g for g in range(8) if marks >> g & 1], moves))
    want(2, lambda v: v == 0x4745)
    want(2, lambda v: v == n)
    if at < len(bs):
        raise Fault(13, at)
    for p, row in enumerate(rows):
        if not row[2]:
            raise Fault(11, p)
    return n, k, rows
