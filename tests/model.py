"""A reference model of the scaler in plain Python, to compare the library with: docs/SCOPE.md, section by section, for jobs of pictures and planes and for whole
pictures. Where the library counts on from row to row, this has the closed formulas.

A record is a list of fourteen numbers, in the order of the names below. A call changes the record and the work values that it is lent, both lists. It answers its number,
0 if it is accepted, and what it hands out.
"""
from collections import Counter
from functools import lru_cache

W, H, LAYOUT, X, Y, CW, CH, TW, TH, K, T, FLAG, KIND, LANES = range(14)
PICTURE, PLANE = 0, 1
LARGEST_SIDE = 16384
WORD = 1 << 32


# ---- Fixed point and matting


def mult(a, b):
    return (a * b + (1 << 31)) // WORD


def frac(a, d):
    return a * WORD // d % WORD


def ceil(a, b):
    return -(-a // b)


@lru_cache(None)
def matte(blue, green, red, alpha):
    if alpha in (0, 255):
        return (blue, green, red, alpha) if alpha else (0, 0, 0, 0)
    return *((c * 65793 * alpha + (1 << 23)) >> 24 for c in (blue, green, red)), alpha


@lru_cache(None)
def restore(blue, green, red, alpha):
    """Each colour in its own lane, at most 255."""
    if alpha in (0, 255):
        return (blue, green, red, alpha) if alpha else (0, 0, 0, 0)
    k = 255 * (1 << 24) // alpha
    return *(min(255, (c * k + (1 << 23)) >> 24) for c in (blue, green, red)), alpha


# ---- Lanes

#: For each layout, Rgba8, Argb8 and Bgra8, the lane at each byte of a pixel: 0 blue, 1 green, 2 red, 3 alpha.
LANE_AT = ((2, 1, 0, 3), (3, 2, 1, 0), (0, 1, 2, 3))


def each_pixel(lanes, change):
    return bytes(byte for at in range(0, len(lanes), 4) for byte in change(*lanes[at:at + 4]))


def unpacked(layout, row):
    lanes = bytearray(len(row))
    for place, lane in enumerate(LANE_AT[layout]):
        lanes[lane::4] = row[place::4]
    return bytes(lanes)


def packed(layout, lanes):
    out = bytearray(len(lanes))
    for place, lane in enumerate(LANE_AT[layout]):
        out[place::4] = lanes[lane::4]
    return bytes(out)


def has_alpha(layout, data):
    alphas = data[LANE_AT[layout].index(3)::4]
    return alphas.count(255) != len(alphas)


# ---- A row comes in


def span_of(n, m):
    return n if m <= n else m - 1


@lru_cache(4096)
def lane_in(lane, m):
    """The m values that one lane of a cropped row brings."""
    n, values, carry = len(lane), [], 0
    if m > n:
        for j in range(m):
            # Of the sum over all pixels only these two have a weight; beyond the last one it is 0.
            i, beyond = divmod(j * (n - 1), m - 1)
            values.append(lane[i] * (m - 1 - beyond) + (lane[i + 1] * beyond if beyond else 0))
        return values
    for j in range(m):
        first, end = ceil(j * n, m), ceil((j + 1) * n, m)
        over = lane[end - 1] * (end * m - (j + 1) * n)
        values.append(((carry + sum(lane[first:end])) * m - over) % WORD)
        carry = mult(over, frac(1, m))
    return values


@lru_cache(64)
def row_in(kind, layout, count, row, m):
    """The values of all lanes of a cropped row, side by side. A picture's row is matted, a plane's is taken as it is."""
    lanes = row if kind == PLANE else each_pixel(unpacked(layout, row), matte)
    values = [0] * (count * m)
    for lane in range(count):
        values[lane::count] = lane_in(lanes[lane::count], m)
    return values


# ---- A row goes out


def row_out(record, work):
    """The lanes of the next output row; the work values become what it leaves."""
    n, m, h, g, taken = record[CW], record[TW], record[CH], record[TH], record[T]
    half, span, u = record[LANES] * m, span_of(n, m), used(record, record[K])
    first, second = work[:half], work[half:2 * half]
    if g <= h:
        d = u * g - (taken + 1) * h
        q = g * WORD // (span * h)
        if q == WORD:
            work[:half] = [0] * half
            return bytes(a % 256 for a in first)
        y = frac(1, g) * d % WORD
        left = [b * y // WORD for b in second]
        work[:half] = left
        return bytes(min(255, mult((a - f) % WORD, q)) for a, f in zip(first, left))
    d = (u - 1) * (g - 1) - taken * (h - 1)
    b = frac(d, g - 1)
    newer, older = (second, first) if (u - 1) % 2 == 0 else (first, second)
    mixed = newer if d == 0 else [((WORD - b) * new + b * old + (1 << 31)) // WORD for new, old in zip(newer, older)]
    # Where span is 1 the factor counts as exactly one.
    return bytes(min(255, j if span == 1 else mult(j, frac(1, span))) for j in mixed)


# ---- The job


def used(record, k):
    return min(max(k - record[Y], 0), record[CH])


def made(record, k):
    """R(k)."""
    u, h, g = used(record, k), record[CH], record[TH]
    if g <= h:
        return u * g // h
    if u == 0:
        return 0
    return g if h == 1 else 1 + (u - 1) * (g - 1) // (h - 1)


def ready(record):
    return made(record, record[K]) - record[T]


def row_bytes(record, pixels):
    return record[LANES] * pixels


def need(record):
    return 2 * row_bytes(record, record[TW])


def sizes_number(record):
    sides = (record[W], record[H], record[TW], record[TH])
    if any(not 1 <= side <= LARGEST_SIDE for side in sides) or 0 in (record[CW], record[CH]):
        return 1
    return 2 if record[X] + record[CW] > record[W] or record[Y] + record[CH] > record[H] else 0


def lawful(record):
    k, t, flag, lanes = record[K], record[T], record[FLAG], record[LANES]
    if record[KIND] == PICTURE:
        form = lanes == 4 and record[LAYOUT] <= 2 and flag <= 1
    else:
        form = record[KIND] == PLANE and 1 <= lanes <= 4 and record[LAYOUT] == 0 and flag == 0
    if not form or sizes_number(record) or k > record[H]:
        return False
    low, high = (made(record, k - 1), made(record, k)) if k else (0, 0)
    return low <= t <= high and not (flag and t == 0)


def first_of(*causes):
    """The number of the first cause that applies."""
    return next((number for number, applies in causes if applies), 0)


def start(record, work, lent):
    """Of a fresh record with its sizes."""
    number = sizes_number(record)
    bad_lanes = not 1 <= record[LANES] <= 4
    number = first_of((1, number == 1), (10, bad_lanes), (2, number == 2), (5, lent < need(record)))
    if number == 0:
        work[:need(record)] = [0] * need(record)
    return number


def offer(record, data, work, lent):
    """The number and how many rows were accepted."""
    if not lawful(record):
        return 6, 0
    stride = row_bytes(record, record[W])
    number = first_of(
        (3, len(data) == 0 or len(data) % stride != 0), (5, lent < need(record)), (7, ready(record) > 0), (8, record[K] == record[H]))
    if number:
        return number, 0
    # Up to the first row that makes one ready, at most all that are lent or left.
    most = min(len(data) // stride, record[H] - record[K])
    count = next((c for c in range(1, most) if made(record, record[K] + c) > record[T]), most)
    left, right = row_bytes(record, record[X]), row_bytes(record, record[X] + record[CW])
    rows = {}
    for c in range(count):
        crop_row = record[K] + c - record[Y]
        if 0 <= crop_row < record[CH]:
            rows[crop_row] = bytes(data[c * stride + left:c * stride + right])
    put(record, work, rows)
    record[K] += count
    return 0, count


def put(record, work, rows):
    """Crop rows, by number, enter the work rows. Sums do not depend on the order, so equal rows are added at once."""
    half = row_bytes(record, record[TW])

    def values(row):
        return row_in(record[KIND], record[LAYOUT], record[LANES], row, record[TW])

    if record[TH] <= record[CH]:
        for row, times in Counter(rows.values()).items():
            work[:half] = [(a + times * v) % WORD for a, v in zip(work, values(row))]
        if rows:
            work[half:2 * half] = values(rows[max(rows)])
        return
    for crop_row, row in rows.items():
        at = half if crop_row % 2 == 0 else 0
        work[at:at + half] = values(row)


def take(record, out, work, lent, restored=restore):
    """The number and the output after the call. `restored` is the rule for a pixel's lanes."""
    if not lawful(record):
        return 6, out
    length = row_bytes(record, record[TW])
    number = first_of((4, len(out) != length), (5, lent < need(record)), (9, ready(record) == 0))
    if number:
        return number, out
    row = row_out(record, work)
    record[T] += 1
    if record[KIND] == PICTURE:
        row = packed(record[LAYOUT], each_pixel(row, restored))
        record[FLAG] |= has_alpha(record[LAYOUT], row)
    return 0, row


def resize(record, pixels, out, work, restored=restore):
    """Of a fresh record with the full crop: the number, the flag, and the output after the call."""
    number = sizes_number(record) or first_of(
        (3, len(pixels) != 4 * record[W] * record[H]), (4, len(out) != 4 * record[TW] * record[TH]), (5, len(work) < need(record)))
    if number:
        return number, 0, out
    start(record, work, len(work))
    rows = []
    while record[T] < record[TH]:
        if not ready(record):
            offer(record, pixels[4 * record[W] * record[K]:], work, len(work))
        rows.append(take(record, bytes(4 * record[TW]), work, len(work), restored)[1])
    return 0, record[FLAG], b"".join(rows)
