#!/usr/bin/env python3
"""Bands summed from the bottom, in plain Python, to compare the library with. Which rows are a band, why one is turned away and what it leaves was written from the words of
SCOPE ("Bands"), by somebody who had read the library; what a row brings, how one goes out, and the job's other calls are tests/model.py's.

  tests/band_model.py DRIVER     DRIVER is tests/band_model.c, linked with the library: its answers are the model's
  tests/band_model.py            the model alone: what the request claims of it, and that its cases tell wrong programs apart
  tests/band_model.py --stdout   what crates/band_trials prints
"""
import random
import subprocess
import sys
from collections import Counter, namedtuple
from itertools import combinations, permutations

import model
from model import CH, CW, FLAG, H, K, KIND, LANES, LAYOUT, PICTURE, PLANE, T, TH, TW, W, WORD, X, Y

#: A call: b a band, c how many rows the next one has, o an offer, t a take. What it is lent: the record's words, bytes (of a take the output row), work values, and
#: how many words for the count.
Case = namedtuple("Case", "call record data work room")
#: What it leaves: the number, the count if it was written, and all that was lent.
Answer = namedtuple("Answer", "number count record data work")

# ---- The model


def stretch(record, k):
    """How many are "the source rows from the next one due up to, but without, the first at which R rises above R(k)". With source row s, R becomes R(s + 1)."""
    rises = (s for s in range(k, record[H]) if model.made(record, s + 1) > model.made(record, k))
    return next(rises, record[H]) - k


def above_the_crop(record):
    return record[K] < record[Y]


def all_made(record):
    return model.made(record, record[K]) == record[TH]


def grows(record):
    return record[TH] > record[CH]


def no_band(record):
    """The request: "while rows above the crop are still due, once R stands at the target height, or for a height that grows"."""
    return above_the_crop(record) or all_made(record) or grows(record)


def rows_due(record):
    return 0 if no_band(record) else stretch(record, record[K])


def stride_of(record):
    return model.row_bytes(record, record[W])


def no_room(case):
    return case.room == 0


def bad_record(case):
    return len(case.record) < 14 or not model.lawful(case.record)


def bad_band(case):
    """The request: "a stretch that is empty or isn't exactly those rows"; or one where there is no band."""
    right = stride_of(case.record) * stretch(case.record, case.record[K])
    return len(case.data) == 0 or len(case.data) != right or no_band(case.record)


def short_work(case):
    return len(case.work) < model.need(case.record)


def row_ready(case):
    return model.ready(case.record) > 0


def all_accepted(case):
    return case.record[K] == case.record[H]


#: The numbers of a band in their order.
CAUSES = ((100, no_room), (6, bad_record), (17, bad_band), (5, short_work), (7, row_ready), (8, all_accepted))


def number_of(case, causes=CAUSES):
    return next((number for number, applies in causes if applies(case)), 0)


def row_values(record, data):
    """What each of these source rows brings, from the top."""
    left, right, stride = model.row_bytes(record, record[X]), model.row_bytes(record, record[X] + record[CW]), stride_of(record)
    rows = (data[at + left:at + right] for at in range(0, len(data), stride))
    return [model.row_in(record[KIND], record[LAYOUT], record[LANES], row, record[TW]) for row in rows]


def summed(record, data, work):
    """The work values after a band: it adds its rows from last to first, and leaves the last in the second half, as offering them in order does."""
    half, rows, work = model.row_bytes(record, record[TW]), row_values(record, data), list(work)
    for values in reversed(rows):
        work[:half] = [(a + v) % WORD for a, v in zip(work, values)]
    work[half:2 * half] = rows[-1]
    return work


def moved(record, rows):
    return [*record[:K], record[K] + rows, *record[K + 1:]]


def refused(case, number):
    return Answer(number, None, case.record, case.data, case.work)


def band(case, number=None, work=summed, rows=None):
    """A wrong program has another number, other work values or other rows counted."""
    number = number_of(case) if number is None else number
    if number:
        return refused(case, number)
    rows = len(case.data) // stride_of(case.record) if rows is None else rows
    return Answer(0, rows, moved(case.record, rows), case.data, work(case.record, case.data, case.work))


def count(case, due=rows_due):
    number = number_of(case, CAUSES[:2])
    return refused(case, number) if number else Answer(0, due(case.record), case.record, case.data, case.work)


def offer(case):
    record, work = list(case.record), list(case.work)
    number, rows = model.offer(record, case.data, work, len(work))
    return refused(case, number) if number else Answer(0, rows, record, case.data, work)


def take(case):
    record, work = list(case.record), list(case.work)
    number, row = model.take(record, case.data, work, len(work))
    return refused(case, number) if number else Answer(0, None, record, row, work)


CALLS = {"b": band, "c": count, "o": offer, "t": take}


def answer(case):
    return CALLS[case.call](case)


# ---- The cases

#: Pictures in each layout, and planes: layout, kind and lanes.
FORMS = ((0, PICTURE, 4), (1, PICTURE, 4), (2, PICTURE, 4), (0, PLANE, 1), (0, PLANE, 2), (0, PLANE, 3), (0, PLANE, 4))
LARGEST = WORD - 1


def fresh(form, w, h, crop, tw, th):
    layout, kind, lanes = form
    return [w, h, layout, *crop, tw, th, 0, 0, 0, kind, lanes]


def any_record(rng, form):
    """A fresh one, of a height that mostly shrinks."""
    w, h = rng.randint(1, 7), rng.randint(1, 20)
    cw, ch = rng.randint(1, w), rng.randint((h + 1) // 2, h)
    crop = (rng.randint(0, w - cw), rng.choice((0, h - ch, rng.randint(0, h - ch))), cw, ch)
    th = rng.choice((1, ch, ch + rng.randint(1, 4), *(rng.randint(1, ch) for _ in range(3)), *(rng.randint(1, (ch + 2) // 3) for _ in range(5))))
    return fresh(form, w, h, crop, rng.randint(1, 7), th)


def any_work(rng, record, more=0):
    """Work values that no row made, a third of them so large that sums wrap."""
    return [rng.choice((rng.randrange(WORD), rng.randrange(WORD), WORD - 1 - rng.randrange(500))) for _ in range(model.need(record) + more)]


def jobs(rng, times):
    """Whole jobs: bands, single rows and longer offers mixed, rows taken between them, and before each the rows of the next band asked for."""
    for form in FORMS * times:
        record = any_record(rng, form)
        stride, out = stride_of(record), model.row_bytes(record, record[TW])
        source = rng.randbytes(stride * record[H])
        work = [0] * model.need(record) + [rng.randrange(WORD) for _ in range(rng.randrange(3))]
        while record[K] < record[H] or record[T] < record[TH]:
            yield Case("c", record, b"", [], 1)
            rest, due = source[stride * record[K]:], rows_due(record)
            if model.ready(record):
                case = Case("t", record, rng.randbytes(out), work, 1)
            elif due and rng.random() < .6:
                case = Case("b", record, rest[:stride * due], work, 1)
            else:
                case = Case("o", record, rest[:stride * rng.choice((1, 1, 2, due or 1, due + 1, record[H]))], work, 1)
            yield case
            left = answer(case)
            record, work = left.record, left.work


def states(rng, times):
    """Any record that keeps the rules, a word more behind some, over any work values: the band that is due, a row of it less and more, and one lent a work value too few."""
    for form in FORMS * times:
        record = any_record(rng, form)
        record[K] = rng.randint(0, record[H])
        record[T] = rng.randint(model.made(record, record[K] - 1), model.made(record, record[K])) if record[K] else 0
        record[FLAG] = int(record[KIND] == PICTURE and record[T] > 0 and rng.random() < .5)
        record += [rng.randrange(WORD)] * rng.randrange(2)
        rows, stride, work = stretch(record, record[K]), stride_of(record), any_work(rng, record, rng.randrange(3))
        yield Case("c", record, b"", [], rng.randint(1, 2))
        for lent in (rows, rows - 1, rows + 1):
            yield Case("b", record, rng.randbytes(stride * max(lent, 0)), work, rng.randint(1, 2))
        yield Case("b", record, rng.randbytes(stride * rows), work[:model.need(record) - 1], 1)


def tall(rng):
    """The tallest sources: bands of thousands of rows."""
    for form, tw, th in ((FORMS[0], 1, 1), (FORMS[2], 3, 2), (FORMS[3], 2, 3), (FORMS[5], 1, 5)):
        record = fresh(form, 2, 16384, (1, 5, 1, 16300), tw, th)
        record[K] = 5
        yield Case("b", record, rng.randbytes(stride_of(record) * rows_due(record)), any_work(rng, record), 1)


def base(rng, form):
    """R over the crop's rows is 0 0 0 1 1 1 2; half of them are used, so that the next two are a band. A row may be ready there."""
    record = fresh(form, 3, 9, (1, 1, 2, 6), 2, 2)
    record[K], record[T] = 4, 1
    return Case("b", record, rng.randbytes(2 * stride_of(record)), any_work(rng, record, 1), 1)


def words(**fields):
    """The record with other words."""
    names = {"k": K, "t": T, "flag": FLAG, "tw": TW, "th": TH, "cw": CW, "h": H, "layout": LAYOUT, "kind": KIND, "lanes": LANES}

    def done(case):
        record = list(case.record)
        for name, value in fields.items():
            record[names[name]] = value
        return case._replace(record=record)
    return done


def lent(rows=0, more=0):
    """So many rows and bytes more, or fewer."""
    def done(case):
        length = len(case.data) + rows * stride_of(case.record) + more
        return case._replace(data=(case.data * 3)[:max(length, 0)])
    return done


def fewer_values(less):
    """So many fewer than it needs."""
    return lambda case: case._replace(work=case.work[:max(len(case.work) - 1 - less, 0)])


#: What can be wrong. Records that no job has; those whose next rows are no band; a row that is ready; another length; too few work values; no word for the count.
SLIPS = (
    words(k=10), words(t=2), words(k=5, t=0), words(t=0, flag=1), words(flag=2), words(tw=0), words(th=16385), words(cw=3), words(h=4), words(layout=3),
    words(kind=2), words(lanes=0), words(lanes=5), words(kind=LARGEST), words(h=LARGEST),
    words(k=0, t=0), words(k=6), words(k=7, t=2), words(k=9, t=2), words(th=6, t=3), words(th=7, t=3), words(k=1, t=0), words(t=0),
    lent(rows=1), lent(rows=-1), lent(rows=-2), lent(rows=2), lent(more=1), lent(more=-1),
    fewer_values(1), fewer_values(16), lambda case: case._replace(room=0),
    # Last: the others ask the record.
    lambda case: case._replace(record=case.record[:13]))


def slips(rng):
    """Every slip and every two of them, in forms that turn."""
    for i, some in enumerate([(slip,) for slip in SLIPS] + list(combinations(SLIPS, 2))):
        case = base(rng, FORMS[i % len(FORMS)])
        for slip in some:
            case = slip(case)
        yield case
        yield case._replace(call="c", data=b"", work=[])


def all_cases():
    rng = random.Random(9)
    return [*jobs(rng, 120), *states(rng, 400), *slips(rng)]


# ---- Wrong programs


def wrong_order(*numbers):
    order = [next(cause for cause in CAUSES if cause[0] == number) for number in numbers]
    return {"b": lambda case: band(case, number_of(case, order))}


def wrong_bands(bad):
    """Another idea of which stretch is a band."""
    order = [(number, bad if number == 17 else applies) for number, applies in CAUSES]
    return {"b": lambda case: band(case, number_of(case, order))}


def exact(due):
    return lambda case: len(case.data) == 0 or len(case.data) != stride_of(case.record) * due(case.record)


def but_for(allowed):
    """One of the three states in which there is no band does not count."""
    def due(record):
        return 0 if any(state(record) for state in (above_the_crop, all_made, grows) if state != allowed) else stretch(record, record[K])
    return {**wrong_bands(exact(due)), "c": lambda case: count(case, due)}


def by_rows_taken(record):
    """R above the rows taken, not above R(k)."""
    rises = (s for s in range(record[K], record[H]) if model.made(record, s + 1) > record[T])
    return 0 if no_band(record) else next(rises, record[H]) - record[K]


def with_the_next(record):
    """The row that raises R belongs to it."""
    return rows_due(record) + 1 if not no_band(record) else 0


def wrong_work(change):
    return {"b": lambda case: band(case, work=change)}


def first_in_second_half(record, data, work):
    half, after = model.row_bytes(record, record[TW]), summed(record, data, work)
    after[half:2 * half] = row_values(record, data)[0]
    return after


def second_half_left(record, data, work):
    half = model.row_bytes(record, record[TW])
    return summed(record, data, work)[:half] + list(work[half:])


def last_added_twice(record, data, work):
    return summed(record, data[-stride_of(record):], summed(record, data, work))


def replaced_not_added(record, data, work):
    half = model.row_bytes(record, record[TW])
    return summed(record, data, [0] * half + list(work[half:]))


def saturated(record, data, work):
    half, after = model.row_bytes(record, record[TW]), summed(record, data, work)
    sums = [a + sum(v) for a, v in zip(work, zip(*row_values(record, data)))]
    return [min(total, WORD - 1) for total in sums] + after[half:]


def whole_rows(record, data, work):
    """The crop's left edge is forgotten."""
    return summed(moved_left(record), data, work)


def moved_left(record):
    return [*record[:X], 0, *record[X + 1:]]


def other_layout(record, data, work):
    return summed([*record[:LAYOUT], (record[LAYOUT] + 1) % 3, *record[LAYOUT + 1:]], data, work)


def not_matted(record, data, work):
    return summed([*record[:KIND], PLANE, *record[KIND + 1:]], data, work)


def written_though_refused(case):
    number = number_of(case)
    left = band(case)
    return left._replace(work=summed(case.record, case.data, case.work)) if number == 7 else left


WRONG = {
    "the row that raises R in it": {**wrong_bands(exact(with_the_next)), "c": lambda case: count(case, with_the_next)},
    "R above the rows taken": {**wrong_bands(exact(by_rows_taken)), "c": lambda case: count(case, by_rows_taken)},
    "an empty stretch passes": wrong_bands(lambda case: len(case.data) != stride_of(case.record) * stretch(case.record, case.record[K]) or no_band(case.record)),
    "a beginning of it passes": wrong_bands(
        lambda case: not 0 < len(case.data) <= stride_of(case.record) * rows_due(case.record) or len(case.data) % stride_of(case.record)),
    "rows above the crop": but_for(above_the_crop),
    "rows after the last preview row": but_for(all_made),
    "6 before 100": wrong_order(6, 100, 17, 5, 7, 8),
    "17 before 100": wrong_order(6, 17, 100, 5, 7, 8),
    "5 before 17": wrong_order(100, 6, 5, 17, 7, 8),
    "7 before 17": wrong_order(100, 6, 7, 17, 5, 8),
    "7 before 5": wrong_order(100, 6, 17, 7, 5, 8),
    "5 before 6": {"b": lambda case: band(case, number_of(case, [CAUSES[0], (5, lambda case: len(case.record) == 14 and short_work(case)), *CAUSES[1:]]))},
    "7 not looked for": wrong_order(100, 6, 17, 5, 8),
    "8 for 17 at the end": {
        "b": lambda case: band(case, number_of(case, [*CAUSES[:2], (8, all_accepted), *CAUSES[2:]]))},
    "3 for 17": {"b": lambda case: band(case)._replace(number=3) if number_of(case) == 17 else band(case)},
    "the first row in the second half": wrong_work(first_in_second_half),
    "the second half left": wrong_work(second_half_left),
    "the last row added twice": wrong_work(last_added_twice),
    "replaced, not added": wrong_work(replaced_not_added),
    "sums that stop at the largest": wrong_work(saturated),
    "the crop's left edge forgotten": wrong_work(whole_rows),
    "another layout": wrong_work(other_layout),
    "nothing matted": wrong_work(not_matted),
    "one row counted": {"b": lambda case: band(case, rows=None if number_of(case) else 1)},
    "the record left": {"b": lambda case: band(case)._replace(record=case.record)},
    "written although refused": {"b": written_though_refused},
    "rows of the next band of any record": {
        "c": lambda case: Answer(0, 0, case.record, case.data, case.work) if case.room and bad_record(case) else count(case)},
}


def tried(wrong, case):
    """A wrong program may stumble over a case: that tells it apart too."""
    try:
        return wrong.get(case.call, answer)(case)
    except (IndexError, ZeroDivisionError):
        return None


# ---- What crates/band_trials prints

PIXELS = bytes.fromhex(
    "3cbb3edab75c7f380dde10297fa425d87963e014fa5bc09b9979fa72803847cc2f68fa3d"
    "e448784ce38864991a281424c8491975275b00ab3e4e91b665a4253b1790eaf2177c2773"
    "5e02c9ff90d36a01ee348b800b8cfe62917d3ac0f211483de5a0c71f56b209fe77d12c4a")


def trial_lines():
    whole = (0, 0, 2, 3)
    for name, record in (
            ("a picture of 3 by 9, 2 by 7 of it to 2 by 3", fresh(FORMS[2], 3, 9, (1, 1, 2, 7), 2, 3)),
            ("a plane of two lanes, 3 by 7 to 4 by 2", fresh(FORMS[4], 3, 7, (0, 0, 3, 7), 4, 2)),
            ("a picture of 2 by 5 to 2 by 1", fresh(FORMS[0], 2, 5, (0, 0, 2, 5), 2, 1)),
            ("a picture of 2 by 3 to 2 by 3", fresh(FORMS[0], 2, 3, whole, 2, 3)),
            ("a picture of 2 by 3 to 2 by 5", fresh(FORMS[1], 2, 3, whole, 2, 5))):
        yield name
        yield from Trial(record).by_rows()
        yield from Trial(record).by_bands()


class Trial:
    """A job over the same bytes, its work values one more than it needs."""

    def __init__(self, record):
        self.record, self.work = record, [0] * 16 + [7]

    def lent(self, call, rows, work):
        stride = stride_of(self.record)
        return Case(call, self.record, PIXELS[stride * self.record[K]:][:stride * rows], work, 1)

    def call(self, case):
        left = answer(case)
        self.record, self.work = left.record, left.work
        return left

    def told(self):
        """The rows of the next band, and what it is answered with a row less, as it is, with a row more, and with a work value too few."""
        due = answer(Case("c", self.record, b"", [], 1)).count
        less = max(due - 1, 0)
        numbers = [answer(self.lent("b", rows, [7] * room)).number for rows, room in ((less, 16), (due, 16), (due + 1, 16), (due, 15))]
        return f"{self.record[K]} accepted, {due} in the next band: {' '.join(map(str, numbers))}"

    def offered(self):
        left = self.call(self.lent("o", 1, self.work))
        return f"offer {left.number}: {left.count or 0}"

    def took(self):
        left = self.call(Case("t", self.record, b"\x01" * 8, self.work, 1))
        return f"take {left.number}: {left.data.hex()}"

    def by_rows(self):
        for _ in range(max(self.record[H], self.record[TH])):
            yield self.told()
            yield self.offered()
            yield self.told()
            yield self.took()

    def by_bands(self):
        for _ in range(self.record[TH] + 2):
            left = self.call(self.lent("b", answer(Case("c", self.record, b"", [], 1)).count, self.work))
            yield f"band {left.number}: {left.count or 0}"
            yield "".join(f"{word:08x}" for word in self.work)
            yield self.offered()
            yield self.took()


# ---- The comparison


def fail(message):
    sys.exit(f"band-model: FAILED: {message}")


def schedule_claims(most):
    """Of every crop height and target height up to here: the stretch is the rows before the one with which the next output row is made, less those used."""
    for h in range(1, most + 1):
        for g in range(1, most + 1):
            record = fresh(FORMS[0], 1, h + 3, (0, 2, 1, h), 1, g)
            for k in range(h + 4):
                record[K] = k
                u, due = model.used(record, k), rows_due(record)
                if k < 2 or u == h or g > h:
                    wanted = 0
                else:
                    wanted = model.ceil((u * g // h + 1) * h, g) - 1 - u
                if due != wanted or due and not 2 <= k <= k + due < 2 + h:
                    fail(f"{h} to {g}: the band at {k} has {due} rows, not {wanted}")
                # So nothing tells apart a program that does not ask whether the height grows.
                if g >= h and 2 <= k < 2 + h and stretch(record, k):
                    fail(f"{h} to {g}: row {k} does not raise R")


def offered(record, work, data, rows):
    """The record and the work values once these rows were offered, so many at a time."""
    record, work, stride = list(record), list(work), stride_of(record)
    for at in range(0, len(data), rows * stride):
        if model.offer(record, data[at:at + rows * stride], work, len(work)) != (0, rows):
            fail("an offer of a band's rows is not accepted")
    return record, work


def band_claims(rng, case, left):
    """Of an accepted band."""
    record, stride = case.record, stride_of(case.record)
    rows = [case.data[at:at + stride] for at in range(0, len(case.data), stride)]
    if not (left.record, left.work) == offered(record, case.work, case.data, len(rows)) == offered(record, case.work, case.data, 1):
        fail("a band leaves something else than offering its rows in order")
    if model.ready(left.record) or model.made(record, left.record[K] + 1) == model.made(record, left.record[K]):
        fail("a row is ready after a band, or not after the row that follows it")
    half = model.row_bytes(record, record[TW])
    orders = list(permutations(rows)) if len(rows) < 5 else [rng.sample(rows, len(rows)) for _ in range(3)]
    for order in orders:
        if summed(record, b"".join(order), case.work)[:half] != left.work[:half]:
            fail("another order of the rows leaves another first half")
    return len(orders)


def alone(cases, expected):
    schedule_claims(12)
    rng = random.Random(10)
    accepted = [(case, left) for case, left in zip(cases, expected) if case.call == "b" and left.number == 0]
    orders = sum(band_claims(rng, case, left) for case, left in accepted)
    # The shortest first: one case is enough.
    short = sorted(zip(cases, expected), key=lambda pair: len(pair[0].data))
    for name, wrong in WRONG.items():
        if all(tried(wrong, case) == right for case, right in short if case.call in wrong):
            fail(f"no case tells this apart: {name}")
    seen = {left.number for case, left in zip(cases, expected) if case.call == "b"}
    if seen != {0, 100, 6, 17, 5, 7}:
        fail(f"the bands have the numbers {sorted(seen)}")
    print(f"band-model: the model alone; {len(accepted)} bands leave what their offers leave, in {orders} orders the same first half, and {len(cases)} cases tell "
          f"{len(WRONG)} wrong programs apart")


def hex_words(numbers):
    return "".join(f"{number:08x}" for number in numbers) or "-"


def line_of(case):
    return f"{case.call} {case.room} {hex_words(case.record)} {case.data.hex() or '-'} {hex_words(case.work)}"


def expected_line(left):
    """The last word is 1 where the guards stayed."""
    told = "-" if left.count is None else left.count
    return f"{left.number} {told} {hex_words(left.record)} {left.data.hex() or '-'} {hex_words(left.work)} 1"


def compare(driver, cases, expected):
    """The library's answers are the model's."""
    ran = subprocess.run([driver], input="".join(line_of(case) + "\n" for case in cases), stdout=subprocess.PIPE, text=True, check=False)
    answers = ran.stdout.splitlines()
    if ran.returncode or len(answers) != len(cases):
        fail(f"{len(answers)} answers to {len(cases)} cases, exit status {ran.returncode}")
    lines = [expected_line(left) for left in expected]
    wrong = [i for i, line in enumerate(lines) if line != answers[i]]
    for i in sorted(wrong, key=lambda i: len(lines[i]))[:5]:
        print(f"  case    {line_of(cases[i])[:300]}\n  model   {lines[i][:300]}\n  library {answers[i][:300]}", file=sys.stderr)
    if wrong:
        fail(f"{len(wrong)} of {len(cases)} cases differ")
    bands = [left for case, left in zip(cases, expected) if case.call == "b"]
    numbers = Counter(left.number for left in bands)
    came = sum(left.count for left in bands if left.number == 0)
    refused_ = ", ".join(f"{number}: {numbers[number]}" for number, _ in CAUSES if numbers[number])
    print(f"band-model: {len(cases)} calls as the model says; {numbers[0]} bands of {came} rows, and bands refused by number {refused_}")


def main():
    if sys.argv[1:] == ["--stdout"]:
        print("\n".join(trial_lines()))
        return
    cases = all_cases()
    if sys.argv[1:]:
        cases += tall(random.Random(11))
    expected = [answer(case) for case in cases]
    if sys.argv[1:]:
        compare(sys.argv[1], cases, expected)
    else:
        alone(cases, expected)


main()
