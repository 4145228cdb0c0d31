#!/usr/bin/env python3
"""Sends jobs in which scaled colours stand above their alpha to the library and holds each answer, whole, against tests/model.py. The original Rust and libwebp do not
judge these (oracle/README.md, "What is left out"). Jobs and answers are the oracle's stream (the same page, "Jobs and answers").

  tests/spill_model.py DRIVER     DRIVER is oracle/ours.c, linked with the library
  tests/spill_model.py            the model alone
"""
import random
import subprocess
import sys
from functools import lru_cache

import model
from model import CH, CW, FLAG, H, K, KIND, LANES, LAYOUT, PICTURE, PLANE, T, TH, TW, W, WORD, X, Y

# ---- The stream: what buffers hold, and what an answer says of them


@lru_cache(None)
def source(layout, pattern, seed, length):
    """The first bytes of a picture without end."""
    if pattern == 10:
        return (seed.to_bytes(4, "little") * (length // 4 + 1))[:length]
    place = 0 if layout == 1 else 3
    colour, alpha = COLOURS.get(pattern, random_byte), ALPHAS.get(pattern, random_byte)
    out = bytearray()
    for j in range(length):
        seed = (seed * 1664525 + 1013904223) % WORD
        out.append((alpha if j % 4 == place else colour)(j // 4, seed >> 24))
    return bytes(out)


def random_byte(_, b):
    return b


def black_white(_, b):
    return 0 if b < 128 else 255


def opaque(_i, _b):
    return 255


#: The byte that pixel i and a random byte b make, by the pattern.
COLOURS = {4: black_white, 5: black_white, 6: opaque, 8: lambda i, b: i % 256, 9: lambda i, b: b % 4}
ALPHAS = {
    1: opaque, 2: black_white, 3: lambda i, b: (0, 1, 2, 128, 254, 255)[b % 6], 4: opaque, 5: black_white, 6: opaque, 7: lambda i, b: i % 256,
    8: lambda i, b: i // 256 % 256, 9: opaque}


def filled_bytes(length):
    return bytes(165 ^ i % 256 for i in range(length))


def filled_words(length):
    return [(i + 1) * 2654435769 % WORD for i in range(length)]


def checksum(words):
    h = 0xcbf29ce484222325
    for word in words:
        h = (h ^ word) * 0x100000001b3 & 0xffffffffffffffff
    return f"{h:016x}"


def numbers_line(numbers):
    return ",".join(map(str, numbers))


# ---- The model's answers


class Rule:
    """A restore of one pixel's lanes; it counts the pixels in which a colour is above an alpha that is not 0."""

    def __init__(self, restored):
        self.restored = restored
        self.pixels = self.rows = self.jobs = 0

    def __call__(self, blue, green, red, alpha):
        self.pixels += 0 < alpha < max(blue, green, red)
        return self.restored(blue, green, red, alpha)

    def take(self, *call):
        before = self.pixels
        taken = model.take(*call, self)
        self.rows += self.pixels > before
        return taken


def spilled(blue, green, red, alpha):
    """The Rust's restore: a colour above 255 runs into the next lane."""
    if alpha in (0, 255):
        return model.restore(blue, green, red, alpha)
    k = 255 * (1 << 24) // alpha
    pixel = alpha << 24
    for lane, colour in enumerate((blue, green, red)):
        pixel |= (colour * k + (1 << 23)) >> 24 << 8 * lane
    return pixel.to_bytes(4, "little")


def wrapped(blue, green, red, alpha):
    """libwebp's restore: the product is taken in 32 bits, so a colour above 255 wraps in its lane."""
    if alpha in (0, 255):
        return model.restore(blue, green, red, alpha)
    k = 255 * (1 << 24) // alpha
    return *((colour * k + (1 << 23)) % WORD >> 24 for colour in (blue, green, red)), alpha


def calls_in(words):
    """The letter and the numbers of each call."""
    at = 0
    while at < len(words):
        count = {"o": 3, "t": 2, "s": 2, "p": 1}[words[at]]
        yield words[at], [int(word) for word in words[at + 1:at + 1 + count]]
        at += 1 + count


def resize_answer(numbers, rule):
    layout, w, h, tw, th, pixels, out, work, pattern, seed = numbers
    record = [w, h, layout, 0, 0, w, h, tw, th, 0, 0, 0, PICTURE, 4]
    values = filled_words(work)
    before = rule.pixels
    number, flag, after = model.resize(record, source(layout, pattern, seed, pixels), filled_bytes(out), values, rule)
    # All whole pictures here are one row high.
    rule.rows += rule.pixels > before
    return f"{number} {int(flag)} {after.hex()} {checksum(values)} 1"


def rows_answer(kind, words, rule):
    first, w, h, x, y, cw, ch, tw, th, work, pattern, seed = (int(word) for word in words[:12])
    calls = list(calls_in(words[12:]))
    form = (0, PLANE, first) if kind == "lanes" else (first, PICTURE, 4)
    record = [w, h, form[0], x, y, cw, ch, tw, th, 0, 0, 0, form[1], form[2]]
    end = max((numbers[0] + numbers[1] for letter, numbers in calls if letter == "o"), default=0)
    pixels = source(form[0], pattern, seed, end)
    values = filled_words(work)
    said = [str(model.start(record, values, work)), checksum(values)]
    for letter, numbers in calls:
        if letter == "s":
            record[numbers[0]] = numbers[1]
            continue
        if letter == "o":
            number, told = model.offer(record, pixels[numbers[0]:numbers[0] + numbers[1]], values, numbers[2])
        else:
            number, row = rule.take(record, filled_bytes(numbers[0]), values, numbers[1])
            told = row.hex()
        said += [str(number), str(told), numbers_line(record), checksum(values)]
    return " ".join(said + ["1"])


def group_answer(words, rule):
    """Each job is one alone, over its own part of the work values; a row goes to all, until one has a row ready. All calls are accepted ones."""
    count, plans, room, work, pattern, seed = (int(word) for word in words[:6])
    assert count == plans
    numbers, calls = [int(word) for word in words[6:6 + 11 * plans]], list(calls_in(words[6 + 11 * plans:]))
    record, values = filled_words(room), filled_words(work)
    record[0] = count
    for i in range(count):
        w, h, layout, x, y, cw, ch, tw, th, kind, lanes = numbers[11 * i:11 * i + 11]
        record[1 + 14 * i:15 + 14 * i] = [w, h, layout, x, y, cw, ch, tw, th, 0, 0, 0, kind, lanes]
    end = max((numbers[0] + numbers[1] for letter, numbers in calls if letter == "o"), default=0)
    pixels = source(record[1 + LAYOUT], pattern, seed, end)

    def each(call, only=range(count)):
        """The call's answers, of all jobs or of some."""
        told, at = [], 0
        for i in range(count):
            job = record[1 + 14 * i:15 + 14 * i]
            part = values[at:at + model.need(job)]
            if i in only:
                told.append(call(job, part, len(part)))
                record[1 + 14 * i:15 + 14 * i], values[at:at + len(part)] = job, part
            at += len(part)
        return told

    def said(number, told):
        return [str(number), *told, numbers_line(record), checksum(values)]

    assert not any(each(model.start))
    line, named = said(0, []), 0
    for letter, numbers in calls:
        if letter == "s":
            record[numbers[0]] = numbers[1]
        elif letter == "p":
            named = numbers[0]
        elif letter == "t":
            (number, row), = each(lambda job, part, lent: rule.take(job, filled_bytes(numbers[0]), part, lent), [named])
            assert number == 0
            line += said(0, [row.hex()])
        else:
            stride, accepted = record[1 + LANES] * record[1 + W], 0
            for at in range(numbers[0], numbers[0] + numbers[1], stride):
                assert set(each(lambda job, part, lent: model.offer(job, pixels[at:at + stride], part, lent))) == {(0, 1)}
                accepted += 1
                if record[1 + K] == record[1 + H] or any(each(lambda job, part, lent: model.ready(job))):
                    break
            line += said(0, [str(accepted)])
    return " ".join(line + ["1"])


def answer(line, rule):
    kind, *words = line.split()
    before = rule.pixels
    if kind == "resize":
        said = resize_answer([int(word) for word in words], rule)
    elif kind == "group":
        said = group_answer(words, rule)
    else:
        said = rows_answer(kind, words, rule)
    rule.jobs += rule.pixels > before
    return said


# ---- The jobs


def right_calls(records, rng):
    """Calls that are accepted: offers of some rows, takes of any of the jobs that has a row ready. A job alone names none."""
    records = [list(record) for record in records]
    work, named, calls = sum(map(model.need, records)), 0, []
    while any(record[K] < record[H] or record[T] < record[TH] for record in records):
        ready = [i for i, record in enumerate(records) if model.ready(record)]
        if ready:
            i = rng.choice(ready)
            if i != named:
                calls.append(("p", i))
                named = i
            calls.append(("t", model.row_bytes(records[i], records[i][TW]), work))
            records[i][T] += 1
            continue
        k, stride = records[0][K], model.row_bytes(records[0], records[0][W])
        rows = rng.randint(1, records[0][H] - k)
        calls.append(("o", k * stride, rows * stride, work))
        for _ in range(rows):
            for record in records:
                record[K] += 1
            if any(map(model.ready, records)):
                break
    return calls


def taken_as_pictures(calls, jobs, layout, stays, base):
    """The records of planes, starting at word `base`, are a picture's for takes, so that what came in unmatted is restored: any colour above any alpha. For offers they
    are a plane's again, if they do not stay a picture's."""
    picture, out = False, []
    for call in calls:
        wanted = call[0] == "t" or picture and (stays or call[0] == "p")
        if wanted != picture:
            picture = wanted
            form = ((KIND, PICTURE), (LAYOUT, layout), (FLAG, 0)) if picture else ((KIND, PLANE), (LAYOUT, 0), (FLAG, 0))
            out += [("s", base + 14 * i + field, number) for i in range(jobs) for field, number in form]
        out.append(call)
    return out


def text(calls):
    return " ".join(str(word) for call in calls for word in call)


def plane(rng, w, h, lanes=4):
    """A record of a plane's job over such a source, with any crop and target."""
    cw, ch = rng.randint(1, w), rng.randint(1, h)
    crop = [rng.randint(0, w - cw), rng.randint(0, h - ch), cw, ch]
    return [w, h, 0, *crop, rng.randint(1, 12), rng.randint(1, 16), 0, 0, 0, PLANE, lanes]


def rows_line(record, work, pattern, seed, calls):
    kind, first = ("lanes", record[LANES]) if record[KIND] == PLANE else ("job", record[LAYOUT])
    sizes = " ".join(str(record[field]) for field in (W, H, X, Y, CW, CH, TW, TH))
    return f"{kind} {first} {sizes} {work} {pattern} {seed} {text(calls)}"


def all_pairs(rng):
    """Every alpha with every colour, in each layout: a plane of equal size, whose lanes go out as they came in."""
    for layout in range(3):
        record = [256, 256, 0, 0, 0, 256, 256, 256, 256, 0, 0, 0, PLANE, 4]
        yield rows_line(record, 2048, 8, 0, taken_as_pictures(right_calls([record], rng), 1, layout, False, 0))


def restored_planes(rng, count):
    """Planes of any size and crop, with heights that grow and shrink; some are dividers, some groups."""
    for _ in range(count):
        pattern, seed, layout, stays = rng.choice((0, 2, 3, 5, 7, 8)), rng.randrange(WORD), rng.randrange(3), rng.random() < .25
        w, h = rng.randint(1, 12), rng.randint(1, 14)
        if rng.random() < .25:
            records = [plane(rng, w, h) for _ in range(rng.randint(1, 6))]
            calls = taken_as_pictures(right_calls(records, rng), len(records), layout, stays, 1)
            plans = " ".join(str(n) for r in records for n in r[:K] + r[KIND:])
            work = sum(map(model.need, records))
            yield f"group {len(records)} {len(records)} {1 + 14 * len(records)} {work} {pattern} {seed} {plans} {text(calls)}"
            continue
        record = plane(rng, w, h)
        if rng.random() < .2:
            record[CW], record[TW], record[TH] = 1, rng.randint(1, 2), record[CH] + rng.randint(1, 9)
        yield rows_line(record, model.need(record), pattern, seed, taken_as_pictures(right_calls([record], rng), 1, layout, stays, 0))


def other_lanes(rng, count):
    """Somewhere in the job of a plane of 1 to 4 lanes its record becomes a picture's: the halves stand elsewhere then, and the work values are any."""
    for _ in range(count):
        record = plane(rng, rng.randint(1, 6), rng.randint(1, 8), rng.randint(1, 4))
        work = 8 * record[TW]
        calls = [(*call[:-1], work) for call in right_calls([record], rng)]
        calls = calls[:rng.randint(1, len(calls))]
        calls += [("s", KIND, PICTURE), ("s", LANES, 4), ("s", LAYOUT, rng.randrange(3))]
        row_in, row_out = 4 * record[W], 4 * record[TW]
        calls += [("t", row_out, work), ("o", 0, row_in, work), ("t", row_out, work)]
        yield rows_line(record, work, rng.choice((0, 3, 7)), rng.randrange(WORD), calls)


def pixel_of(layout, red, green, blue, alpha):
    """The seed of a picture that has this pixel everywhere."""
    return int.from_bytes(model.packed(layout, bytes((blue, green, red, alpha))), "little")


def whole_line(layout, w, h, tw, th, pattern, seed):
    return f"resize {layout} {w} {h} {tw} {th} {4 * w * h} {4 * tw * th} {8 * tw} {pattern} {seed}"


#: The example of docs/DIFFERENCES.md, and its pixel by the rule, by the Rust's and by libwebp's.
EXAMPLE = whole_line(0, 1, 1031, 16384, 1, 10, pixel_of(0, 0, 0, 2, 255))
EXAMPLE_PIXEL = {model.restore: "0000ff01", spilled: "0001fe01", wrapped: "0000fe01"}


def wide():
    """Few columns that become 16384, so tall that the alphas' sum wraps and the colours' does not; opaque and translucent, whole and by rows."""
    for layout in range(3):
        for w, h, pattern, seed in (
                (1, 1031, 10, pixel_of(layout, 1, 2, 3, 255)), (2, 1050, 10, pixel_of(layout, 9, 0, 200, 255)),
                (3, 2100, 10, pixel_of(layout, 90, 255, 10, 128)), (1, 1040, 9, 5), (1, 1100, 4, 6), (1, 2120, 5, 7)):
            yield whole_line(layout, w, h, 16384, 1, pattern, seed)
            record = [w, h, layout, 0, 0, w, h, 16384, 1, 0, 0, 0, PICTURE, 4]
            yield rows_line(record, 131072, pattern, seed, [("o", 0, 4 * w * h, 131072), ("t", 65536, 131072)])


def strips():
    """The widest rows, one offered again and again, to one to three columns."""
    for layout, h, tw, pattern in ((0, 1029, 1, 1), (0, 1031, 1, 1), (1, 1033, 2, 4), (2, 1100, 3, 1), (0, 2120, 3, 0)):
        record = [16384, h, layout, 0, 0, 16384, h, tw, 1, 0, 0, 0, PICTURE, 4]
        calls = [("o", 0, 65536, 8 * tw)] * h + [("t", 4 * tw, 8 * tw)]
        yield rows_line(record, 8 * tw, pattern, 11, calls)


def all_jobs():
    """Those of planes restored, all pairs first, and those of real pictures."""
    rng = random.Random(7)
    return [*all_pairs(rng), *restored_planes(rng, 500), *other_lanes(rng, 200)], [EXAMPLE, *wide(), *strips()]


# ---- The comparison


def fail(message):
    sys.exit(f"spill-model: FAILED: {message}")


def differing(answers, others):
    return [i for i, (one, other) in enumerate(zip(answers, others)) if one != other]


def main():
    planes, pictures = all_jobs()
    jobs = planes + pictures
    rule = Rule(model.restore)
    expected = [answer(job, rule) for job in jobs[:3]]
    if rule.pixels != 3 * sum(255 - alpha for alpha in range(1, 255)):
        fail("not every colour stood above every lower alpha, once in each layout")
    expected += [answer(job, rule) for job in planes[3:]]
    of_planes = rule.jobs
    expected += [answer(job, rule) for job in pictures]
    if rule.jobs < of_planes + len(pictures) // 2:
        fail("not even half of the pictures have a colour above an alpha that is not 0")
    if sys.argv[1:]:
        compare(sys.argv[1], jobs, expected)
        print(f"spill-model: {len(jobs)} jobs as the model says; in {rule.jobs} of them ({rule.jobs - of_planes} pictures whose sums wrap), {rule.rows} rows, {rule.pixels} "
              "pixels, a colour is above an alpha that is not 0; an altered answer is found")
    else:
        others(planes, expected)


def compare(driver, jobs, expected):
    """The library's answers are the model's."""
    ran = subprocess.run([driver], input="\n".join(jobs) + "\n", stdout=subprocess.PIPE, text=True, check=False)
    answers = ran.stdout.splitlines()
    if ran.returncode or len(answers) != len(jobs):
        fail(f"{len(answers)} answers to {len(jobs)} jobs, exit status {ran.returncode}")
    wrong = differing(answers, expected)
    for i in sorted(wrong, key=lambda i: len(jobs[i]))[:5]:
        print(f"  job     {jobs[i][:300]}\n  model   {expected[i][:300]}\n  library {answers[i][:300]}", file=sys.stderr)
    if wrong:
        fail(f"{len(wrong)} of {len(jobs)} jobs differ")
    answers[len(jobs) // 2] += "0"
    if len(differing(answers, expected)) != 1:
        fail("an altered answer was not found")


def others(planes, expected):
    """The jobs can say no: with the restores of the Rust and of libwebp some are answered otherwise."""
    found = []
    for name, restored in (("the Rust's", spilled), ("libwebp's", wrapped)):
        count = len(differing(expected, [answer(job, Rule(restored)) for job in planes]))
        if not count:
            fail(f"{name} restore is not told apart")
        found.append(f"{name} in {count}")
    for restored, pixel in EXAMPLE_PIXEL.items():
        if answer(EXAMPLE, Rule(restored)).split()[2] != 16384 * pixel:
            fail(f"the example is not {pixel}")
    print(f"spill-model: the model alone; with another restore of {len(planes)} jobs differ: {', '.join(found)}")


main()
