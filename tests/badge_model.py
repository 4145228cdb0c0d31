#!/usr/bin/env python3
"""A badge laid on a background, in plain Python, to compare the library with. It was written from the words of SCOPE ("Fixed point and matting", "A badge over a
background"), by somebody who had read the library: the three cases of an alpha are three cases here, and numbers are of any length.

  tests/badge_model.py DRIVER     DRIVER is tests/badge_model.c, linked with the library: its answers are the model's
  tests/badge_model.py            the model alone: what the request claims of it, and that its cases tell wrong programs apart
  tests/badge_model.py --stdout   what crates/badge_trials prints
"""
import random
import subprocess
import sys
from collections import namedtuple
from itertools import combinations

#: A picture is its width, height, layout word and bytes; a case is a background and a badge.
Picture = namedtuple("Picture", "width height layout pixels")
RGBA, ARGB, BGRA = LAYOUTS = range(3)
#: The lane at each byte of a pixel.
LANES = ("rgba", "argb", "bgra")
LARGEST_SIDE = 16384

# ---- The model


def matte(c, a):
    return (c * 65793 * a + 2 ** 23) // 2 ** 24


#: The same, looked up: MATTED[a][c].
MATTED = [[matte(c, a) for c in range(256)] for a in range(256)]


def laid_pixel(under, over):
    """The pixel that a badge's pixel `over` makes of a background's; both are lanes by name."""
    a = over["a"]
    if a == 0:
        return under
    if a == 255:
        return over
    return {"a": 255} | {k: MATTED[a][over[k]] + MATTED[255 - a][under[k]] for k in "bgr"}


def lanes_of(layout, pixel):
    return dict(zip(LANES[layout], pixel))


def laid(under, over, pixel=laid_pixel):
    """The bytes of the background afterwards, in its layout."""
    out, order = bytearray(), LANES[under.layout]
    for at in range(0, len(under.pixels), 4):
        made = pixel(lanes_of(under.layout, under.pixels[at:at + 4]), lanes_of(over.layout, over.pixels[at:at + 4]))
        out += bytes(made[k] & 255 for k in order)
    return bytes(out)


def bad_layout(under, over):
    return any(p.layout not in LAYOUTS for p in (under, over))


def bad_size(under, over):
    return any(not 1 <= side <= LARGEST_SIDE for p in (under, over) for side in (p.width, p.height))


def bad_length(under, over):
    return any(len(p.pixels) != 4 * p.width * p.height for p in (under, over))


def unequal(under, over):
    return (under.width, under.height) != (over.width, over.height)


def not_opaque(under, _):
    return set(under.pixels[LANES[under.layout].index("a")::4]) != {255}


#: The numbers in their order.
CAUSES = ((100, bad_layout), (1, bad_size), (3, bad_length), (15, unequal), (16, not_opaque))


def number_of(under, over, causes=CAUSES):
    return next((number for number, applies in causes if applies(under, over)), 0)


def answer(under, over):
    """The number, and the background afterwards."""
    number = number_of(under, over)
    return number, under.pixels if number else laid(under, over)


# ---- The cases

EDGES = (0, 1, 2, 127, 128, 129, 254, 255)


def packed(layout, lanes):
    return bytes(lanes[k] for k in LANES[layout])


def edge_colours(layout, badge_layout):
    """Every alpha of the badge with every pair of edges, in each lane: lanes have other pairs in the same pixel."""
    pairs = [(c, d) for c in EDGES for d in EDGES]
    under, over = bytearray(), bytearray()
    for a in range(256):
        for i in range(64):
            lanes = {"b": pairs[i], "g": pairs[(i + 11) % 64], "r": pairs[(5 * i + 23) % 64]}
            over += packed(badge_layout, {"a": a} | {k: pair[0] for k, pair in lanes.items()})
            under += packed(layout, {"a": 255} | {k: pair[1] for k, pair in lanes.items()})
    return Picture(256, 64, layout, bytes(under)), Picture(256, 64, badge_layout, bytes(over))


def background(rng, width, height, layout):
    pixels = bytearray(rng.randbytes(4 * width * height))
    pixels[LANES[layout].index("a")::4] = b"\xff" * (width * height)
    return Picture(width, height, layout, bytes(pixels))


def badge(rng, width, height, layout):
    """Any bytes; a third of the badges has only alphas of 0 and 255."""
    pixels = bytearray(rng.randbytes(4 * width * height))
    if rng.random() < 1 / 3:
        place = LANES[layout].index("a")
        pixels[place::4] = bytes(255 * (alpha % 2) for alpha in pixels[place::4])
    return Picture(width, height, layout, bytes(pixels))


def accepted():
    """Those that make a picture."""
    rng = random.Random(8)
    for layout in LAYOUTS:
        for badge_layout in LAYOUTS:
            yield edge_colours(layout, badge_layout)
            # 63 to 65 and 127 to 129 pixels: around one block of the library's and two
            sizes = [(1, 1), (1, 7), (7, 1), (63, 1), (1, 64), (5, 13), (127, 1), (2, 64), (43, 3)]
            sizes += [(rng.randint(1, 40), rng.randint(1, 12)) for _ in range(12)]
            if badge_layout == (layout + 1) % 3:
                sizes += [(16384, 1), (1, 16384)]
            for width, height in sizes:
                yield background(rng, width, height, layout), badge(rng, width, height, badge_layout)


#: What can be wrong: the step in which it is done, sizes first and lengths last, and what it makes of a case.
Slip = namedtuple("Slip", "step done")


def slip_word(which, field, value):
    """A side or a layout that is none; the bytes stay."""
    return Slip(1, lambda rng, case: replaced(case, which, **{field: value}))


def slip_size(which, width, height):
    """Another size, and bytes that fit it."""
    make = (background, badge)[which]
    return Slip(0, lambda rng, case: replaced(case, which, **make(rng, width, height, case[which].layout)._asdict()))


def slip_alpha(place, alpha):
    """An alpha byte of the background: the first, the middle or the last."""
    def done(_, case):
        pixels = bytearray(case[0].pixels)
        at = (0, len(pixels) // 8 * 4, len(pixels) - 4)[place] + LANES[case[0].layout % 3].index("a")
        pixels[at] = alpha
        return replaced(case, 0, pixels=bytes(pixels))
    return Slip(2, done)


def slip_length(which, more):
    """So many bytes more or fewer."""
    def done(_, case):
        pixels = case[which].pixels
        return replaced(case, which, pixels=pixels + bytes(range(1, 1 + more)) if more > 0 else pixels[:more])
    return Slip(3, done)


def replaced(case, which, **fields):
    case = list(case)
    case[which] = case[which]._replace(**fields)
    return tuple(case)


WIDTH, HEIGHT = 3, 4


def slips():
    """Of pictures 3 by 4."""
    for which in (0, 1):
        yield from (slip_word(which, "layout", word) for word in (3, 2 ** 32 - 1))
        for side in ("width", "height"):
            yield from (slip_word(which, side, length) for length in (0, 16385, 2 ** 32 - 1))
        # One byte, one row; nothing at all is one of them where the rest is cut too.
        yield from (slip_length(which, more) for more in (-1, 1, -4 * WIDTH, 4 * WIDTH, -4 * WIDTH * HEIGHT))
        # Another width, another height, sides exchanged, and other sides of as many pixels.
        yield from (slip_size(which, *size) for size in ((WIDTH + 1, HEIGHT), (WIDTH, HEIGHT - 1), (HEIGHT, WIDTH), (2, 6), (12, 1)))
    yield from (slip_alpha(place, alpha) for place in range(3) for alpha in (0, 254))


def refused():
    """Every slip and every two of them, in layouts that turn."""
    rng, all_slips = random.Random(9), list(slips())
    for i, some in enumerate([(slip,) for slip in all_slips] + list(combinations(all_slips, 2))):
        case = background(rng, WIDTH, HEIGHT, i % 3), badge(rng, WIDTH, HEIGHT, i // 3 % 3)
        for slip in sorted(some, key=lambda slip: slip.step):
            case = slip.done(rng, case)
        yield case
    yield from wrapping(rng)


def wrapping(rng):
    """Sides whose product, and four times it, is a multiple of 2^32, with no bytes; and 2 by 3 with 3 by 2."""
    for sides in ((2 ** 16, 2 ** 16), (2 ** 31, 2 ** 31), (2 ** 15, 2 ** 15)):
        yield Picture(*sides, RGBA, b""), badge(rng, 1, 1, RGBA)
        yield background(rng, 1, 1, RGBA), Picture(*sides, RGBA, b"")
    yield background(rng, 2, 3, ARGB), badge(rng, 3, 2, BGRA)


# ---- Wrong programs


def wrong_pixel(pixel):
    return lambda under, over: (number_of(under, over), under.pixels if number_of(under, over) else laid(under, over, pixel))


def wrong_colour(colour):
    """Another formula between the alphas 0 and 255."""
    def pixel(under, over):
        if over["a"] in (0, 255):
            return laid_pixel(under, over)
        return {"a": 255} | {k: colour(over["a"], over[k], under[k]) for k in "bgr"}
    return wrong_pixel(pixel)


def badge_in_other_layout(under, over):
    number = number_of(under, over)
    return number, under.pixels if number else laid(under, over._replace(layout=under.layout))


def result_in_other_layout(under, over):
    number, pixels = answer(under, over)
    if number:
        return number, pixels
    return 0, b"".join(packed(over.layout, lanes_of(under.layout, pixels[at:at + 4])) for at in range(0, len(pixels), 4))


def wrong_order(*numbers):
    order = [next(cause for cause in CAUSES if cause[0] == number) for number in numbers]

    def wrong(under, over):
        number = number_of(under, over, order)
        return number, under.pixels if number else laid(under, over)
    return wrong


def one_after_the_other(under, over):
    """The background's size and length before the badge's."""
    alone = [number_of(p, p, CAUSES[:3]) for p in (under, over)]
    number = 100 if 100 in alone else alone[0] or alone[1] or number_of(under, over)
    return number, under.pixels if number else laid(under, over)


def as_many_pixels(under, over):
    number = number_of(under, over)
    if number != 15 or under.width * under.height != over.width * over.height:
        return answer(under, over)
    return (16, under.pixels) if not_opaque(under, over) else (0, laid(under, over))


def without(wanted):
    """One cause is not looked for."""
    return wrong_order(*(number for number, _ in CAUSES if number != wanted))


def written_though_refused(under, over):
    number = number_of(under, over)
    return number, laid(under, over) if number in (0, 16) else under.pixels


def written_up_to_it(under, over):
    """Tested pixel by pixel: what stands before the pixel that is not opaque is written."""
    number = number_of(under, over)
    if number != 16:
        return answer(under, over)
    alphas = under.pixels[LANES[under.layout].index("a")::4]
    first = 4 * next(i for i, alpha in enumerate(alphas) if alpha != 255)
    return 16, laid(under, over)[:first] + under.pixels[first:]


WRONG = {
    "alphas exchanged": wrong_colour(lambda a, c, d: MATTED[255 - a][c] + MATTED[a][d]),
    "256 less the alpha": wrong_colour(lambda a, c, d: matte(c, a) + matte(d, 256 - a)),
    "one rounding": wrong_colour(lambda a, c, d: (65793 * (c * a + d * (255 - a)) + 2 ** 23) // 2 ** 24),
    "nothing rounded": wrong_colour(lambda a, c, d: c * 65793 * a // 2 ** 24 + d * 65793 * (255 - a) // 2 ** 24),
    "the badge's alpha kept": wrong_pixel(lambda under, over: laid_pixel(under, over) | ({"a": over["a"]} if over["a"] else {})),
    "alpha 0 taken for 255": wrong_pixel(lambda under, over: over | {"a": 255} if over["a"] == 0 else laid_pixel(under, over)),
    "the badge in the background's layout": badge_in_other_layout,
    "the result in the badge's layout": result_in_other_layout,
    "1 before 100": wrong_order(1, 100, 3, 15, 16),
    "3 before 1": wrong_order(100, 3, 1, 15, 16),
    "15 before 3": wrong_order(100, 1, 15, 3, 16),
    "15 before 1": wrong_order(100, 15, 1, 3, 16),
    "16 before 15": wrong_order(100, 1, 3, 16, 15),
    "one picture after the other": one_after_the_other,
    "as many pixels for equal sizes": as_many_pixels,
    "16 not looked for": without(16),
    "written although refused": written_though_refused,
    "written up to the refusal": written_up_to_it,
}


def tried(wrong, case):
    """A wrong program may stumble over a case: that tells it apart too."""
    try:
        return wrong(*case)
    except (IndexError, KeyError):
        return None


# ---- What crates/badge_trials prints

#: Six pixels 0xAARRGGBB of a badge, and those of the background under them.
TRIAL_BADGE = (0x000180fe, 0x01ff00fe, 0x7fff0180, 0x80ff0180, 0xfe00ff7f, 0xff0280fd)
TRIAL_UNDER = (0xfffe7f02, 0xffff0001, 0xff00ff7f, 0xff00ff7f, 0xffff0080, 0xff112233)


def of_words(layout, words, width, height):
    lanes = ({"a": word >> 24, "r": word >> 16 & 255, "g": word >> 8 & 255, "b": word & 255} for word in words)
    return Picture(width, height, layout, b"".join(packed(layout, pixel) for pixel in lanes))


def trials():
    for layout in LAYOUTS:
        for badge_layout in LAYOUTS:
            yield of_words(layout, TRIAL_UNDER, 3, 2), of_words(badge_layout, TRIAL_BADGE, 3, 2)
    yield from refused_trials()


def refused_trials():
    """A background, then its badge, both of two pixels; the sizes told of them; whether the background's last pixel is opaque."""
    for sizes, last in (
            # 1: of the background, of the badge, ahead of a length and of unequal sizes
            ((0, 1, 2, 1), 255), ((2, 1, 2, 0), 255), ((3, 1, 16385, 1), 255),
            # 3: of the background, of the badge, ahead of unequal sizes and of a background that is not opaque
            ((1, 1, 2, 1), 255), ((2, 1, 2, 2), 255), ((2, 1, 3, 1), 254),
            # 15, and ahead of 16; 16
            ((2, 1, 1, 2), 255), ((1, 2, 2, 1), 254), ((2, 1, 2, 1), 254)):
        under = of_words(RGBA, (TRIAL_UNDER[0], TRIAL_UNDER[2] & 0xffffff | last << 24), *sizes[:2])
        yield under, of_words(BGRA, TRIAL_BADGE[2:4], *sizes[2:])


def trial_lines():
    for case in trials():
        number, pixels = answer(*case)
        yield f"{number:08x}"
        yield from (pixels[at:at + 4].hex() for at in range(0, len(pixels), 4))


# ---- The comparison


def fail(message):
    sys.exit(f"badge-model: FAILED: {message}")


def claims():
    """No sum passes 255, and the one formula is right at 0 and 255 too."""
    for a in range(256):
        if max(MATTED[a]) + max(MATTED[255 - a]) > 255:
            fail(f"a sum passes 255 at alpha {a}")
    for c in range(256):
        for d in range(256):
            if (MATTED[0][c] + MATTED[255][d], MATTED[255][c] + MATTED[0][d]) != (d, c):
                fail(f"the formula is not the case 0 or 255 for {c} over {d}")


def alone(cases, expected):
    claims()
    for name, wrong in WRONG.items():
        # The shortest first: one case is enough.
        if all(tried(wrong, case) == right for case, right in sorted(zip(cases, expected), key=lambda pair: len(pair[0][0].pixels))):
            fail(f"no case tells this apart: {name}")
    numbers = [number for number, _ in expected]
    for number in (0, 100, 1, 3, 15, 16):
        if number not in numbers:
            fail(f"no case is {number}")
    print(f"badge-model: the model alone; no sum passes 255, the formula serves alpha 0 and 255 too, and {len(cases)} cases tell {len(WRONG)} wrong programs apart")


def line_of(case):
    return " ".join(f"{p.width} {p.height} {p.layout} {p.pixels.hex() or '-'}" for p in case)


def compare(driver, cases, expected):
    """The library's answers are the model's; the last word is 1 where guards and badge stayed."""
    ran = subprocess.run([driver], input="".join(line_of(case) + "\n" for case in cases), stdout=subprocess.PIPE, text=True, check=False)
    answers = ran.stdout.splitlines()
    if ran.returncode or len(answers) != len(cases):
        fail(f"{len(answers)} answers to {len(cases)} cases, exit status {ran.returncode}")
    lines = [f"{number} {pixels.hex() or '-'} 1" for number, pixels in expected]
    wrong = [i for i, line in enumerate(lines) if line != answers[i]]
    for i in sorted(wrong, key=lambda i: len(lines[i]))[:5]:
        print(f"  case    {line_of(cases[i])[:300]}\n  model   {lines[i][:300]}\n  library {answers[i][:300]}", file=sys.stderr)
    if wrong:
        fail(f"{len(wrong)} of {len(cases)} cases differ")
    laid_on = [len(pixels) // 4 for number, pixels in expected if number == 0]
    print(f"badge-model: {len(laid_on)} badges laid, {sum(laid_on)} pixels in nine pairs of layouts, and {len(cases) - len(laid_on)} refused, as the model says")


def main():
    if sys.argv[1:] == ["--stdout"]:
        print("\n".join(trial_lines()))
        return
    cases = [*accepted(), *refused()]
    expected = [answer(*case) for case in cases]
    if sys.argv[1:]:
        compare(sys.argv[1], cases, expected)
    else:
        alone(cases, expected)


main()
