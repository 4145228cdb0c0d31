#!/usr/bin/env python3
"""A reader and a writer of PAM pictures in plain Python, to compare the library with. It was written from the grammar of the request, by somebody who had read the library,
before crates/pam_trials ran: numbers are of any length, and lines and words are cut as the request says. Only 'unfinished', which the request does not have, is taken
from the library: the comment at pam_header.

  tests/pam_model.py FILE..     a line for each FILE: its name and the answers
  tests/pam_model.py LIST.rt..  a line for each trial in the calls each(rt, b"..") of a source file: a tilde ends a trial, its first line is its name;
                                and for each call length(rt, ..) and written(rt, ..) of the writer

The answers: that to the header alone, a bar, that to the whole input. Of a header: its number, or the size and the place of the first byte after it;
'unfinished' where the first line is there, every line so far is inside the form, and the end is still to come. Of the whole: its number, or the size and the
pixels in hexadecimal. Of the writer: its number, the output, then what the reader says of that.
"""
import ast
import re
import sys

BLANK = (9, 11, 12, 13, 32)
DIGITS = b"0123456789"
LARGEST_SIDE = 16384


def wrong_size(width, height):
    return not (1 <= width <= LARGEST_SIDE and 1 <= height <= LARGEST_SIDE)


def lines_of(data):
    """Each line and the place after its byte 10. What follows the last byte 10 is no line."""
    start = 0
    for place, byte in enumerate(data):
        if byte == 10:
            yield data[start:place], place + 1
            start = place + 1


def words_of(line):
    """The longest runs of bytes that are no blanks."""
    spaced = bytes(32 if byte in BLANK else byte for byte in line)
    return [word for word in spaced.split(b" ") if word]


def header_of(data):
    """The number, 0 where there is none; width, height and the place after the header; whether it is unfinished."""
    outside = (11, None, None, None, False)
    numbers = {b"WIDTH": [], b"HEIGHT": [], b"DEPTH": [], b"MAXVAL": []}
    types = []
    ended = None
    lines = list(lines_of(data))
    if not lines or lines[0][0] != b"P7":
        return outside
    for line, after in lines[1:]:
        words = words_of(line)
        if not words or line[0] == 35:
            continue
        keyword, values = words[0], words[1:]
        if keyword in numbers:
            if len(values) != 1 or any(byte not in DIGITS for byte in values[0]):
                return outside
            numbers[keyword].append(int(values[0]))
        elif keyword == b"TUPLTYPE":
            if not values:
                return outside
            types.append(values)
        elif keyword == b"ENDHDR":
            if values:
                return outside
            ended = after
            break
        else:
            return outside
    if any(len(given) > 1 for given in numbers.values()):
        return outside
    if ended is None:
        return (11, None, None, None, True)
    if any(len(given) < 1 for given in numbers.values()):
        return outside
    width, height, depth, maxval = (given[0] for given in numbers.values())
    if depth != 4 or maxval != 255 or types != [[b"RGB_ALPHA"]]:
        return (12, None, None, None, False)
    if wrong_size(width, height):
        return (1, None, None, None, False)
    return (0, width, height, ended, False)


def header_answer(data):
    number, width, height, place, unfinished = header_of(data)
    if unfinished:
        return f"{number} unfinished"
    return f"{number}" if number else f"{width} by {height} at {place}"


def whole_answer(data):
    number, width, height, place, _ = header_of(data)
    if number:
        return f"{number}"
    pixels = data[place:]
    return f"{width} by {height}, {pixels.hex()}" if len(pixels) == 4 * width * height else "3"


def answers(data):
    return f"{header_answer(data)} | {whole_answer(data)}"


def heading(width, height):
    """What the writer puts before the pixels."""
    return f"P7\nWIDTH {width}\nHEIGHT {height}\nDEPTH 4\nMAXVAL 255\nTUPLTYPE RGB_ALPHA\nENDHDR\n".encode()


def length_line(width, height):
    answer = "1" if wrong_size(width, height) else f"{len(heading(width, height)) + 4 * width * height} bytes"
    return f"length of {width} by {height}: {answer}"


def written_line(width, height, pixels, out):
    number = 0
    if wrong_size(width, height):
        number = 1
    elif len(pixels) != 4 * width * height:
        number = 3
    elif len(out) != len(heading(width, height) + pixels):
        number = 4
    after = out if number else heading(width, height) + pixels
    return f"write {width} by {height} of {len(pixels)} bytes into {len(out)}: {number} {after.hex()} | {answers(after)}"


def bytes_of(text):
    """A byte string as the source has it. A line that ends in a backslash goes on at the next one's first letter."""
    return ast.literal_eval('b"' + re.sub(r"\\\n\s*", "", text) + '"')


def lines_in(source):
    """A line for each trial of a source file, in the order in which they stand."""
    text = r'b"((?:[^"\\]|\\.)*)"'
    calls = rf"\beach\(\s*rt,\s*{text},?\s*\)|\blength\(rt, (\d+), (\d+)\)|\bwritten\(\s*rt,\s*(\d+),\s*(\d+),\s*{text},\s*&mut \[(\d+); (\d+)\],?\s*\)"
    for call in re.finditer(calls, source, re.DOTALL):
        listed, *rest = call.groups()
        if listed is not None:
            for trial in bytes_of(listed).split(b"~")[:-1]:
                name, _, data = trial.partition(b"\n")
                yield f"{name.decode()}: {answers(data)}"
        elif rest[0] is not None:
            yield length_line(int(rest[0]), int(rest[1]))
        else:
            yield written_line(int(rest[2]), int(rest[3]), bytes_of(rest[4]), bytes([int(rest[5])]) * int(rest[6]))


def main():
    for path in sys.argv[1:]:
        with open(path, "rb") as file:
            data = file.read()
        for line in lines_in(data.decode()) if path.endswith(".rt") else [f"{path}: {answers(data)}"]:
            print(line)


main()
