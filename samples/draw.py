#!/usr/bin/env python3
# draw.py [--pam] WIDTH HEIGHT: a badge, a gradient with a translucent disc, as raw RGBA rows or as a PAM picture. The samples here are drawn by it, and the
# pixels of crates/preview/stdin.
import sys

words = sys.argv[1:]
pam = words[:1] == ["--pam"]
width, height = map(int, words[pam:])
rows = bytearray()
if pam:
    rows += b"P7\nWIDTH %d\nHEIGHT %d\nDEPTH 4\nMAXVAL 255\nTUPLTYPE RGB_ALPHA\nENDHDR\n" % (width, height)
for y in range(height):
    for x in range(width):
        inside = (2 * x + 1 - width) ** 2 + (2 * y + 1 - height) ** 2 < min(width, height) ** 2
        alpha = 96 + 5 * y % 160 if inside else 255
        rows += bytes((255 * x // max(width - 1, 1), 255 * y // max(height - 1, 1), 128, alpha))
sys.stdout.buffer.write(rows)
