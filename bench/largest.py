"""Writes a road book at every limit to standard output: all 4,096 links share one chain of 16,384 points.

    python3 bench/largest.py > FILE && time crates/bookcheck/out/bookcheck < FILE > /dev/null
"""
import struct
import sys

PLACES, LINKS, POINTS, LAST = 1024, 4096, 16384, 604800

words = [1, PLACES, LINKS, POINTS, LAST]
# The links go in turn from each place but the last to itself.
for place in range(1, PLACES + 1):
    first = place if place < PLACES else 0
    words += [first, first]
for link in range(1, LINKS + 1):
    place = (link - 1) % (PLACES - 1) + 1
    following = link + PLACES - 1
    next_link = following if following <= LINKS else 0
    words += [place, place, next_link, next_link, 1, 1]
for point in range(1, POINTS + 1):
    words += [point, point + 20000, point + 1 if point < POINTS else 0]
sys.stdout.buffer.write(struct.pack(f">{len(words)}I", *words))
