"""Writes a road book of 1,000 places with questions after it to standard output: the planner's input.

    python3 bench/random_book.py SEED QUESTIONS > FILE
"""
import random
import struct
import sys

PLACES, LINKS, CHAINS, LAST = 1000, 2300, 20, 100000

seed, questions = int(sys.argv[1]), int(sys.argv[2])
rng = random.Random(seed)


def near(place):
    head = min(PLACES, max(1, place + rng.randint(-30, 30)))
    return head if head != place else place % PLACES + 1


# A line through all places, and links between places that are near each other, in any order.
ends = [(place, place + 1) for place in range(1, PLACES)]
while len(ends) < LINKS:
    tail = rng.randint(1, PLACES)
    ends.append((tail, near(tail)))
rng.shuffle(ends)

# The links share a few chains of three points.
points, chains = [], []
for _ in range(CHAINS):
    floor, first = rng.randint(10, 60), len(points) + 1
    for number, departure in enumerate([0, 50000, 99000]):
        points.append([departure, departure + floor + rng.randint(0, 40), first + number + 1 if number < 2 else 0])
    chains.append((floor, first))


def lowest(end, place, after):
    """The lowest link after link `after` with that end at the place, or 0."""
    return next((k + 1 for k in range(after, LINKS) if ends[k][end] == place), 0)


words = [1, PLACES, LINKS, len(points), LAST]
for place in range(1, PLACES + 1):
    words += [lowest(0, place, 0), lowest(1, place, 0)]
for k, (tail, head) in enumerate(ends):
    floor, first = rng.choice(chains)
    words += [tail, head, lowest(0, tail, k + 1), lowest(1, head, k + 1), floor, first]
for point in points:
    words += point
for number in range(questions):
    kind = number % 2 + 1
    tick = rng.randint(0, 40000) if kind == 1 else rng.randint(40000, LAST)
    words += [kind, rng.randint(1, PLACES), rng.randint(1, PLACES), tick]
sys.stdout.buffer.write(struct.pack(f">{len(words)}I", *words))
