"""An independent planner, straight from the rules: reads the planner's input and prints what the planner should.

It shares nothing with the engine: Dijkstra's algorithm with a heap, latest departures by bisection.
"""
import heapq
import struct
import sys

data = sys.stdin.buffer.read()
words = struct.unpack(f">{len(data) // 4}I", data)
_, places, link_count, point_count, last = words[:5]
at = 5 + 2 * places
links = [words[at + 6 * k : at + 6 * k + 6] for k in range(link_count)]
at += 6 * link_count
points = [words[at + 3 * i : at + 3 * i + 3] for i in range(point_count)]
questions = words[at + 3 * point_count :]


def chain(index):
    while index:
        yield points[index - 1][:2]
        index = points[index - 1][2]


chains = [list(chain(link[5])) for link in links]


def arrival(k, tick):
    (departure, first), *_ = chains[k]
    if tick <= departure:
        return first
    for (x, y), (u, v) in zip(chains[k], chains[k][1:]):
        if tick <= u:
            return y + (tick - x) * (v - y) // (u - x)
    return None


def latest(k, tick):
    low, high, found = 0, last, None
    while low <= high:
        middle = (low + high) // 2
        reached = arrival(k, middle)
        if reached is not None and reached <= tick:
            low, found = middle + 1, middle
        else:
            high = middle - 1
    return found


def turned(k, tick):
    departure = latest(k, last - tick)
    return None if departure is None else last - departure


def search(tail, head, arrives, start, tick):
    """The earliest arrival at each place that is reached."""
    out = {}
    for k, link in enumerate(links):
        out.setdefault(link[tail], []).append(k)
    found, queue, done = {start: tick}, [(tick, start)], set()
    while queue:
        _, place = heapq.heappop(queue)
        if place in done:
            continue
        done.add(place)
        for k in out.get(place, []):
            reached, there = arrives(k, found[place]), links[k][head]
            if reached is not None and reached < found.get(there, last + 1):
                found[there] = reached
                heapq.heappush(queue, (reached, there))
    return found


def back(tail, head, arrives, found, start, place):
    """The road list, from the destination back."""
    roads = []
    while place != start:
        k = next(
            k
            for k, link in enumerate(links)
            if link[head] == place and link[tail] in found and arrives(k, found[link[tail]]) == found[place]
        )
        roads.append(k + 1)
        place = links[k][tail]
    return roads


for q in range(0, len(questions), 4):
    kind, start, destination, tick = questions[q : q + 4]
    if kind == 1:
        found = search(0, 1, arrival, start, tick)
        goal, answer = destination, found.get(destination)
        roads = back(0, 1, arrival, found, start, destination)[::-1] if goal in found else []
    else:
        found = search(1, 0, turned, destination, last - tick)
        goal, answer = start, last - found.get(start, 0)
        roads = back(1, 0, turned, found, destination, start) if goal in found else []
    if goal not in found:
        print("none", len(found))
    else:
        taken = sum(reached <= found[goal] for reached in found.values())
        print("found", answer, len(roads), taken, *roads)
