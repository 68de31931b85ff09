"""What the peers in Python share: the network file, the repairs by the papers' inequalities, the plan's text, and the times.

A peer is run as

    PEER CALL FILE            prints the plan
    PEER CALL FILE --times    prints the microseconds of all pairs, of the repairs, and of the plan, separated by tabs

where CALL is the name of a call of its library that works out all distances.
"""

import struct
import sys
import time

# The cost of a direction under maintenance, over which no repair starts.
MAINTENANCE = 65_535

# How many samples a time is the median of, and the least nanoseconds of a sample: as in the benchmark.
SAMPLES = 31
LEAST_SAMPLE = 200_000


class Network:
    """The routers and links of a network file, and the number of its prefixes; nothing is checked."""

    def __init__(self, path):
        with open(path, "rb") as opened:
            file = opened.read()
        self.routers, links, self.prefixes = struct.unpack_from("<BxHH", file, 4)
        places = (512 * (1 + k // 84) + 4 + 6 * (k % 84) for k in range(links))
        self.links = [struct.unpack_from("<BBHH", file, place) for place in places]
        self.neighbours = [[] for _ in range(self.routers)]
        for tail, head, cost in self.arcs():
            self.neighbours[tail].append((head, cost))

    def arcs(self):
        """Both directions of each link, with their costs."""
        return [arc for a, b, out, back in self.links for arc in ((a, b, out), (b, a, back))]


def ends_of_repairs(rows, near, far, out, back):
    """The routers, neither S nor E, that avoid the link on the way to E, each with whether it is nearer to E than S is."""
    from_near, from_far = rows[near], rows[far]
    ends = []
    for y, row in enumerate(rows):
        own = row[far]
        over, under = row[near] + out + from_far[far], row[far] + back + from_near[far]
        if own < over and own < under and y != near and y != far:
            ends.append((y, own < from_near[far]))
    return ends


def repair(neighbours, rows, near, far, out, back):
    """The first of the pairs that serve, as (class, D(S,y), y, tunnel cost, n), which is their order, or None."""
    from_near, from_far = rows[near], rows[far]
    ends = ends_of_repairs(rows, near, far, out, back)
    best = None
    for hop, cost in neighbours[near]:
        if hop == far or cost >= MAINTENANCE:
            continue
        row = rows[hop]
        over, under = row[near] + out, row[far] + back
        for y, nearer in ends:
            own = row[y]
            if own < over + from_far[y] and own < under + from_near[y]:
                pair = (4 + 2 * (y != hop) + (not nearer), from_near[y], y, cost + own, hop)
                if best is None or pair < best:
                    best = pair
    return best


def repairs(network, rows):
    """The repair of each link and end; rows[x][y] is D(x,y), and infinite where no path leads."""
    answers = []
    for a, b, out, back in network.links:
        answers.append(repair(network.neighbours, rows, a, b, out, back))
        answers.append(repair(network.neighbours, rows, b, a, back, out))
    return answers


def plan_text(network, answers):
    """The text of the plan, as the program `plan` prints it."""
    lines = [f"plan {network.routers} {len(network.links)} {network.prefixes}"]
    for place, answer in enumerate(answers):
        link, end = divmod(place, 2)
        near, far = network.links[link][end], network.links[link][1 - end]
        last = "none none none none"
        if answer is not None:
            pair_class, _, y, cost, hop = answer
            last = f"{hop} {y} {pair_class} {int(cost)}"
        lines.append(f"{link} {end} {near} {far} {last}")
    return "\n".join(lines) + "\n"


def sample(call, count):
    """Nanoseconds of so many calls."""
    start = time.perf_counter_ns()
    for _ in range(count):
        call()
    return time.perf_counter_ns() - start


def microseconds(call):
    """The median time of a call over all samples, each of as many calls as make it long enough."""
    count = 1
    while sample(call, count) < LEAST_SAMPLE:
        count *= 2
    times = sorted(sample(call, count) / count for _ in range(SAMPLES))
    return times[SAMPLES // 2] / 1000


def run(build, calls):
    """Runs a peer: `build` makes the library's graph, `calls` has, for each name, the call for all pairs and what turns its
    answer into rows of numbers."""
    name, path = sys.argv[1], sys.argv[2]
    network = Network(path)
    graph = build(network)
    all_pairs, rows_of = calls[name]

    def all_repairs(answer):
        return repairs(network, rows_of(network, answer))

    def plan():
        return plan_text(network, all_repairs(all_pairs(graph)))

    if sys.argv[3:] == ["--times"]:
        answer = all_pairs(graph)
        parts = [lambda: all_pairs(graph), lambda: all_repairs(answer), plan]
        print("\t".join(f"{microseconds(part):.1f}" for part in parts))
    else:
        sys.stdout.write(plan())
