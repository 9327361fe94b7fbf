"""Independent reference: what weigh prints for a plan file. Python 3, standard library only.

lines(data) -> list of lines.  Written from the rules, on purpose not in the shape of the product:
recursive descent instead of a state machine, bisection instead of square roots, every whole speed
looked at for a band's cost, and walks searched from their beginning, indexed by where they END.
"""
import heapq
import struct
import sys
from functools import lru_cache

FILE_MAX = 2048
MEMORY_HORIZON = 600
BODY = {0x01: '>IIHHH', 0x02: '>BIHBB', 0x03: '>II', 0x04: '>I', 0x05: '>BIII',
        0x06: '>BBI', 0x07: '>BI', 0x08: '>B', 0x09: '>I'}


# ---------------------------------------------------------------- gaps

def greatest(allows):
    """The greatest whole T >= 0 with allows(T); allows holds at 0 and, once false, stays false."""
    assert allows(0)
    good, bad = 0, 1
    while allows(bad):
        good, bad = bad, bad * 2
    while bad - good > 1:
        mid = (good + bad) // 2
        if allows(mid):
            good = mid
        else:
            bad = mid
    return good


def gap(engine, G, bands, i, j):
    """Gap from band i to band j (counted from 0), None if absent."""
    m, M, A, D, E = engine
    upper = list(bands[1:]) + [M]
    li, lj, ui, uj = bands[i], bands[j], upper[i], upper[j]
    if j > i and not lj ** 2 < ui ** 2 + 2 * A * G:
        return None
    if j < i and not li ** 2 < uj ** 2 + 2 * D * G:
        return None
    if j > i and uj ** 2 >= ui ** 2 + 2 * A * G:
        return greatest(lambda T: (A * T + ui) ** 2 <= ui ** 2 + 2 * A * G)
    if j < i and ui ** 2 >= uj ** 2 + 2 * D * G:
        return greatest(lambda T: (D * T + uj) ** 2 <= uj ** 2 + 2 * D * G)
    X = 2 * A * D * G + D * ui ** 2 + A * uj ** 2
    if X <= (A + D) * M ** 2:
        return greatest(lambda T: (A * D * T + D * ui + A * uj) ** 2 <= (A + D) * X)
    return greatest(lambda T: 2 * A * D * M * T
                    <= 2 * A * D * G + D * (M - ui) ** 2 + A * (M - uj) ** 2)


@lru_cache(maxsize=4096)
def gap_table(engine, G, bands):
    n = len(bands)
    table = {}
    for i in range(n):
        for j in range(n):
            T = gap(engine, G, bands, i, j)
            if T is not None:
                assert 1 <= T <= 100_000_000
                table[i, j] = T
    return table


@lru_cache(maxsize=4096)
def band_costs(M, modes, bands):
    """Every whole speed from m to M is looked at once: its band is offered its mode's cost."""
    best = [0] * len(bands)
    mode = band = 0
    for speed in range(bands[0], M + 1):
        while mode + 1 < len(modes) and modes[mode + 1][0] <= speed:
            mode += 1
        while band + 1 < len(bands) and bands[band + 1] <= speed:
            band += 1
        if modes[mode][1] > best[band]:
            best[band] = modes[mode][1]
    return best


# ---------------------------------------------------------------- tasks: (costs, deadlines, gaps)

def engine_task(engine, card):
    G, share, modes, bands = card
    gaps = gap_table(engine, G, tuple(bands))
    costs = band_costs(engine[1], tuple(tuple(x) for x in modes), tuple(bands))
    deadlines = [min(T for (a, b), T in gaps.items() if a == i) for i in range(len(bands))]
    costs = [min(100_000, c + engine[4]) for c in costs]
    deadlines = [max(1, d * share // 1000) for d in deadlines]
    return costs, deadlines, gaps


def timed_task(engine, card):
    period, deadline, cost = card
    return [min(100_000, cost + engine[4])], [deadline], {(0, 0): period}


def demands(task, H):
    """Greatest demand of a walk inside t, for t = 0..H.

    arrive[g, v]: greatest demand of a walk whose gaps sum to g and that ends at v.  States are
    settled in rising g (every gap is at least 1), spread to their successors; each settled state is
    then worth its demand from t = g + deadline(v) on.
    """
    costs, deadlines, gaps = task
    leaving = {}
    for (a, b), T in gaps.items():
        if T <= H:
            leaving.setdefault(a, []).append((b, T))
    arrive = {(0, v): costs[v] for v in range(len(costs))}
    heap = list(arrive)
    heapq.heapify(heap)
    worth = [0] * (H + 1)
    while heap:
        state = heapq.heappop(heap)
        g, v = state
        value = arrive[state]
        if g + deadlines[v] <= H:
            worth[g + deadlines[v]] = max(worth[g + deadlines[v]], value)
        for b, T in leaving.get(v, ()):
            if g + T <= H:
                nxt = (g + T, b)
                if nxt not in arrive:
                    arrive[nxt] = value + costs[b]
                    heapq.heappush(heap, nxt)
                elif arrive[nxt] < value + costs[b]:
                    arrive[nxt] = value + costs[b]
    out, top = [], 0
    for w in worth:
        top = max(top, w)
        out.append(top)
    return out


# ---------------------------------------------------------------- the plan's calls

class Refused(Exception):
    def __init__(self, number):
        self.number = number


def need(condition, number):
    if not condition:
        raise Refused(number)


def within(low, x, high):
    return low <= x <= high


def rising_from(speeds, m, M):
    return (speeds[0] == m and all(a < b for a, b in zip(speeds, speeds[1:]))
            and all(s < M for s in speeds))


class Plan:
    def __init__(self):
        self.engine = (5000, 65000, 10, 10, 0)
        self.rotary = {}     # number -> [angle, share, [[lower, cost]...], [lower...]]
        self.timed = {}      # number -> [period, deadline, cost]

    def set_engine(self, m, M, A, D, E):
        need(not self.rotary and not self.timed, 13)
        need(1 <= m < M <= 150_000 and within(1, A, 500) and within(1, D, 500)
             and within(0, E, 1000), 1)
        self.engine = (m, M, A, D, E)

    def fresh(self, number):
        need(number != 0 and number not in self.rotary and number not in self.timed, 2)

    def add_engine_card(self, number, G, share, modes, bands):
        m, M = self.engine[:2]
        self.fresh(number)
        need(len(self.rotary) < 4, 3)
        need(within(M, G, 24_000_000), 4)
        need(within(1, len(modes), 8) and rising_from([lo for lo, c in modes], m, M)
             and all(within(1, c, 100_000) for lo, c in modes), 5)
        need(within(1, len(bands), 24) and rising_from(bands, m, M), 6)
        need(within(1, share, 1000), 7)
        self.rotary[number] = [G, share, [list(x) for x in modes], list(bands)]

    def add_timed_card(self, number, period, deadline, cost):
        self.fresh(number)
        need(len(self.timed) < 16, 3)
        need(within(1, period, 100_000_000) and within(1, deadline, period)
             and within(1, cost, 100_000), 7)
        self.timed[number] = [period, deadline, cost]

    def recost(self, number, index, cost):
        if number in self.rotary:
            modes = self.rotary[number][2]
            need(index < len(modes), 5)
            need(within(1, cost, 100_000), 7)
            modes[index][1] = cost
        elif number in self.timed:
            need(index == 0, 5)
            need(within(1, cost, 100_000), 7)
            self.timed[number][2] = cost
        else:
            raise Refused(8)

    def cut(self, number, speed):
        need(number in self.rotary or number in self.timed, 8)
        need(number in self.rotary, 6)
        bands = self.rotary[number][3]
        need(self.engine[0] < speed < self.engine[1], 6)
        need(speed not in bands and len(bands) < 24, 6)
        bands.append(speed)
        bands.sort()

    def drop(self, number):
        need(number in self.rotary or number in self.timed, 8)
        self.rotary.pop(number, None)
        self.timed.pop(number, None)

    def tasks(self):
        return ([engine_task(self.engine, c) for c in self.rotary.values()]
                + [timed_task(self.engine, c) for c in self.timed.values()])

    def judge(self, H):
        need(within(1, H, 20_000), 9)
        need(H <= MEMORY_HORIZON, 10)
        totals = [0] * (H + 1)
        for task in self.tasks():
            totals = [a + b for a, b in zip(totals, demands(task, H))]
        for t, total in enumerate(totals):
            if total > t:
                return 'over %d %d' % (t, total)
        return 'fits %d' % H


# ---------------------------------------------------------------- the file

class Stop(Exception):
    """The reading ends: with a number and a place, or (None) at the file's plain end."""
    def __init__(self, number=None, place=None):
        self.number, self.place = number, place


class File:
    def __init__(self, data):
        self.data, self.at = data, 0

    def record(self, wanted, open_card=None):
        """The next record if its kind is wanted: (place, kind, fields)."""
        place = self.at
        if place == len(self.data):
            raise Stop() if open_card is None else Stop(12, open_card)
        kind = self.data[place]
        if kind not in BODY:
            raise Stop(11, place)
        end = place + 1 + struct.calcsize(BODY[kind])
        if end > len(self.data):
            raise Stop(12, place)
        if kind not in wanted:
            raise Stop(13, place)
        self.at = end
        return place, kind, struct.unpack(BODY[kind], self.data[place + 1:end])


def run(data, plan):
    """Yields lines."""
    f = File(data)
    place = None

    def attempt(call, *args):
        try:
            return call(*args) or 'ok'
        except Refused as r:
            if r.number in (1, 11, 12, 13):
                raise Stop(r.number, place)
            return 'no %d at %d' % (r.number, place)

    try:
        place, kind, body = f.record({0x01})
        yield attempt(plan.set_engine, *body)
        while True:
            place, kind, body = f.record({0x02, 0x05, 0x06, 0x07, 0x08, 0x09})
            if kind == 0x02:
                number, angle, share, mode_count, band_count = body
                if not 1 <= mode_count <= 8:
                    raise Stop(5, place)
                if not 1 <= band_count <= 24:
                    raise Stop(6, place)
                modes = [f.record({0x03}, place)[2] for _ in range(mode_count)]
                bands = [f.record({0x04}, place)[2][0] for _ in range(band_count)]
                yield attempt(plan.add_engine_card, number, angle, share, modes, bands)
            else:
                call = {0x05: plan.add_timed_card, 0x06: plan.recost, 0x07: plan.cut,
                        0x08: plan.drop, 0x09: plan.judge}[kind]
                yield attempt(call, *body)
    except Stop as s:
        if s.number is not None:
            yield 'no %d at %d' % (s.number, s.place)


def lines(data):
    if len(data) > FILE_MAX:
        return ['no 10 at 2048']
    return list(run(bytes(data), Plan()))


if __name__ == '__main__':
    for line in lines(sys.stdin.buffer.read()):
        print(line)
