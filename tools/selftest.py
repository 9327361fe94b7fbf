"""Checks of reference.py: the worked examples, and second and third ways of computing."""
import random
from math import isqrt
import reference as R
from selftest_sample import SAMPLE


def gap_by_roots(e, G, bands, i, j):
    m, M, A, D, E = e
    up = list(bands[1:]) + [M]
    a, b = up[i], up[j]
    if i < j:
        if bands[j] ** 2 >= a * a + 2 * A * G: return None
        if b * b >= a * a + 2 * A * G: return (isqrt(a * a + 2 * A * G) - a) // A
    if i > j:
        if bands[i] ** 2 >= b * b + 2 * D * G: return None
        if a * a >= b * b + 2 * D * G: return (isqrt(b * b + 2 * D * G) - b) // D
    X = 2 * A * D * G + D * a * a + A * b * b
    if X <= (A + D) * M * M:
        return (isqrt((A + D) * X) - D * a - A * b) // (A * D)
    return (2 * A * D * G + D * (M - a) ** 2 + A * (M - b) ** 2) // (2 * A * D * M)


def cost_by_ranges(M, modes, bands):
    out = []
    for k, l in enumerate(bands):
        u = bands[k + 1] if k + 1 < len(bands) else M + 1
        best = 0
        for q, (lo, c) in enumerate(modes):
            hi = modes[q + 1][0] if q + 1 < len(modes) else M + 1
            if max(lo, l) < min(hi, u): best = max(best, c)
        out.append(best)
    return out


def demand_from_start(task, H):
    """The obvious table: best walk starting at v inside t."""
    cost, dead, gaps = task
    n = len(cost)
    tab = [[0] * n for _ in range(H + 1)]
    for t in range(H + 1):
        for v in range(n):
            best = cost[v] if dead[v] <= t else 0
            for u in range(n):
                T = gaps.get((v, u))
                if T is not None and T <= t and tab[t - T][u]:
                    best = max(best, cost[v] + tab[t - T][u])
            tab[t][v] = best
    return [max(r, default=0) for r in tab]


def demand_by_walks(task, H):
    """Every walk spelled out (small cases only)."""
    cost, dead, gaps = task
    best = [0] * (H + 1)
    count = 0
    def go(v, g, c):
        nonlocal count
        count += 1
        if count > 15000: raise OverflowError
        for t in range(g + dead[v], H + 1): best[t] = max(best[t], c)
        for u in range(len(cost)):
            T = gaps.get((v, u))
            if T is not None and g + T <= H: go(u, g + T, c + cost[u])
    for v in range(len(cost)): go(v, 0, cost[v])
    return best


def main():
    assert len(SAMPLE) == 97
    assert R.lines(SAMPLE) == ['ok', 'ok', 'over 2 3', 'ok', 'fits 20', 'ok', 'over 12 13', 'ok',
                               'fits 20', 'no 8 at 95'], R.lines(SAMPLE)
    P = (100, 400, 2, 3, 0)
    assert R.gap_table(P, 1000, (100, 200)) == {(0, 0): 4, (0, 1): 4, (1, 0): 4, (1, 1): 2}
    g = R.gap_table(P, 1000, (100, 200, 300))
    assert g == {(0, 0): 4, (0, 1): 4, (1, 0): 4, (1, 1): 3, (1, 2): 3, (2, 1): 3, (2, 2): 2}, g
    c, d, _ = R.engine_task(P, [1000, 1000, [[100, 3], [300, 1]], [100, 200, 300]])
    assert (c, d) == ([3, 3, 1], [4, 3, 2])
    b3 = (100, 200, 300)
    assert R.gap(P, 12500, b3, 0, 2) is None and R.gap(P, 12501, b3, 0, 2) is not None
    h = (5000, 65000, 10, 10, 0)
    assert R.gap(h, 6_000_000, (5000, 25000), 1, 1) == 92 and R.gap(h, 6_000_000, (5000, 25000), 0, 0) == 234
    for E, share, want in ((1, 1000, 'over 3 4'), (0, 500, 'over 1 3')):
        p = R.Plan()
        p.set_engine(100, 400, 2, 3, E)
        p.add_engine_card(7, 1000, share, [(100, 3), (300, 1)], [100, 200])
        p.cut(7, 300)
        assert p.judge(20) == want, p.judge(20)
    assert R.lines(b'') == [] and R.lines(bytes(2049)) == ['no 10 at 2048']
    assert R.lines(bytes(2048)) == ['no 11 at 0']

    rnd = random.Random(7)
    walks = rules = 0
    for n in range(4000):
        m = rnd.randint(1, rnd.choice([5, 200, 50000]))
        M = m + rnd.randint(1, rnd.choice([10, 500, 100000]))
        A, D = rnd.randint(1, rnd.choice([3, 40, 500])), rnd.randint(1, rnd.choice([3, 40, 500]))
        G = min(24_000_000, rnd.randint(M, M * rnd.choice([1, 3, 20, 400])))
        pick = lambda k: tuple([m] + sorted(rnd.sample(range(m + 1, M), min(k, M - m - 1))))
        bands = pick(rnd.randint(0, 6))
        e = (m, M, A, D, rnd.choice([0, 0, 1, 1000]))
        for i in range(len(bands)):
            for j in range(len(bands)):
                assert R.gap(e, G, bands, i, j) == gap_by_roots(e, G, bands, i, j)
                rules += 1
        modes = tuple((s, rnd.randint(1, 30)) for s in pick(rnd.randint(0, 4)))
        if n % 8 == 0 or M < 5000:
            assert R.band_costs(M, modes, bands) == cost_by_ranges(M, modes, bands)
            task = R.engine_task(e, [G, rnd.choice([1000, rnd.randint(1, 1000)]), modes, bands])
            H = rnd.randint(1, 60)
            got = R.demands(task, H)
            assert got == demand_from_start(task, H)
            try:
                assert got == demand_by_walks(task, min(H, 60))
                walks += 1
            except OverflowError:
                h = min(H, 8)
                try:
                    assert got[:h + 1] == demand_by_walks(task, h)
                    walks += 1
                except OverflowError:
                    pass
    for n in range(300):
        p = rnd.randint(1, 20); d = rnd.randint(1, p); c = rnd.randint(1, 9)
        t = R.timed_task((1, 2, 1, 1, 0), [p, d, c])
        assert R.demands(t, 60) == [0 if x < d else ((x - d) // p + 1) * c for x in range(61)]
    print('selftest passed: %d gaps against roots, %d tasks against every walk' % (rules, walks))


main()
