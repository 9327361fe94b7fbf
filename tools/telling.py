"""Random plans chosen because a single slip in the gap rules or band costs changes their lines.

Each plan is one engine card with costs at most the deadlines (so it fits alone) and a probe: a timed
card of cost 100,000 whose deadline is a tick where the slip changes the demand; over t total shows it.
"""
import types
import os
import reference as R

SLIPS = [
 ('not lj ** 2 < ui', 'not lj ** 2 <= ui'), ('not li ** 2 < uj', 'not li ** 2 <= uj'),
 ('if j > i and not lj', 'if False and not lj'), ('if j < i and not li', 'if False and not li'),
 ('if j > i and uj ** 2 >=', 'if False and uj ** 2 >='), ('if j < i and ui ** 2 >=', 'if False and ui ** 2 >='),
 ('if X <= (A + D)', 'if True or X <= (A + D)'), ('if X <= (A + D)', 'if False and X <= (A + D)'),
 ('D * ui ** 2 + A * uj ** 2', 'A * ui ** 2 + D * uj ** 2'),
 ('D * (M - ui) ** 2 + A * (M - uj) ** 2', 'A * (M - ui) ** 2 + D * (M - uj) ** 2'),
 ('D * T + D * ui + A * uj', 'D * T + A * ui + D * uj'),
 ('+ [M]\n    li', '+ [M - 1]\n    li'),
 ('(A * T + ui) ** 2 <=', '(A * T + ui) ** 2 <'), ('(D * T + uj) ** 2 <=', '(D * T + uj) ** 2 <'),
 ('(A * D * T + D * ui + A * uj) ** 2 <=', '(A * D * T + D * ui + A * uj) ** 2 <'),
 ('2 * A * D * M * T\n                    <=', '2 * A * D * M * T\n                    <'),
 ('modes[mode + 1][0] <= speed', 'modes[mode + 1][0] < speed'), ('bands[band + 1] <= speed', 'bands[band + 1] < speed'),
 ('if a == i) for', 'if b == i) for'), ('min(T for (a', 'max(T for (a'),
 ('not lj ** 2 < ui ** 2 + 2 * A * G', 'not lj ** 2 < ui ** 2 + 2 * D * G'),
 ('not li ** 2 < uj ** 2 + 2 * D * G', 'not li ** 2 < uj ** 2 + 2 * A * G'),
 ('not lj ** 2 < ui', 'not uj ** 2 < ui'), ('not li ** 2 < uj', 'not ui ** 2 < uj'),
 ('not lj ** 2 < ui ** 2', 'not lj ** 2 < li ** 2'), ('not li ** 2 < uj ** 2', 'not li ** 2 < lj ** 2'),
 ('if g + deadlines[v] <= H', 'if g and g + deadlines[v] <= H'),
 ('max(1, d * share // 1000)', 'max(1, -(-d * share // 1000))'),
]


def load(text):
    m = types.ModuleType('slip')
    exec(compile(text.replace("if __name__ == '__main__':", 'if False:'), 'slip', 'exec'), m.__dict__)
    return m


def pick(rnd, m, M, k):
    return [m] + sorted(rnd.sample(range(m + 1, M), min(k, M - m - 1)))


def candidate(rnd):
    m = rnd.randint(1, rnd.choice([3, 20, 60]))
    A, D = rnd.choice([1, 2, 3, rnd.randint(1, 40)]), rnd.choice([1, 2, 3, rnd.randint(1, 40)])
    if rnd.random() < 0.4:                          # ends joined by an exact square
        a = m + rnd.randint(1, 40)
        K = rnd.choice([A, D])
        b = a + K * rnd.randint(1, 8)
        if (b * b - a * a) % (2 * K):
            return None
        G = (b * b - a * a) // (2 * K)
        if G <= b + 1:
            return None
        M = rnd.randint(b + 1, min(G, b + 60))
        bands = sorted(set([m, a, b] + pick(rnd, m, M, rnd.randint(0, 2))))
    else:
        M = m + rnd.randint(2, rnd.choice([10, 80, 300]))
        G = rnd.randint(M, M * rnd.choice([1, 2, 4, 10, 25]))
        bands = pick(rnd, m, M, rnd.randint(1, 5))
    share = rnd.choice([1000, 1000, rnd.randint(300, 1000)])
    speeds = sorted(set([m] + [s for s in bands if rnd.random() < 0.8] + pick(rnd, m, M, rnd.randint(0, 1))))[:8]
    e = (m, M, A, D, 0)
    gaps = R.gap_table(e, G, tuple(bands))
    modes = []
    for k, s in enumerate(speeds):
        end = speeds[k + 1] if k + 1 < len(speeds) else M + 1
        hold = [i for i in range(len(bands)) if bands[i] < end and (bands[i + 1] if i + 1 < len(bands) else M + 1) > s]
        top = min(max(1, min(T for (a, b), T in gaps.items() if a == i) * share // 1000) for i in hold)
        modes.append((s, rnd.choice([1, top, rnd.randint(1, top), max(1, top // 2)])))
    return e, G, share, tuple(modes), tuple(bands)


def telling(rnd, each, make, tries=60000, H=90):
    """make(e, card, t) -> bytes.  Plans until every slip is shown by `each` of them, or tries are used up."""
    src = open(os.path.join(os.path.dirname(os.path.abspath(__file__)), 'reference.py')).read()
    slips = []
    for a, b in SLIPS:
        assert src.count(a) == 1, a
        slips.append(load(src.replace(a, b)))
    shown = [0] * len(SLIPS)
    out = []
    for _ in range(tries):
        open_ones = [k for k in range(len(SLIPS)) if shown[k] < each]
        if not open_ones:
            break
        c = candidate(rnd)
        if c is None:
            continue
        e, G, share, modes, bands = c
        right = R.engine_task(e, [G, share, modes, bands])
        totals = None
        for k in open_ones:
            try:
                wrong = slips[k].engine_task(e, [G, share, modes, bands])
            except Exception:
                continue
            if wrong == right and k != 26:
                continue
            totals = totals or R.demands(right, H)
            if any(x > t for t, x in enumerate(totals)):
                break
            other = slips[k].demands(wrong, H)
            where = [t for t in range(H + 1) if other[t] != totals[t]]
            if where:
                t = where[0] if rnd.random() < 0.7 else rnd.choice(where)
                data = make(e, (G, share, modes, bands), t)
                if R.lines(data) != slips[k].lines(data):
                    shown[k] += 1
                    out.append((k, data))
                    break
    return out, shown
