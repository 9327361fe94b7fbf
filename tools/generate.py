"""Makes bundle.bin and expected.txt from a fixed seed; prints counts."""
import collections
import os
import random
import struct
import sys
import reference as R
from selftest_sample import SAMPLE
from telling import telling

HERE = os.path.dirname(os.path.abspath(__file__))
rnd = random.Random(20250117)
plans = []          # (label, bytes)


# ---- records
def eng(m=100, M=400, A=2, D=3, E=0): return b'\x01' + struct.pack('>IIHHH', m, M, A, D, E)
def head(n, G, share, mc, bc): return b'\x02' + struct.pack('>BIHBB', n, G, share, mc, bc)
def mode(s, c): return b'\x03' + struct.pack('>II', s, c)
def band(s): return b'\x04' + struct.pack('>I', s)
def card(n, G, share, modes, bands):
    return (head(n, G, share, len(modes), len(bands)) + b''.join(mode(s, c) for s, c in modes)
            + b''.join(band(s) for s in bands))
def timed(n, p, d, c): return b'\x05' + struct.pack('>BIII', n, p, d, c)
def recost(n, i, c): return b'\x06' + struct.pack('>BBI', n, i, c)
def cut(n, s): return b'\x07' + struct.pack('>BI', n, s)
def drop(n): return b'\x08' + struct.pack('>B', n)
def judge(h): return b'\x09' + struct.pack('>I', h)


def put(label, *parts, ends=None):
    """ends: the hand-worked last line, checked here."""
    data = b''.join(parts)
    if ends is not None:
        got = R.lines(data)
        assert (got[-1] if got else '') == ends, (label, got, ends)
    plans.append((label, data))


BIG = 0xFFFFFFFF
C7 = card(7, 1000, 1000, [(100, 3), (300, 1)], [100, 200])
c1 = lambda n, G=1000, share=1000, c=1: card(n, G, share, [(100, c)], [100])

# ---- the sample and other worked plans
put('sample', SAMPLE, ends='no 8 at 95')
put('over with E', eng(E=1), C7, cut(7, 300), judge(20), ends='over 3 4')
put('over with share', eng(), card(7, 1000, 500, [(100, 3), (300, 1)], [100, 200]), cut(7, 300),
    judge(20), ends='over 1 3')
put('empty', ends='')

# ---- engine limits
for label, args, ok in [
        ('m 0', (0, 400, 2, 3, 0), 0), ('m 1', (1, 2, 1, 1, 0), 1), ('m = M', (400, 400, 2, 3, 0), 0),
        ('m > M', (401, 400, 2, 3, 0), 0), ('M 150000', (149999, 150000, 500, 500, 1000), 1),
        ('M 150001', (100, 150001, 2, 3, 0), 0), ('M huge', (100, BIG, 2, 3, 0), 0),
        ('both huge', (BIG, BIG, 2, 3, 0), 0), ('A 0', (100, 400, 0, 3, 0), 0), ('A 501', (100, 400, 501, 3, 0), 0),
        ('A 65535', (100, 400, 65535, 3, 0), 0), ('D 0', (100, 400, 2, 0, 0), 0), ('D 501', (100, 400, 2, 501, 0), 0),
        ('E 1001', (100, 400, 2, 3, 1001), 0), ('E 65535', (100, 400, 2, 3, 65535), 0)]:
    put('engine ' + label, eng(*args), judge(1), ends='fits 1' if ok else 'no 1 at 0')

# ---- the reader: every kind in every state
WHOLE = {1: eng(), 2: head(9, 1000, 1000, 1, 1), 3: mode(100, 1), 4: band(100), 5: timed(9, 9, 9, 1),
         6: recost(7, 0, 1), 7: cut(7, 300), 8: drop(7), 9: judge(5)}
opened = eng() + head(7, 1000, 1000, 2, 2)
inmodes = opened + mode(100, 3)
allmodes = inmodes + mode(300, 1)
inbands = allmodes + band(100)
states = [('start', b'', {1}), ('between', eng(), {2, 5, 6, 7, 8, 9}), ('after 02', opened, {3}),
          ('in modes', inmodes, {3}), ('modes done', allmodes, {4}), ('in bands', inbands, {4}),
          ('card done', eng() + C7, {2, 5, 6, 7, 8, 9})]
for name, before, good in states:
    for k in range(1, 10):
        if k not in good and (name not in ('in modes', 'card done') or k in (1, 3, 4, 9)):
            put('%s then %02X' % (name, k), before, WHOLE[k], ends='no 13 at %d' % len(before))
    bad = rnd.choice([0x00, 0x0A, 0x80, 0xFF])
    put('%s then unknown' % name, before, bytes([bad]), ends='no 11 at %d' % len(before))
    wrong = rnd.choice([k for k in range(1, 10) if k not in good])
    put('%s then wrong and short' % name, before, WHOLE[wrong][:-1], ends='no 12 at %d' % len(before))
    right = rnd.choice(sorted(good))
    put('%s then right and short' % name, before, WHOLE[right][:-1], ends='no 12 at %d' % len(before))
    if name in ('after 02', 'in modes', 'modes done', 'in bands'):
        put('%s then end' % name, before, ends='no 12 at 15')
put('unknown with more', eng(), C7, b'\x0A\x00\x00', judge(5), ends='no 11 at %d' % (15 + len(C7)))
put('open, would be refused', eng(), head(0, 1, 0, 1, 1), mode(1, 0), ends='no 12 at 15')
put('second engine, bad', eng(), eng(0, 0, 0, 0, 0), ends='no 13 at 15')
put('second engine after drop', eng(), timed(1, 5, 5, 1), drop(1), eng(), ends='no 13 at 31')

# ---- counts of 02
for mc, bc, n in [(0, 1, 5), (9, 1, 5), (255, 1, 5), (1, 0, 6), (1, 25, 6), (8, 255, 6), (0, 0, 5), (9, 25, 5)]:
    put('counts %d %d' % (mc, bc), eng(), C7, head(8, 1000, 1000, mc, bc), judge(5),
        ends='no %d at %d' % (n, 15 + len(C7)))
put('counts bad, number in use too', eng(), C7, head(7, 1, 0, 1, 0), drop(7), ends='no 6 at 53')
put('counts bad, number 0', eng(), head(0, 1, 0, 0, 0), ends='no 5 at 15')
put('counts bad but short', eng(), head(1, 1, 0, 0, 0)[:-1], ends='no 12 at 15')
put('counts bad but first', head(1, 1, 0, 0, 0), ends='no 13 at 0')
put('counts bad, no place', eng(), *[c1(n) for n in (1, 2, 3, 4)], head(5, 1000, 1000, 1, 25),
    ends='no 6 at %d' % (15 + 4 * 24))
put('counts greatest', eng(), card(1, 400, 1000, [(100 + i, 9 - i) for i in range(8)],
    [100 + 3 * i for i in range(24)]), judge(30))

# ---- engine card: limits one by one, then pairs
def seq(label, first, *parts, wants):
    data = first + b''.join(parts)
    got = R.lines(data)
    short = [l.split(' at ')[0] for l in got]
    assert short == wants, (label, short, wants)
    plans.append((label, data))

seq('angle limits', eng(), c1(1, 399), c1(1, 400), drop(1), c1(1, 24_000_000), c1(2, 24_000_001), c1(2, 0),
    c1(2, BIG), judge(20), wants=['ok', 'no 4', 'ok', 'ok', 'ok', 'no 4', 'no 4', 'no 4', 'fits 20'])
seq('share limits', eng(), c1(1, share=0), c1(1, share=1001), c1(1, share=65535), c1(1, share=1), judge(20),
    c1(2, share=1000), judge(20), wants=['ok', 'no 7', 'no 7', 'no 7', 'ok', 'fits 20', 'ok', 'fits 20'])
k2 = lambda n, modes, bands, G=1000, share=1000: card(n, G, share, modes, bands)
seq('mode list', eng(), k2(1, [(99, 1)], [100]), k2(1, [(101, 1)], [100]), k2(1, [(100, 0)], [100]),
    k2(1, [(100, 100_001)], [100]), k2(1, [(100, 1), (100, 1)], [100]), k2(1, [(100, 1), (99, 1)], [100]),
    k2(1, [(100, 1), (400, 1)], [100]), k2(1, [(100, 1), (401, 1)], [100]), k2(1, [(100, 1), (200, 0)], [100]),
    k2(1, [(100, 1), (300, 1), (200, 1)], [100]), k2(1, [(100, 1), (300, 1), (300, 1)], [100]),
    k2(1, [(100, 100_000), (399, 1)], [100]), judge(9),
    wants=['ok'] + ['no 5'] * 11 + ['ok', 'over 2 100000'])
seq('band list', eng(), k2(1, [(100, 1)], [99]), k2(1, [(100, 1)], [101]), k2(1, [(100, 1)], [100, 100]),
    k2(1, [(100, 1)], [100, 50]), k2(1, [(100, 1)], [100, 400]), k2(1, [(100, 1)], [100, BIG]),
    k2(1, [(100, 1)], [100, 300, 200]), k2(1, [(100, 1)], [100, 300, 300]), k2(1, [(100, 1)], [0]),
    k2(1, [(100, 1)], [100, 399]), judge(9), wants=['ok'] + ['no 6'] * 9 + ['ok', 'fits 9'])

def faulty(faults, used):
    n = used if 2 in faults else 77
    return card(n, 399 if 4 in faults else 1000, 0 if 7 in faults else 1000,
                [(100, 0 if 5 in faults else 1)], [99 if 6 in faults else 100])
subsets = [[f for k, f in enumerate((2, 4, 5, 6, 7)) if s >> k & 1] for s in range(1, 32)]
seq('engine card, faults together', eng(), timed(5, 9, 9, 1), *[faulty(s, rnd.choice([0, 5])) for s in subsets],
    judge(9), wants=['ok', 'ok'] + ['no %d' % s[0] for s in subsets] + ['fits 9'])
full4 = eng() + b''.join(c1(n, share=900 + n) for n in (1, 2, 3, 4))
seq('fifth engine card, faults together', full4, *[faulty(s, rnd.choice([0, 3])) for s in subsets if len(s) < 3],
    judge(9), wants=['ok'] * 5 + ['no %d' % (2 if s[0] == 2 else 3) for s in subsets if len(s) < 3]
    + ['over 1 4'])     # gap 2, deadline 1, cost 1, four times
seq('fifth engine card', full4, c1(5), timed(5, 50, 40, 1), drop(2), c1(5), c1(2), c1(4), drop(5), c1(2), c1(6),
    drop(9), judge(30),
    wants=['ok'] * 5 + ['no 3', 'ok', 'ok', 'no 2', 'ok', 'no 2', 'ok', 'no 2', 'no 3', 'no 8', 'over 1 3'])

# ---- timed card
seq('timed limits', eng(), timed(1, 0, 0, 1), timed(1, 5, 0, 1), timed(1, 5, 6, 1), timed(1, 100_000_001, 5, 1),
    timed(1, 100_000_000, 100_000_000, 1), timed(2, 5, 5, 0), timed(2, 5, 5, 100_001), timed(2, 600, 600, 100_000),
    timed(3, BIG, 5, 1), timed(3, 1, 1, 1), timed(2, 0, 0, 0), timed(0, 0, 0, 0), timed(0, 5, 5, 1), judge(599), judge(600),
    wants=['ok', 'no 7', 'no 7', 'no 7', 'no 7', 'ok', 'no 7', 'no 7', 'ok', 'no 7', 'ok', 'no 2', 'no 2', 'no 2',
           'fits 599', 'over 600 100600'])
full16 = eng(1, 2, 1, 1, 0) + b''.join(timed(n, 40, 20 + n, 2) for n in range(1, 17))
seq('seventeenth timed card', full16, judge(60), timed(17, 9, 9, 1), timed(16, 9, 9, 1), timed(0, 9, 9, 1),
    timed(17, 0, 9, 0), card(16, 2, 1000, [(1, 1)], [1]), card(17, 2, 1000, [(1, 1)], [1]), timed(18, 9, 9, 1),
    drop(16), timed(18, 9, 9, 1), timed(16, 9, 9, 1), judge(60),
    wants=['ok'] * 17 + [R.lines(full16 + judge(60))[-1], 'no 3', 'no 2', 'no 2', 'no 3', 'no 2', 'ok', 'no 3', 'ok',
    'ok', 'no 3', R.lines(full16 + card(17, 2, 1000, [(1, 1)], [1]) + drop(16) + timed(18, 9, 9, 1) + judge(60))[-1]])

# ---- recost, cut, drop, judge
seq('recost', eng(), C7, timed(9, 10, 10, 1), recost(8, 9, 0), recost(0, 0, 1), recost(7, 2, 1), recost(7, 2, 0),
    recost(7, 255, 1), recost(7, 0, 0), recost(7, 0, 100_001), recost(7, 1, BIG), recost(9, 1, 1), recost(9, 1, 0),
    recost(9, 0, 0), recost(9, 0, 100_001), judge(20), recost(7, 0, 1), judge(20), recost(7, 1, 100_000), judge(20),
    recost(7, 1, 1), recost(9, 0, 10), judge(20), recost(9, 0, 100_000), judge(20), drop(9), recost(9, 0, 1), drop(9),
    wants=['ok', 'ok', 'ok', 'no 8', 'no 8', 'no 5', 'no 5', 'no 5', 'no 7', 'no 7', 'no 7', 'no 5', 'no 5', 'no 7', 'no 7',
    'over 2 3', 'ok', 'fits 20', 'ok', 'over 2 100000', 'ok', 'ok', 'over 10 15', 'ok', 'over 10 100005', 'ok', 'no 8', 'no 8'])
seq('cut', eng(), C7, timed(9, 10, 10, 1), cut(8, 100), cut(0, 300), cut(9, 300), cut(9, 0), cut(7, 100), cut(7, 200),
    cut(7, 400), cut(7, 0), cut(7, 99), cut(7, 401), cut(7, BIG), cut(7, 300), cut(7, 300), cut(7, 101), cut(7, 399),
    judge(40), drop(7), cut(7, 300), wants=['ok', 'ok', 'ok', 'no 8', 'no 8', 'no 6', 'no 6', 'no 6', 'no 6', 'no 6', 'no 6',
    'no 6', 'no 6', 'no 6', 'ok', 'no 6', 'ok', 'ok',
    R.lines(eng() + C7 + timed(9, 10, 10, 1) + cut(7, 101) + cut(7, 300) + cut(7, 399) + judge(40))[-1], 'ok', 'no 8'])
b22 = [100 + 13 * i for i in range(22)]
seq('cut at 24 bands', eng(), card(3, 2500, 1000, [(100, 9), (250, 4)], b22), cut(3, 105), judge(40), cut(3, 390), judge(40),
    cut(3, 395), cut(3, 390), cut(3, 106), recost(3, 0, 5), judge(60), drop(3), card(3, 2500, 900, [(100, 4)], [100]),
    cut(3, 395), judge(60), wants=['ok', 'ok', 'ok',
    R.lines(eng() + card(3, 2500, 1000, [(100, 9), (250, 4)], b22) + cut(3, 105) + judge(40))[-1], 'ok',
    R.lines(eng() + card(3, 2500, 1000, [(100, 9), (250, 4)], b22) + cut(3, 105) + cut(3, 390) + judge(40))[-1],
    'no 6', 'no 6', 'no 6', 'ok',
    R.lines(eng() + card(3, 2500, 1000, [(100, 5), (250, 4)], b22) + cut(3, 105) + cut(3, 390) + judge(60))[-1], 'ok', 'ok',
    'ok', R.lines(eng() + card(3, 2500, 900, [(100, 4)], [100, 395]) + judge(60))[-1]])
seq('drop', eng(), drop(0), drop(1), timed(255, 9, 9, 9), drop(255), drop(255), timed(255, 9, 9, 9), c1(254), drop(254),
    drop(254), c1(255), drop(255), c1(255, c=2), judge(50), wants=['ok', 'no 8', 'no 8', 'ok', 'ok', 'no 8', 'ok', 'ok', 'ok',
    'no 8', 'no 2', 'ok', 'ok', 'fits 50'])
seq('horizons', eng(), judge(0), judge(1), judge(600), judge(601), judge(20_000), judge(20_001), judge(BIG), timed(1, 1, 1, 2),
    judge(0), judge(601), judge(20_001), judge(600), wants=['ok', 'no 9', 'fits 1', 'fits 600', 'no 10', 'no 10', 'no 9', 'no 9', 'ok',
    'no 9', 'no 10', 'no 9', 'over 1 2'])
seq('entry stops at 100000', eng(1, 2, 1, 1, 1000), timed(1, 1000, 7, 99_000), judge(9), recost(1, 0, 99_001), judge(9),
    recost(1, 0, 98_999), judge(9), card(2, 2, 1, [(1, 100_000)], [1]), judge(3), wants=['ok', 'ok', 'over 7 100000', 'ok',
    'over 7 100000', 'ok', 'over 7 99999', 'ok', 'over 1 100000'])

# ---- valid random plans
def pick(m, M, k):
    return [m] + sorted(rnd.sample(range(m + 1, M), min(k, M - m - 1)))

def a_engine():
    r = rnd.random()
    if r < 0.12:
        return (5000, 65000, 10, 10, rnd.choice([0, 0, 1, 5]))
    if r < 0.2:
        M = rnd.choice([150_000, rnd.randint(2000, 150_000)])
        return (rnd.randint(1, M // 3), M, rnd.choice([1, 500, rnd.randint(1, 500)]), rnd.choice([1, 500, rnd.randint(1, 500)]),
                rnd.choice([0, 1, 10]))
    m = rnd.randint(1, rnd.choice([3, 20, 100]))
    M = m + rnd.randint(1, rnd.choice([3, 30, 300]))
    return (m, M, rnd.randint(1, rnd.choice([2, 10, 50])), rnd.randint(1, rnd.choice([2, 10, 50])),
            rnd.choice([0, 0, 0, 0, 1, 1, 2]))

def a_card(e, n, cards, low):
    m, M, A, D, E = e
    G = min(24_000_000, rnd.randint(M, M * rnd.choice([1, 2, 5, 5, 12, 12, 30, 90])))
    if m == 5000 and M == 65000:
        G = rnd.choice([6_000_000, 3_000_000, 12_000_000, rnd.randint(65_000, 1_000_000), rnd.randint(65_000, 24_000_000)])
    bands = pick(m, M, rnd.choice([0, 1, 1, 2, 2, 3, 4, 6, rnd.randint(0, 12)]))
    share = rnd.choice([1000, 1000, 1000, rnd.randint(500, 1000), rnd.randint(1, 1000)])
    speeds = pick(m, M, rnd.choice([0, 1, 1, 2, 3, 4]))
    if rnd.random() < 0.5:                     # modes at band ends are the delicate ones
        speeds = sorted(set([m] + [s for s in bands if rnd.random() < 0.6] + speeds[:2]))
    speeds = speeds[:8]
    gaps = R.gap_table(e, G, tuple(bands))
    least = min(gaps.values())
    room = max(1, int(least * share / 1000 * low))
    modes = []
    for k, s in enumerate(speeds):
        # a slower mode may cost more, as long as its bands' deadlines bear it
        hold = [i for i in range(len(bands)) if not (i + 1 < len(bands) and bands[i + 1] <= s)
                and not (k + 1 < len(speeds) and bands[i] >= speeds[k + 1])]
        d = min(min(T for (a, b), T in gaps.items() if a == i) for i in hold)
        top = max(1, int(d * share / 1000 * low) - e[4])
        modes.append((s, min(100_000, rnd.randint(max(1, top // 2), top))))
    return card(n, G, share, modes, bands), G, modes, bands

def valid(kind):
    e = a_engine()
    out = [eng(*e)]
    numbers = rnd.sample(range(1, 256), 22)
    engines, timeds = [], []
    low = rnd.choice([1.0, 1.0, 0.5, 0.5, 0.3, 1.3])
    for _ in range(rnd.choice([1, 1, 1, 1, 2, 2, 3])):
        n = numbers.pop()
        rec, G, modes, bands = a_card(e, n, engines, low)
        out.append(rec)
        engines.append((n, len(modes), e))
    if rnd.random() < 0.35:
        n = numbers.pop()
        p = rnd.randint(3, 60)
        out.append(timed(n, p, rnd.randint(1, p), rnd.randint(1, max(1, p // 3))))
        timeds.append(n)
    H = rnd.choice([rnd.randint(1, 120), rnd.randint(40, 120), rnd.randint(1, 600) if rnd.random() < 0.5 else 600,
                    rnd.randint(60, 120)])
    out.append(judge(H))
    for _ in range(rnd.randint(1, 4)):
        r = rnd.random()
        if r < 0.45:                           # a probe: shows the exact total at its deadline
            n = numbers.pop()
            d = rnd.randint(max(1, H // 3), H)
            out += [timed(n, 90_000_000, d, rnd.choice([d, 100_000])), judge(H), drop(n)]
        elif r < 0.6 and engines:
            n, k, e = rnd.choice(engines)
            out += [cut(n, rnd.randint(e[0], e[1])), judge(H)]
        elif r < 0.75 and engines:
            n, k, e = rnd.choice(engines)
            out += [recost(n, rnd.randint(0, k - 1), rnd.randint(1, rnd.choice([2, 5, 30]))), judge(H)]
        elif r < 0.85 and timeds:
            out += [recost(timeds[0], 0, rnd.randint(1, 6)), judge(H)]
        elif r < 0.93 and len(engines) > 1:
            n, k, e = engines.pop(rnd.randrange(len(engines)))
            out += [drop(n), judge(H)]
        else:
            out.append(judge(rnd.randint(1, H)))
    return b''.join(out)

def worth(data):
    """How telling: late overs and probes beat early overs."""
    score = 0
    for l in sorted(set(R.lines(data))):
        w = l.split()
        if w[0] == 'over':
            score += 1 + min(int(w[1]), 60) / 10
        elif w[0] == 'fits':
            score += 1.5
    return score

good = []
for k in range(110):
    good.append(max((d for d in (valid(k) for _ in range(4)) if len(d) <= 230), key=worth, default=eng() + C7))
for k, d in enumerate(good):
    put('valid %d' % k, d)

# large gaps seen through a share of a thousandth
for e, G in [((1, 2, 1, 1, 0), 300_000), ((1, 3, 1, 500, 0), 900_000), ((5000, 65000, 10, 10, 0), 24_000_000),
             ((1, 150_000, 1, 1, 0), 24_000_000), ((149_999, 150_000, 500, 500, 0), 150_000), ((1, 150_000, 500, 500, 7), 24_000_000)]:
    bands = pick(e[0], e[1], 3)
    for share in (1, 1000):
        put('large %s %d' % (e, share), eng(*e), card(1, G, share, [(e[0], 100_000)], bands), judge(600))

# ---- chosen because one slip in the gap rules or band costs shows in them
def probed(e, c, t):
    G, share, modes, bands = c
    return eng(*e) + card(1, G, share, modes, bands) + timed(2, 90_000_000, t, 100_000) + judge(t + rnd.randint(0, 5))
found, shown = telling(rnd, 3, probed)
print('slips shown:', shown)
for k, d in found:
    put('slip %d' % k, d)

# ---- damaged
for k in range(45):
    d = bytearray(min(rnd.sample(good, 3), key=len))
    for _ in range(rnd.randint(1, 2)):
        r, at = rnd.random(), rnd.randrange(len(d))
        if r < 0.3: d[at] ^= 1 << rnd.randrange(8)
        elif r < 0.5: d[at] = rnd.randrange(256)
        elif r < 0.7: del d[at]
        elif r < 0.85: d.insert(at, rnd.randrange(10))
        else: d[at:at] = rnd.choice(list(WHOLE.values()))
    put('damaged %d' % k, bytes(d))
for k in range(10):
    put('random %d' % k, bytes(rnd.randrange(rnd.choice([10, 256])) for _ in range(rnd.randint(1, 40))))
for k in range(6):
    put('random records %d' % k, eng(), C7, *[rnd.choice([timed(rnd.randrange(4), 9, 9, 1), recost(rnd.choice([1, 7]), rnd.randrange(3), rnd.randrange(3)),
        cut(7, rnd.randrange(90, 410)), drop(rnd.randrange(4)), judge(rnd.choice([0, 9, 40]))]) for _ in range(12)])

# ---- every truncation of one file: two sorts of card, every kind of record
WHOLEFILE = (eng() + k2(7, [(100, 3), (300, 1)], [100, 200]) + judge(20) + cut(7, 300) + timed(9, 10, 10, 1)
             + recost(9, 0, 2) + judge(20) + drop(7) + judge(20))
for n in range(1, len(WHOLEFILE) + 1):
    put('truncated to %d' % n, WHOLEFILE[:n])

# ---- size limits
base = eng(10, 400, 3, 2, 0)
many = [10 + 16 * i for i in range(24)]
for n in (1, 2, 3, 4):
    base += card(n, 3000 + 500 * n, 1000, [(10 + 40 * q, 4 - q // 3) for q in range(8)], many)
for n in range(5, 21):
    base += timed(n, 500 + n, 100 + n, 1)
base += judge(600)
tail = b''
while len(base + tail) < 2048 - 20:
    tail += rnd.choice([recost(rnd.randint(1, 4), rnd.randint(0, 7), rnd.randint(1, 3)), recost(rnd.randint(5, 20), 0, rnd.randint(1, 9)),
                        judge(rnd.randint(100, 600)), drop(rnd.randint(3, 20))])
while len(base + tail) < 2048:
    left = 2048 - len(base + tail)
    tail += judge(600) if left % 2 else drop(rnd.randint(1, 20))
edge = base + tail
assert len(edge) == 2048
assert not any(l.startswith(('no 11', 'no 12', 'no 13')) for l in R.lines(edge))
put('2048 bytes', edge)
put('2049 bytes', edge, b'\x08', ends='no 10 at 2048')
put('2048 zero bytes', bytes(2048), ends='no 11 at 0')
put('2049 zero bytes', bytes(2049), ends='no 10 at 2048')
cramped = eng() + timed(1, 9, 9, 1) + judge(20) * 30 + bytes([5])
put('long, last cut short', cramped, ends='no 12 at 179')


def main():
    seen, unique = set(), []
    for label, data in plans:
        if data not in seen:
            seen.add(data)
            unique.append((label, data))
    bundle, text, names = b'', [], []
    lines_of, refusals, kinds = [], collections.Counter(), collections.Counter()
    for k, (label, data) in enumerate(unique, 1):
        got = R.lines(data)
        bundle += struct.pack('>H', len(data)) + data
        text += ['plan %d' % k] + got
        names.append('%d %s' % (k, label))
        for l in got:
            w = l.split()
            kinds[w[0]] += 1
            if w[0] == 'no':
                refusals[int(w[1])] += 1
    with open(os.path.join(HERE, 'bundle.bin'), 'wb') as f: f.write(bundle)
    with open(os.path.join(HERE, 'expected.txt'), 'w') as f: f.write('\n'.join(text) + '\n')
    with open(os.path.join(HERE, 'labels.txt'), 'w') as f: f.write('\n'.join(names) + '\n')
    print('%d plans, bundle %d bytes, expected %d bytes' % (len(unique), len(bundle), sum(len(x) + 1 for x in text)))
    print('lines:', dict(kinds))
    print('refusals:', dict(sorted(refusals.items())))
    assert set(range(1, 14)) <= set(refusals)
    late = collections.Counter()
    for l in text:
        if l.startswith('over'):
            t = int(l.split()[1])
            late['t<=3' if t <= 3 else 't<=20' if t <= 20 else 't<=60' if t <= 60 else 't>60'] += 1
    print('overs by t:', dict(late))


main()
