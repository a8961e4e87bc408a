#!/usr/bin/env python3
"""Writes random scripts, with the transcripts that the model gives: generate.py FOLDER SEED COUNT [many].

A script has up to five hosts; with `many` it has six to 60, which share three connections at most."""
import random, sys, os
sys.path.insert(0, os.path.dirname(__file__))
from model import Script


def script(rng, many):
    """A random script, and its transcript."""
    n = rng.randint(6, 60) if many else rng.choice([0, 1, 2, 2, 3, 3, 4, 5])
    totals = [1, 2, 3, 3] if many else [0, 1, 2, 2, 3, 4, 5]
    lines = ['limits %d %d %d' % (rng.choice([0, 1, 1, 2, 2, 3]), rng.choice(totals), rng.choice([1, 1, 2, 3, 8]))]
    lines += ['site http://h%d.test/' % i for i in range(n)]
    run = Script()
    for line in lines: run.line(line)
    now, transfers = 0, list(range(1, rng.choice([5, 8, 12, 20])))
    for _ in range(rng.choice([5, 20, 40, 80, 120])):
        now += rng.choice([0, 0, 0, 1, 1, 2, 5, 40, 119])
        m = now if rng.random() < 0.9 else max(0, now - rng.randrange(1, 10))
        t, s = rng.choice(transfers), rng.randrange(max(1, n) + (rng.random() < 0.05))
        r = rng.random()
        if rng.random() < 0.8:
            have = run.leases if 0.38 <= r < 0.68 or 0.78 <= r < 0.83 else run.tickets if 0.68 <= r < 0.78 or 0.83 <= r < 0.88 else None
            if have: s, t = rng.choice(sorted(have))
            elif have is not None: continue
        before = len(lines)
        if r < 0.38:
            o = ''
            if rng.random() < 0.2: o += ' age %d' % rng.choice([0, 1, 5, 118])
            if rng.random() < 0.15: o += ' life %d' % rng.choice([0, 1, 10, 60])
            if rng.random() < 0.1: o += ' fresh'
            if rng.random() < 0.1: o += ' forbid'
            lines.append('get %d %d %d at %d%s' % (t, s, rng.choice([0, 0, 0, 1]), m, o))
        elif r < 0.68:
            lines.append('back %d %d %s at %d' % (t, s, rng.choice(['keep'] * 8 + ['close', 'old', 'old-keep', 'eof', 'cut', 'surplus']), m))
        elif r < 0.78: lines.append('claim %d %d' % (t, s))
        elif r < 0.83: lines.append('drop %d %d at %d' % (t, s, m))
        elif r < 0.88: lines.append('leave %d %d at %d' % (t, s, m))
        elif r < 0.91: lines.append('prune %d %d at %d' % (rng.choice([0, 1, 5, 100]), rng.choice([0, 0, 10]), m))
        elif r < 0.95: lines.append('limit %d %d at %d' % (s, rng.choice([0, 1, 1, 2, 3, 4, 65536]), m))
        elif r < 0.96: lines.append('upkeep')
        else: lines.append('look %d' % s)
        run.line(lines[before])
    return [''.join(line + '\n' for line in told) for told in (lines, run.out)]


def main():
    folder, seed, count = sys.argv[1], int(sys.argv[2]), int(sys.argv[3])
    os.makedirs(folder, exist_ok=True)
    rng = random.Random(seed)
    for i in range(count):
        text, transcript = script(rng, sys.argv[4:] == ['many'])
        open('%s/%05d' % (folder, i), 'w').write(text)
        open('%s/%05d.stdout' % (folder, i), 'w').write(transcript)


if __name__ == '__main__':
    main()
