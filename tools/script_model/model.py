#!/usr/bin/env python3
"""An independent model of `curlpool script`: it reads a script and gives its transcript, from the rules alone.

Each host's log is a list of entries; every question is a search of the log. No table is kept beside it but the
leases and tickets that transfers have."""
import sys

KINDS = {'keep': {}, 'close': {'close': 1}, 'old': {'v10': 1}, 'old-keep': {'v10': 1, 'ka': 1}, 'eof': {'until': 1},
         'cut': {'cut': 1}, 'surplus': {'surplus': 1}}


def persists(kind):
    f = KINDS[kind]
    return not ('cut' in f or 'surplus' in f or 'until' in f or 'close' in f) and ('v10' not in f or 'ka' in f)


class Host:
    def __init__(self, index, limit):
        self.index, self.first_limit, self.log = index, limit, []

    def moment(self, now):
        return max(now, self.log[-1][0] if self.log else 0)

    def add(self, now, *event):
        self.log.append((self.moment(now), event))

    def limit(self):
        limit = self.first_limit
        for _, e in self.log:
            if e[0] == 'limit':
                limit = e[1]
        return limit

    def opened(self):
        return [e[1] for _, e in self.log if e[0] == 'opened']

    def open(self):
        closed = {e[1] for _, e in self.log if e[0] == 'closed'}
        return [c for c in self.opened() if c not in closed]

    def holder(self, c):
        want = None
        for _, e in self.log:
            if e[0] in ('opened', 'leased') and e[1] == c:
                want = e[2]
            if e[0] == 'returned' and e[1] == c:
                want = None
        return want

    def idle(self):
        return [c for c in self.open() if self.holder(c) is None]

    def held_by(self, t):
        for c in self.open():
            w = self.holder(c)
            if w and w['t'] == t:
                return c

    def waiting(self):
        wants = []
        for _, e in self.log:
            if e[0] == 'waits':
                wants.append(e[1])
            if e[0] in ('opened', 'leased'):
                wants = [w for w in wants if w['t'] != e[2]['t']]
            if e[0] == 'left':
                wants = [w for w in wants if w['t'] != e[1]]
        return wants

    def born(self, c):
        return next(m for m, e in self.log if e[0] == 'opened' and e[1] == c)

    def lane(self, c):
        return next(e[2]['lane'] for m, e in self.log if e[0] == 'opened' and e[1] == c)

    def since(self, c):
        return [m for m, e in self.log if e[0] == 'returned' and e[1] == c][-1]

    def older(self, c, age, life, m):
        return m - self.since(c) > age or (life != 0 and m - self.born(c) > life)

    def fits(self, c, w, m):
        return self.lane(c) == w['lane'] and not w['fresh'] and not self.older(c, w['age'], w['life'], m)

    def full(self):
        return len(self.open()) >= self.limit()

    def queued(self):
        return bool(self.waiting()) and not self.full()

    def oldest(self):
        return min(((self.since(c), self.index, c) for c in self.idle()), default=None)

    def start_new(self, w, now):
        self.add(now, 'opened', max(self.opened(), default=0) + 1, w)


class Pool:
    def __init__(self, limits, n):
        host, total, kept = limits
        self.total, self.most_kept = total or 65535, kept
        self.hosts = [Host(i, host or 65535) for i in range(n)]
        self.queue = []

    def open_len(self):
        return sum(len(h.open()) for h in self.hosts)

    def kept(self):
        return sum(len(h.idle()) for h in self.hosts)

    def close_oldest(self, cause, now):
        stamps = [h.oldest() for h in self.hosts if h.oldest()]
        if not stamps:
            return False
        _, i, c = min(stamps)
        self.hosts[i].add(now, 'closed', c, cause)
        return True

    def mark(self, h):
        if h.queued() and h.index not in self.queue:
            self.queue.append(h.index)
        if not h.queued() and h.index in self.queue:
            self.queue.remove(h.index)

    def serve(self, now):
        while self.queue:
            if self.open_len() >= self.total and not self.close_oldest('total-room', now):
                return
            h = self.hosts[self.queue.pop(0)]
            h.start_new(h.waiting()[0], now)
            if h.queued():
                self.queue.append(h.index)

    def acquire(self, h, w, now):
        m = h.moment(now)
        if h.held_by(w['t']) or any(x['t'] == w['t'] for x in h.waiting()):
            return 'busy'
        if h.waiting():
            h.add(now, 'waits', w)
        else:
            if not w['fresh']:
                for s, c in sorted((h.since(c), c) for c in h.idle()):
                    if h.lane(c) == w['lane'] and h.older(c, w['age'], w['life'], m):
                        h.add(now, 'closed', c, 'too-old')
            fit = [(h.since(c), c) for c in h.idle() if h.fits(c, w, m)]
            if fit:
                h.add(now, 'leased', max(fit)[1], w)
            elif h.full():
                if h.idle():
                    h.add(now, 'closed', h.oldest()[2], 'host-room')
                    h.start_new(w, now)
                else:
                    h.add(now, 'waits', w)
            elif self.open_len() < self.total or self.close_oldest('total-room', now):
                h.start_new(w, now)
            else:
                h.add(now, 'waits', w)
        self.mark(h)
        self.serve(now)

    def rule_r(self, h, now):
        if h.waiting():
            h.start_new(h.waiting()[0], now)

    def give_back(self, h, c, kind, now):
        m, w = h.moment(now), h.holder(c)
        if not persists(kind) or w['forbid']:
            h.add(now, 'returned', c, w['t'])
            h.add(now, 'closed', c, 'cut' if kind == 'cut' else 'forbidden' if w['forbid'] else 'not-persistent')
            self.rule_r(h, now)
        elif h.waiting():
            head = h.waiting()[0]
            h.add(now, 'returned', c, w['t'])
            if h.fits(c, head, m):
                h.add(now, 'leased', c, head)
            else:
                old = h.lane(c) == head['lane'] and not head['fresh'] and h.older(c, head['age'], head['life'], m)
                h.add(now, 'closed', c, 'too-old' if old else 'host-room' if h.full() else 'total-room')
                h.start_new(head, now)
        else:
            if self.kept() >= self.most_kept:
                self.close_oldest('cache-full', now)
            h.add(now, 'returned', c, w['t'])
        self.mark(h)
        self.serve(now)

    def end(self, h, c, cause, now):
        h.add(now, 'closed', c, cause)
        self.rule_r(h, now)
        self.mark(h)
        self.serve(now)

    def leave(self, h, t, now):
        h.add(now, 'left', t)
        self.mark(h)
        self.serve(now)

    def prune(self, age, life, now):
        for h in self.hosts:
            m = h.moment(now)
            for s, c in sorted((h.since(c), c) for c in h.idle()):
                if h.older(c, age, life, m):
                    h.add(now, 'closed', c, 'pruned')
        self.serve(now)

    def set_limit(self, h, n, now):
        if n > 65535:
            return 'bad-limit'
        n = n or 65535
        held = len(h.open()) - len(h.idle())
        if held > n:
            return 'leased %d' % held
        queued = h.index in self.queue
        while len(h.open()) > n:
            h.add(now, 'closed', h.oldest()[2], 'host-room')
        h.add(now, 'limit', n)
        if not queued:
            while h.waiting() and not h.full() and self.open_len() < self.total:
                h.start_new(h.waiting()[0], now)
        self.mark(h)
        self.serve(now)


class Script:
    def __init__(self):
        self.limits, self.sites, self.pool, self.out = None, [], None, []
        self.leases, self.tickets, self.told = {}, {}, []

    def begin(self):
        if self.pool is None:
            self.pool = Pool(self.limits, len(self.sites))
            self.told = [0] * len(self.sites)

    def tell(self):
        for i, h in enumerate(self.pool.hosts):
            for m, e in h.log[self.told[i]:]:
                n = e[0]
                line = {'opened': lambda: 'opened %d.%d for %d' % (i, e[1], e[2]['t']),
                        'leased': lambda: 'leased %d.%d to %d' % (i, e[1], e[2]['t']),
                        'returned': lambda: 'returned %d.%d by %d' % (i, e[1], e[2]),
                        'closed': lambda: 'closed %d.%d %s' % (i, e[1], e[2]),
                        'waits': lambda: 'waits %d host %d' % (e[1]['t'], i),
                        'left': lambda: 'left %d host %d' % (e[1], i),
                        'limit': lambda: 'limit %d %d' % (i, e[1])}[n]()
                self.out.append('%s at %d' % (line, m))
            self.told[i] = len(h.log)

    def line(self, line):
        words = line.split()
        if not words or line.startswith('#'):
            return
        name, args = words[0], words[1:]
        if name == 'limits':
            self.limits = tuple(map(int, args))
            return
        if name == 'site':
            if args[0] not in self.sites:
                self.sites.append(args[0])
            return
        self.begin()
        getattr(self, name)(*args)
        self.tell()

    def host(self, s):
        return self.pool.hosts[int(s)] if int(s) < len(self.sites) else None

    def refuse(self, word):
        self.out.append('refused ' + word)

    def get(self, t, s, lane, at, m, *options):
        w = {'t': int(t), 'lane': int(lane), 'age': 118, 'life': 0, 'fresh': False, 'forbid': False}
        options = list(options)
        while options:
            o = options.pop(0)
            w[o] = int(options.pop(0)) if o in ('age', 'life') else True
        h = self.host(s)
        if h is None:
            return self.refuse('bad-site')
        word = self.pool.acquire(h, w, int(m))
        if word:
            return self.refuse(word)
        if any(x['t'] == w['t'] for x in h.waiting()):
            self.tickets[int(s), w['t']] = w
        else:
            self.leases[int(s), w['t']] = h.held_by(w['t'])

    def claim(self, t, s):
        key = int(s), int(t)
        if key not in self.tickets:
            return self.refuse('stranger')
        c = self.host(s).held_by(int(t))
        if c is None:
            self.out.append('still waiting')
        else:
            del self.tickets[key]
            self.leases[key] = c
            self.out.append('claimed %d.%d' % (int(s), c))

    def back(self, t, s, kind, at, m):
        c = self.leases.pop((int(s), int(t)), None)
        if c is None:
            return self.refuse('stranger')
        self.pool.give_back(self.host(s), c, kind, int(m))

    def drop(self, t, s, at, m):
        c = self.leases.pop((int(s), int(t)), None)
        if c is None:
            return self.refuse('stranger')
        self.pool.end(self.host(s), c, 'dropped', int(m))

    def leave(self, t, s, at, m):
        if self.tickets.pop((int(s), int(t)), None) is None:
            return self.refuse('stranger')
        h = self.host(s)
        c = h.held_by(int(t))
        if c is None:
            self.pool.leave(h, int(t), int(m))
        else:
            self.pool.end(h, c, 'withdrawn', int(m))

    def limit(self, s, n, at, m):
        h = self.host(s)
        word = 'bad-site' if h is None else self.pool.set_limit(h, int(n), int(m))
        if word:
            self.refuse(word)

    def prune(self, age, life, at, m):
        self.pool.prune(int(age), int(life), int(m))

    def upkeep(self):
        self.out.append('upkeep 0')

    def look(self, s):
        h = self.host(s)
        if h is None:
            return self.refuse('bad-site')
        o, i = len(h.open()), len(h.idle())
        self.out.append('host %d open %d idle %d leased %d waiting %d queued %s' % (
            int(s), o, i, o - i, len(h.waiting()), 'yes' if int(s) in self.pool.queue else 'no'))


def transcript(text):
    script = Script()
    for line in text.split('\n'):
        script.line(line)
    return ''.join(line + '\n' for line in script.out)


if __name__ == '__main__':
    sys.stdout.write(transcript(sys.stdin.read()))
