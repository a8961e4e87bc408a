//! Connection pools in plain Rust that threads share, to measure beside: `shared LOCKS THREADS own|one ROUNDS` has each
//! thread acquire a connection and give it back so many times, in turn at 16 hosts of its own, or all at one host. Prints
//! how often an idle connection was reused, and how often one was opened. LOCKS:
//!
//! - `each`: a lock for each host, and a word for each limit over all hosts;
//! - `all`: one lock, under which the rules of a cache for one thread are.
use indexed::{Connection, Host, Indexed, Lease, Pool, Want, want_of};
use std::sync::Mutex;
use std::sync::atomic::{AtomicU32, Ordering::SeqCst};

mod indexed;

/// How many hosts a thread has that works at hosts of its own.
const OWN_HOSTS: u32 = 16;

const LIMIT: u32 = 65_535;

trait SharedPool: Sync {
    fn acquire(&self, site: u32, want: Want, now: u64) -> Option<Lease>;
    fn give_back(&self, lease: Lease, now: u64);
}

/// How many connections are open, or kept, over all hosts.
#[repr(align(128))]
struct Word(AtomicU32);

impl Word {
    fn ask(&self) -> bool {
        let mut seen = self.0.load(SeqCst);
        while seen < LIMIT {
            match self.0.compare_exchange(seen, seen + 1, SeqCst, SeqCst) {
                Ok(_) => return true,
                Err(changed) => seen = changed,
            }
        }
        false
    }

    fn free(&self, count: u32) {
        self.0.fetch_sub(count, SeqCst);
    }
}

struct LockForEach {
    hosts: Vec<Mutex<Host>>,
    total: Word,
    kept: Word,
}

impl LockForEach {
    fn new(hosts: u32) -> Self {
        let hosts = (0..hosts).map(|_| Mutex::new(Host::default())).collect();
        LockForEach { hosts, total: Word(AtomicU32::new(0)), kept: Word(AtomicU32::new(0)) }
    }

    /// What was too old is closed.
    fn close(&self, host: &mut Host, closed: u32) {
        host.open -= closed;
        self.total.free(closed);
        self.kept.free(closed);
    }

    fn open(&self, host: &mut Host, want: &Want, now: u64) -> Option<Connection> {
        if !self.total.ask() {
            host.queue.push_back(*want);
            return None;
        }
        Some(host.open(want, now))
    }
}

impl SharedPool for LockForEach {
    fn acquire(&self, site: u32, want: Want, now: u64) -> Option<Lease> {
        let mut host = self.hosts.get(site as usize)?.lock().unwrap();
        let mut closed = 0;
        let reused = host.take(&want, now, &mut closed);
        if closed > 0 {
            self.close(&mut host, closed);
        }
        if let Some(connection) = reused {
            self.kept.free(1);
            return Some(Lease { site, connection, want, reused: true });
        }
        let connection = self.open(&mut host, &want, now)?;
        Some(Lease { site, connection, want, reused: false })
    }

    fn give_back(&self, lease: Lease, now: u64) {
        let mut host = self.hosts[lease.site as usize].lock().unwrap();
        if self.kept.ask() {
            host.put(lease.connection, now);
        } else {
            host.open -= 1;
            self.total.free(1);
        }
    }
}

struct LockForAll(Mutex<Indexed<false, false>>);

impl SharedPool for LockForAll {
    fn acquire(&self, site: u32, want: Want, now: u64) -> Option<Lease> {
        self.0.lock().unwrap().acquire(site, want, now)
    }

    fn give_back(&self, lease: Lease, now: u64) {
        self.0.lock().unwrap().give_back(lease, true, now);
    }
}

/// How often an idle connection was reused, and how often one was opened.
type Counts = (u64, u64);

/// One acquire and one give back, which is counted.
fn use_once(pool: &impl SharedPool, site: u32, want: Want, now: u64, counts: &mut Counts) {
    if let Some(lease) = pool.acquire(site, want, now) {
        *(if lease.reused { &mut counts.0 } else { &mut counts.1 }) += 1;
        pool.give_back(lease, now);
    }
}

/// So many rounds, each a second after the one before, in turn at so many hosts from that one on.
fn use_in_turn(pool: &impl SharedPool, from: u32, sites: u32, thread: u32, rounds: u64) -> Counts {
    let (mut counts, mut site) = ((0, 0), from);
    for round in 0..rounds {
        let want = Want { max_age: rounds, ..want_of(((thread as u64) << 32) + round) };
        use_once(pool, site, want, round, &mut counts);
        site = if site + 1 < from + sites { site + 1 } else { from };
    }
    counts
}

/// Opens so many connections at each host, which are idle then, before so many threads do their rounds.
fn run(pool: &impl SharedPool, hosts: u32, idle: u32, threads: u32, rounds: u64) -> Counts {
    let (sites, apart) = if hosts == 1 { (1, 0) } else { (OWN_HOSTS, OWN_HOSTS) };
    let mut counts = (0, 0);
    for site in 0..hosts {
        for transfer in 0..idle {
            use_once(pool, site, Want { fresh: true, ..want_of(transfer as u64) }, 0, &mut counts);
        }
    }
    std::thread::scope(|scope| {
        let started: Vec<_> = (0..threads)
            .map(|thread| scope.spawn(move || use_in_turn(pool, thread * apart, sites, thread, rounds)))
            .collect();
        let ended = started.into_iter().map(|it| it.join().unwrap());
        ended.fold(counts, |sum, more| (sum.0 + more.0, sum.1 + more.1))
    })
}

fn main() {
    let words: Vec<String> = std::env::args().collect();
    let threads = words[2].parse::<u32>().expect("a number");
    let rounds = words[4].parse::<u64>().expect("a number");
    let (hosts, idle) = match words[3].as_str() {
        "own" => (threads * OWN_HOSTS, 1),
        "one" => (1, threads),
        other => panic!("no threads work at {other}"),
    };
    let (reused, opened) = match words[1].as_str() {
        "each" => run(&LockForEach::new(hosts), hosts, idle, threads, rounds),
        "all" => run(&LockForAll(Mutex::new(Indexed::new(hosts))), hosts, idle, threads, rounds),
        other => panic!("no locks are named {other}"),
    };
    println!("{reused} reused, {opened} opened");
}
