//! Connection pools in plain Rust, to measure beside: `pools VARIANT HOSTS IDLE ROUNDS` runs that many rounds of one
//! acquire that reuses the newest idle connection and one give back, at hosts drawn at random, each of which has IDLE
//! connections. Variants:
//!
//! - `indexed`: the rules of a cache for one thread, without a log;
//! - `logged`: the same, with an entry of 48 bytes for each event;
//! - `tree`: the same as `indexed`, with all idle connections in a `BTreeSet` too, to find the oldest of all;
//! - `hyperlike`: as hyper-util's legacy client does it, rebuilt from memory: one lock, a hash table from scheme and
//!   authority to a stack of idle connections, the time read at both ends, no limit in total and no queue.
use indexed::{Connection, Indexed, Lease, Pool, Want, want_of};
use std::collections::HashMap;
use std::hint::black_box;
use std::sync::Mutex;
use std::time::{Duration, Instant};

mod indexed;

type Key = (u8, String);

struct HyperLike {
    idle: Mutex<HashMap<Key, Vec<(Connection, Instant)>>>,
    keys: Vec<Key>,
    timeout: Duration,
}

impl HyperLike {
    fn new(hosts: u32) -> Self {
        let keys: Vec<Key> = (0..hosts).map(|site| (0, format!("host{site}.example.com:80"))).collect();
        let idle = keys.iter().map(|key| (key.clone(), Vec::new())).collect();
        HyperLike { idle: Mutex::new(idle), keys, timeout: Duration::from_secs(90) }
    }
}

impl Pool for HyperLike {
    fn acquire(&mut self, site: u32, want: Want, _: u64) -> Option<Lease> {
        let mut idle = self.idle.lock().unwrap();
        let stack = idle.get_mut(black_box(&self.keys[site as usize]))?;
        let now = Instant::now();
        let newest = if want.fresh { None } else { stack.pop() };
        if let Some((connection, at)) = newest {
            if now.saturating_duration_since(at) <= self.timeout {
                return Some(Lease { site, connection, want, reused: true });
            }
            stack.clear();
        }
        let connection = Connection { since: 0, number: 1, lane: want.lane, born: 0, stream: 1 };
        Some(Lease { site, connection, want, reused: false })
    }

    fn give_back(&mut self, lease: Lease, persists: bool, _: u64) {
        if persists {
            let mut idle = self.idle.lock().unwrap();
            let now = Instant::now();
            let key = black_box(self.keys[lease.site as usize].clone());
            idle.entry(key).or_default().push((lease.connection, now));
        }
    }
}

/// Opens so many connections at each host, which are idle then.
fn fill(pool: &mut dyn Pool, hosts: u32, idle: u64) {
    for site in 0..hosts {
        let wants = (0..idle).map(|transfer| Want { fresh: true, ..want_of(transfer) });
        let leases: Vec<_> = wants.filter_map(|want| pool.acquire(site, want, 0)).collect();
        for lease in leases {
            pool.give_back(lease, true, 0);
        }
    }
}

/// Not inlined, so that its instructions can be counted alone.
#[inline(never)]
fn run_rounds(pool: &mut dyn Pool, hosts: u32, rounds: u64) -> u64 {
    let (mut drawn, mut sum) = (12_345u32, 0);
    for transfer in 0..rounds {
        drawn = drawn.wrapping_mul(1_664_525).wrapping_add(1_013_904_223);
        if let Some(lease) = pool.acquire((drawn >> 8) & (hosts - 1), want_of(transfer), 7) {
            sum += lease.connection.stream + lease.reused as u64;
            pool.give_back(lease, true, 7);
        }
    }
    sum
}

fn main() {
    let words: Vec<String> = std::env::args().collect();
    let number = |place: usize| words[place].parse::<u64>().expect("a number");
    let hosts = number(2) as u32;
    assert!(hosts.is_power_of_two(), "HOSTS is a power of two");
    let mut pool: Box<dyn Pool> = match words[1].as_str() {
        "indexed" => Box::new(Indexed::<false, false>::new(hosts)),
        "logged" => Box::new(Indexed::<true, false>::new(hosts)),
        "tree" => Box::new(Indexed::<false, true>::new(hosts)),
        "hyperlike" => Box::new(HyperLike::new(hosts)),
        other => panic!("no pool is named {other}"),
    };
    fill(&mut *pool, hosts, number(3));
    black_box(run_rounds(&mut *pool, hosts, number(4)));
}
