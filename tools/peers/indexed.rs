//! The rules of a connection cache for one thread, in plain Rust. Not each program needs all of it.
#![allow(dead_code)]
use std::collections::{BTreeSet, VecDeque};

#[derive(Clone, Copy)]
pub struct Want {
    pub transfer: u64,
    pub lane: u32,
    pub max_age: u64,
    pub max_life: u64,
    pub fresh: bool,
    pub forbid_reuse: bool,
}

#[derive(Clone, Copy)]
pub struct Connection {
    pub since: u64,
    pub number: u32,
    pub lane: u32,
    pub born: u64,
    pub stream: u64,
}

pub struct Lease {
    pub site: u32,
    pub connection: Connection,
    pub want: Want,
    pub reused: bool,
}

pub trait Pool {
    fn acquire(&mut self, site: u32, want: Want, now: u64) -> Option<Lease>;
    fn give_back(&mut self, lease: Lease, persists: bool, now: u64);
}

fn is_too_old(connection: &Connection, want: &Want, now: u64) -> bool {
    now - connection.since > want.max_age
        || (want.max_life != 0 && now - connection.born > want.max_life)
}

/// One host. Its idle connections stand in the order of (since, number).
#[derive(Default)]
#[repr(align(128))]
pub struct Host {
    pub idle: VecDeque<Connection>,
    pub queue: VecDeque<Want>,
    pub open: u32,
    pub next: u32,
    pub last: u64,
}

impl Host {
    /// The newest idle connection that fits, after what is too old in its lane was closed; `closed` counts that.
    pub fn take(&mut self, want: &Want, now: u64, closed: &mut u32) -> Option<Connection> {
        self.last = self.last.max(now);
        if !self.queue.is_empty() || want.fresh {
            return None;
        }
        let now = self.last;
        if want.max_life != 0 || self.idle.front().is_some_and(|oldest| now - oldest.since > want.max_age) {
            let before = self.idle.len();
            self.idle.retain(|it| it.lane != want.lane || !is_too_old(it, want, now));
            *closed += (before - self.idle.len()) as u32;
        }
        if self.idle.back()?.lane == want.lane {
            return self.idle.pop_back();
        }
        let place = self.idle.iter().rposition(|it| it.lane == want.lane)?;
        self.idle.remove(place)
    }

    pub fn put(&mut self, mut connection: Connection, now: u64) {
        self.last = self.last.max(now);
        connection.since = self.last;
        let stamp = (connection.since, connection.number);
        match self.idle.back() {
            Some(newest) if (newest.since, newest.number) > stamp => {
                let place = self.idle.partition_point(|it| (it.since, it.number) < stamp);
                self.idle.insert(place, connection);
            }
            _ => self.idle.push_back(connection),
        }
    }

    pub fn open(&mut self, want: &Want, now: u64) -> Connection {
        self.open += 1;
        self.next += 1;
        Connection { since: now, number: self.next, lane: want.lane, born: now, stream: self.next as u64 }
    }
}

/// How many entries a log has room for; it is cleared where it is full.
const LOG_LENGTH: usize = 4096;

/// The rules of a cache on one thread, with a log where LOG, and all idle connections in a tree where TREE.
pub struct Indexed<const LOG: bool, const TREE: bool> {
    hosts: Vec<Host>,
    host_limit: u32,
    total_limit: u32,
    kept_limit: u32,
    total: u32,
    kept: u32,
    logs: Vec<Vec<[u64; 6]>>,
    tree: BTreeSet<(u64, u32, u32)>,
}

impl<const LOG: bool, const TREE: bool> Indexed<LOG, TREE> {
    pub fn new(hosts: u32) -> Self {
        Indexed {
            hosts: (0..hosts).map(|_| Host::default()).collect(),
            host_limit: 65_535,
            total_limit: u32::MAX,
            kept_limit: u32::MAX,
            total: 0,
            kept: 0,
            logs: (0..hosts).map(|_| Vec::with_capacity(LOG_LENGTH)).collect(),
            tree: BTreeSet::new(),
        }
    }

    fn append(&mut self, site: u32, event: u64, connection: &Connection, want: &Want, now: u64) {
        if LOG {
            let log = &mut self.logs[site as usize];
            if log.len() == LOG_LENGTH {
                log.clear();
            }
            log.push([now, event, connection.number as u64, want.transfer, want.max_age, want.lane as u64]);
        }
    }

    fn oldest(&self) -> Option<(u64, u32, u32)> {
        if TREE {
            return self.tree.first().copied();
        }
        let stamps = self.hosts.iter().enumerate();
        stamps.filter_map(|(site, host)| host.idle.front().map(|it| (it.since, site as u32, it.number))).min()
    }

    fn evict(&mut self) -> bool {
        let Some(stamp) = self.oldest() else {
            return false;
        };
        let host = &mut self.hosts[stamp.1 as usize];
        host.idle.pop_front();
        host.open -= 1;
        self.total -= 1;
        self.kept -= 1;
        if TREE {
            self.tree.remove(&stamp);
        }
        true
    }
}

impl<const LOG: bool, const TREE: bool> Pool for Indexed<LOG, TREE> {
    fn acquire(&mut self, site: u32, want: Want, now: u64) -> Option<Lease> {
        let mut closed = 0;
        let host = self.hosts.get_mut(site as usize)?;
        if let Some(connection) = host.take(&want, now, &mut closed) {
            host.open -= closed;
            self.total -= closed;
            self.kept -= closed + 1;
            if TREE {
                self.tree.remove(&(connection.since, site, connection.number));
            }
            self.append(site, 1, &connection, &want, now);
            return Some(Lease { site, connection, want, reused: true });
        }
        host.open -= closed;
        self.total -= closed;
        self.kept -= closed;
        if host.open >= self.host_limit {
            let Some(oldest) = host.idle.pop_front() else {
                host.queue.push_back(want);
                return None;
            };
            host.open -= 1;
            self.total -= 1;
            self.kept -= 1;
            if TREE {
                self.tree.remove(&(oldest.since, site, oldest.number));
            }
        }
        if self.total >= self.total_limit && !self.evict() {
            self.hosts[site as usize].queue.push_back(want);
            return None;
        }
        self.total += 1;
        let connection = self.hosts[site as usize].open(&want, now);
        self.append(site, 0, &connection, &want, now);
        Some(Lease { site, connection, want, reused: false })
    }

    fn give_back(&mut self, lease: Lease, persists: bool, now: u64) {
        self.append(lease.site, 2, &lease.connection, &lease.want, now);
        if !persists || lease.want.forbid_reuse {
            self.hosts[lease.site as usize].open -= 1;
            self.total -= 1;
            return;
        }
        if self.kept >= self.kept_limit {
            self.evict();
        }
        self.kept += 1;
        let host = &mut self.hosts[lease.site as usize];
        host.put(lease.connection, now);
        if TREE {
            self.tree.insert((host.last, lease.site, lease.connection.number));
        }
    }
}

pub fn want_of(transfer: u64) -> Want {
    Want { transfer, lane: 0, max_age: 118, max_life: 0, fresh: false, forbid_reuse: false }
}
