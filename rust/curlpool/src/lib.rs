//! libcurl's connection pool for HTTP/1.1, over the library for C.
//!
//! A [`Pool`] says which transfer gets which connection and who waits; sockets are yours. A connection is known by its
//! token, any number of yours. A [`Lease`] is given back with the facts of its response, or abandons its connection as
//! it is dropped. [`Pool::closed`] tells the tokens of the connections that the pool has closed.
//!
//! A pool is `Send`, not `Sync`: one thread at a time uses it.

use curlpool_sys as sys;
use std::ffi::CStr;
use std::fmt;
use std::time::Instant;

/// Why a call was refused; `curlpool.h` says which call is refused by which status.
#[derive(Clone, Copy, PartialEq, Eq)]
pub struct Error {
    pub status: u32,
}

/// What calls answer.
pub mod status {
    pub const OK: u32 = 0;
    pub const NEW: u32 = 1;
    pub const REUSED: u32 = 2;
    pub const WAIT: u32 = 3;
    pub const MORE: u32 = 4;
    pub const WHOLE: u32 = 5;
    pub const NONE: u32 = 6;
    pub const NO_MEMORY: u32 = 7;
    pub const FULL: u32 = 8;
    pub const STRANGER: u32 = 9;
    pub const CLOSED: u32 = 10;
    pub const ALREADY_OPEN: u32 = 11;
    pub const BAD_LIMIT: u32 = 12;
    pub const BAD_SITE: u32 = 13;
    pub const BUSY: u32 = 14;
    pub const EXHAUSTED: u32 = 15;
    pub const LEASED: u32 = 16;
    pub const UNATTACHED: u32 = 17;
    pub const ATTACHED: u32 = 18;
    pub const UNREAD: u32 = 19;
    pub const ENDED: u32 = 20;
    pub const BAD_VALUE: u32 = 21;
    pub const BAD_HEAD: u32 = 22;
    pub const BAD_LENGTH: u32 = 23;
    pub const BAD_CHUNK: u32 = 24;
    pub const HEAD_TOO_LONG: u32 = 25;
    pub const TOO_MANY_INTERIMS: u32 = 26;
    pub const TRAILER_TOO_LONG: u32 = 27;
    pub const NOT_TEXT: u32 = 28;
    pub const NOT_URL: u32 = 29;
    pub const NOT_HTTP: u32 = 30;
    pub const URL_TOO_LONG: u32 = 31;
    pub const SMALL: u32 = 32;
}

impl fmt::Display for Error {
    fn fmt(&self, f: &mut fmt::Formatter<'_>) -> fmt::Result {
        let text = unsafe { CStr::from_ptr(sys::curlpool_strstatus(self.status)) };
        write!(f, "{}", text.to_string_lossy())
    }
}

impl fmt::Debug for Error {
    fn fmt(&self, f: &mut fmt::Formatter<'_>) -> fmt::Result {
        write!(f, "Error({}: {self})", self.status)
    }
}

impl std::error::Error for Error {}

pub type Result<T> = std::result::Result<T, Error>;

pub use sys::{curlpool_counts as Counts, curlpool_look as Look, curlpool_response as Response};

/// How the end of a body is found.
#[derive(Clone, Copy, Debug, PartialEq, Eq)]
pub enum Framing {
    NoBody = 0,
    Counted = 1,
    Chunked = 2,
    UntilClose = 3,
    Faulty = 4,
}

/// What decides whether a connection persists after its response.
#[derive(Clone, Copy, Debug)]
pub struct Facts {
    pub whole: bool,
    pub framing: Framing,
    pub http11: bool,
    pub close: bool,
    pub keep_alive: bool,
    pub request_close: bool,
    pub both_lengths: bool,
    pub upgraded: bool,
    pub surplus: bool,
}

impl Default for Facts {
    /// Those of a whole HTTP/1.1 response with a length.
    fn default() -> Self {
        Facts {
            whole: true,
            framing: Framing::Counted,
            http11: true,
            close: false,
            keep_alive: false,
            request_close: false,
            both_lengths: false,
            upgraded: false,
            surplus: false,
        }
    }
}

/// What a transfer wants of a connection.
#[derive(Clone, Copy, Debug)]
pub struct Want {
    /// The transfer's number, which has nothing at the site yet.
    pub transfer: u64,
    /// A number for all that has to match beside host and port.
    pub lane: u32,
    /// The most seconds that a connection may have been idle.
    pub max_age: u64,
    /// The most seconds since it was opened; 0 for no limit.
    pub max_life: u64,
    /// Only a new connection will do.
    pub fresh: bool,
    /// The connection is closed after this use.
    pub forbid_reuse: bool,
}

impl Want {
    /// What the transfer of that number wants, as libcurl's defaults have it.
    pub fn of(transfer: u64) -> Want {
        Want { transfer, lane: 0, max_age: 118, max_life: 0, fresh: false, forbid_reuse: false }
    }
}

/// Where a URL leads to.
#[derive(Clone, Debug, PartialEq, Eq)]
pub struct Target {
    pub host: String,
    pub port: u16,
    pub path: String,
}

impl Target {
    /// Where an http URL leads to, by the URL Standard's rules.
    pub fn of(url: &str) -> Result<Target> {
        let mut buffer = vec![0; 8192];
        let mut to = sys::curlpool_target::default();
        done(unsafe {
            sys::curlpool_target(url.as_ptr(), url.len(), buffer.as_mut_ptr(), buffer.len(), &mut to)
        })?;
        let text = |from: usize, to: usize| String::from_utf8_lossy(&buffer[from..to]).into_owned();
        Ok(Target {
            host: text(0, to.host_length),
            port: to.port,
            path: text(to.host_length, to.host_length + to.path_length),
        })
    }
}

fn done(status: u32) -> Result<()> {
    if status == status::OK { Ok(()) } else { Err(Error { status }) }
}

/// What an acquire gives.
#[derive(Debug)]
pub enum Acquired {
    Lease(Lease),
    Wait(Waiter),
}

/// A connection that a transfer has: with its token, or none if it is new. It is spent by [`Pool::give_back`],
/// [`Pool::give_back_as`] or [`Pool::abandon`]; one that is dropped is abandoned at the pool's next call.
#[derive(Debug)]
pub struct Lease {
    slot: u64,
    token: Option<u64>,
    dropped: Dropped,
}

/// A transfer that waits. It is spent by [`Pool::claim`] or [`Pool::withdraw`]; one that is dropped is withdrawn at the
/// pool's next call.
#[derive(Debug)]
pub struct Waiter {
    slot: u64,
    dropped: Dropped,
}

type Dropped = std::sync::Arc<std::sync::Mutex<Vec<u64>>>;

fn note(dropped: &Dropped, slot: u64) {
    if slot == 0 {
        return;
    }
    if let Ok(mut slots) = dropped.lock() {
        slots.push(slot);
    }
}

impl Lease {
    /// Its connection's token; none of a new connection.
    pub fn token(&self) -> Option<u64> {
        self.token
    }

    // The lease is spent: no slot has the number 0.
    fn spend(mut self) {
        self.slot = 0;
    }
}

impl Drop for Lease {
    fn drop(&mut self) {
        note(&self.dropped, self.slot);
    }
}

impl Waiter {
    /// Its number, which [`Pool::granted`] tells.
    pub fn slot(&self) -> u64 {
        self.slot
    }
}

impl Drop for Waiter {
    fn drop(&mut self) {
        note(&self.dropped, self.slot);
    }
}

/// A pool of connections.
pub struct Pool {
    handle: Box<sys::curlpool>,
    begun: Instant,
    dropped: Dropped,
}

// Each call takes the pool alone, and nothing of it is lent out.
unsafe impl Send for Pool {}

impl Pool {
    /// A pool of so many sites: at most `host_limit` connections are open to one, `total` to all (0: no limit), and
    /// `connects` are kept after their use.
    pub fn new(hosts: u32, host_limit: u32, total: u32, connects: u32) -> Result<Pool> {
        let mut handle = Box::new(sys::curlpool { there: false, held: std::ptr::null_mut() });
        done(unsafe { sys::curlpool_open(&mut *handle, hosts, host_limit, total, connects) })?;
        Ok(Pool { handle, begun: Instant::now(), dropped: Dropped::default() })
    }

    fn now(&self) -> u64 {
        self.begun.elapsed().as_secs()
    }

    // The handle, once what was dropped is ended.
    fn handle(&mut self) -> *mut sys::curlpool {
        let slots = match self.dropped.lock() {
            Ok(mut slots) => std::mem::take(&mut *slots),
            Err(_) => Vec::new(),
        };
        let now = self.now();
        for slot in slots {
            unsafe {
                if sys::curlpool_abandon(&mut *self.handle, slot, now) == status::STRANGER {
                    sys::curlpool_withdraw(&mut *self.handle, slot, now);
                }
            }
        }
        &mut *self.handle
    }

    /// The site of a host.
    pub fn site(&mut self, host: &str, port: u16) -> Result<u32> {
        let mut site = 0;
        done(unsafe { sys::curlpool_site(self.handle(), host.as_ptr(), host.len(), port, &mut site) })?;
        Ok(site)
    }

    /// Acquires a connection, or begins a wait.
    pub fn acquire(&mut self, site: u32, want: &Want) -> Result<Acquired> {
        let (mut slot, mut token) = (0, 0);
        let flags = u32::from(want.fresh) + 2 * u32::from(want.forbid_reuse);
        let (now, pool) = (self.now(), self.handle());
        let status = unsafe {
            sys::curlpool_acquire(
                pool,
                site,
                want.transfer,
                want.lane,
                want.max_age,
                want.max_life,
                flags,
                now,
                &mut slot,
                &mut token,
            )
        };
        let dropped = self.dropped.clone();
        match status {
            status::NEW => Ok(Acquired::Lease(Lease { slot, token: None, dropped })),
            status::REUSED => Ok(Acquired::Lease(Lease { slot, token: Some(token), dropped })),
            status::WAIT => Ok(Acquired::Wait(Waiter { slot, dropped })),
            _ => Err(Error { status }),
        }
    }

    /// Gives a new connection its token.
    pub fn attach(&mut self, lease: &mut Lease, token: u64) -> Result<()> {
        done(unsafe { sys::curlpool_attach(self.handle(), lease.slot, token) })?;
        lease.token = Some(token);
        Ok(())
    }

    /// The slot of the next waiter that has its connection since the last call.
    pub fn granted(&mut self) -> Option<u64> {
        let mut slot = 0;
        let status = unsafe { sys::curlpool_granted(self.handle(), &mut slot) };
        (status == status::OK).then_some(slot)
    }

    /// Claims what a waiter was granted: its lease, or the waiter itself.
    pub fn claim(&mut self, waiter: Waiter) -> Result<Acquired> {
        let mut token = 0;
        let status = unsafe { sys::curlpool_claim(self.handle(), waiter.slot, &mut token) };
        let token = match status {
            status::NEW => None,
            status::REUSED => Some(token),
            status::WAIT => return Ok(Acquired::Wait(waiter)),
            _ => return Err(Error { status }),
        };
        let mut waiter = waiter;
        let slot = std::mem::take(&mut waiter.slot);
        Ok(Acquired::Lease(Lease { slot, token, dropped: waiter.dropped.clone() }))
    }

    /// Ends a wait.
    pub fn withdraw(&mut self, waiter: Waiter) {
        drop(waiter);
        self.handle();
    }

    /// Begins the response that is read from a connection.
    pub fn begin(&mut self, lease: &Lease, is_head: bool, request_close: bool) -> Result<()> {
        done(unsafe { sys::curlpool_begin(self.handle(), lease.slot, is_head, request_close) })
    }

    /// Reads one piece more of it: whether it is whole.
    pub fn feed(&mut self, lease: &Lease, bytes: &[u8]) -> Result<bool> {
        match unsafe { sys::curlpool_feed(self.handle(), lease.slot, bytes.as_ptr(), bytes.len()) } {
            status::MORE => Ok(false),
            status::WHOLE => Ok(true),
            status => Err(Error { status }),
        }
    }

    /// Tells that its connection has ended.
    pub fn end(&mut self, lease: &Lease) -> Result<()> {
        done(unsafe { sys::curlpool_end(self.handle(), lease.slot) })
    }

    /// What it tells so far.
    pub fn response(&mut self, lease: &Lease) -> Result<Response> {
        let mut response = Response::default();
        done(unsafe { sys::curlpool_response(self.handle(), lease.slot, &mut response) })?;
        Ok(response)
    }

    /// Gives a connection back with the facts of the bytes that were fed. After an error the lease is abandoned.
    pub fn give_back(&mut self, lease: Lease) -> Result<()> {
        let now = self.now();
        done(unsafe { sys::curlpool_give_back(self.handle(), lease.slot, now) })?;
        lease.spend();
        Ok(())
    }

    /// Gives a connection back with facts of the caller's own. After an error the lease is abandoned.
    pub fn give_back_as(&mut self, lease: Lease, facts: &Facts) -> Result<()> {
        let told = sys::curlpool_facts {
            version: u32::from(facts.http11),
            framing: facts.framing as u32,
            close: facts.close,
            keep_alive: facts.keep_alive,
            request_close: facts.request_close,
            both_lengths: facts.both_lengths,
            upgraded: facts.upgraded,
            whole: facts.whole,
            surplus: facts.surplus,
        };
        let now = self.now();
        done(unsafe { sys::curlpool_give_back_as(self.handle(), lease.slot, &told, now) })?;
        lease.spend();
        Ok(())
    }

    /// Closes a connection.
    pub fn abandon(&mut self, lease: Lease) {
        drop(lease);
        self.handle();
    }

    /// Closes idle connections that are too old: how many.
    pub fn prune(&mut self, max_age: u64, max_life: u64) -> Result<u32> {
        let (mut closed, now) = (0, self.now());
        done(unsafe { sys::curlpool_prune(self.handle(), max_age, max_life, now, &mut closed) })?;
        Ok(closed)
    }

    /// Changes the most connections that may be open to a site's host.
    pub fn set_host_limit(&mut self, site: u32, limit: u32) -> Result<()> {
        let now = self.now();
        done(unsafe { sys::curlpool_set_host_limit(self.handle(), site, limit, now) })
    }

    /// The counts of a site at this moment.
    pub fn look(&mut self, site: u32) -> Result<Look> {
        let mut look = Look::default();
        done(unsafe { sys::curlpool_look(self.handle(), site, &mut look) })?;
        Ok(look)
    }

    /// What happened at a site.
    pub fn counts(&mut self, site: u32) -> Result<Counts> {
        let mut counts = Counts::default();
        done(unsafe { sys::curlpool_counts(self.handle(), site, &mut counts) })?;
        Ok(counts)
    }

    /// The token of the next connection that the pool has closed: close its socket.
    pub fn closed(&mut self) -> Option<u64> {
        let mut token = 0;
        let status = unsafe { sys::curlpool_closed(self.handle(), &mut token) };
        (status == status::OK).then_some(token)
    }

    /// What happened at a site since the last call, as lines.
    pub fn take_log(&mut self, site: u32) -> Result<String> {
        let (mut text, mut buffer, mut written) = (String::new(), [0u8; 4096], 0);
        loop {
            let status = unsafe {
                sys::curlpool_take_log(self.handle(), site, buffer.as_mut_ptr(), buffer.len(), &mut written)
            };
            if status != status::OK && status != status::MORE {
                return Err(Error { status });
            }
            text += &String::from_utf8_lossy(&buffer[..written]);
            if status == status::OK {
                return Ok(text);
            }
        }
    }

    /// Forgets what happened, so that it takes no memory.
    pub fn drop_logs(&mut self) -> Result<()> {
        done(unsafe { sys::curlpool_drop_logs(self.handle()) })
    }

    /// Ends the pool: the tokens of all connections that were open, or were not told yet.
    pub fn end_all(mut self) -> Vec<u64> {
        self.end_here()
    }

    fn end_here(&mut self) -> Vec<u64> {
        let now = self.now();
        unsafe { sys::curlpool_close_all(self.handle(), now) };
        let mut tokens = Vec::new();
        while let Some(token) = self.closed() {
            tokens.push(token);
        }
        unsafe { sys::curlpool_close(&mut *self.handle) };
        tokens
    }
}

impl Drop for Pool {
    /// Gives all memory back. Tokens that were not told are lost: see [`Pool::end_all`].
    fn drop(&mut self) {
        self.end_here();
    }
}

/// The version of the library.
pub fn version() -> String {
    unsafe { CStr::from_ptr(sys::curlpool_version()) }.to_string_lossy().into_owned()
}
