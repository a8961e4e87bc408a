//! The declarations of `curlpool.h`, which has the duties of a caller.
#![allow(non_camel_case_types)]

use std::ffi::{c_char, c_void};

/// A pool, of zeros at first.
#[repr(C)]
pub struct curlpool {
    pub there: bool,
    pub held: *mut c_void,
}

/// What decides whether a connection persists after its response.
#[repr(C)]
#[derive(Clone, Copy, Debug, Default)]
pub struct curlpool_facts {
    pub version: u32,
    pub framing: u32,
    pub close: bool,
    pub keep_alive: bool,
    pub request_close: bool,
    pub both_lengths: bool,
    pub upgraded: bool,
    pub whole: bool,
    pub surplus: bool,
}

/// What the bytes of a response tell so far.
#[repr(C)]
#[derive(Clone, Copy, Debug, Default)]
pub struct curlpool_response {
    pub body_length: u64,
    pub status: u32,
    pub version: u32,
    pub framing: u32,
    pub persists: bool,
    pub whole: bool,
    pub surplus: bool,
}

/// The counts of a site at a moment.
#[repr(C)]
#[derive(Clone, Copy, Debug, Default, PartialEq, Eq)]
pub struct curlpool_look {
    pub alive: u32,
    pub idle: u32,
    pub leased: u32,
    pub waiting: u32,
    pub queued: bool,
}

/// What happened at a site.
#[repr(C)]
#[derive(Clone, Copy, Debug, Default, PartialEq, Eq)]
pub struct curlpool_counts {
    pub opened: u64,
    pub reused: u64,
    pub closed: u64,
    pub waited: u64,
}

/// Where a URL leads to.
#[repr(C)]
#[derive(Clone, Copy, Debug, Default)]
pub struct curlpool_target {
    pub host_length: usize,
    pub path_length: usize,
    pub port: u16,
}

extern "C" {
    pub fn curlpool_open(pool: *mut curlpool, hosts: u32, host_limit: u32, total: u32, connects: u32) -> u32;
    pub fn curlpool_site(
        pool: *mut curlpool,
        host: *const u8,
        host_length: usize,
        port: u16,
        site: *mut u32,
    ) -> u32;
    pub fn curlpool_acquire(
        pool: *mut curlpool,
        site: u32,
        transfer: u64,
        lane: u32,
        max_age: u64,
        max_life: u64,
        flags: u32,
        now: u64,
        slot: *mut u64,
        token: *mut u64,
    ) -> u32;
    pub fn curlpool_attach(pool: *mut curlpool, slot: u64, token: u64) -> u32;
    pub fn curlpool_claim(pool: *mut curlpool, slot: u64, token: *mut u64) -> u32;
    pub fn curlpool_granted(pool: *mut curlpool, slot: *mut u64) -> u32;
    pub fn curlpool_begin(pool: *mut curlpool, slot: u64, is_head: bool, request_close: bool) -> u32;
    pub fn curlpool_feed(pool: *mut curlpool, slot: u64, bytes: *const u8, length: usize) -> u32;
    pub fn curlpool_end(pool: *mut curlpool, slot: u64) -> u32;
    pub fn curlpool_response(pool: *mut curlpool, slot: u64, response: *mut curlpool_response) -> u32;
    pub fn curlpool_give_back(pool: *mut curlpool, slot: u64, now: u64) -> u32;
    pub fn curlpool_give_back_as(pool: *mut curlpool, slot: u64, facts: *const curlpool_facts, now: u64) -> u32;
    pub fn curlpool_abandon(pool: *mut curlpool, slot: u64, now: u64) -> u32;
    pub fn curlpool_withdraw(pool: *mut curlpool, slot: u64, now: u64) -> u32;
    pub fn curlpool_prune(pool: *mut curlpool, max_age: u64, max_life: u64, now: u64, closed: *mut u32) -> u32;
    pub fn curlpool_upkeep(pool: *mut curlpool, kept: *mut u32) -> u32;
    pub fn curlpool_set_host_limit(pool: *mut curlpool, site: u32, limit: u32, now: u64) -> u32;
    pub fn curlpool_look(pool: *mut curlpool, site: u32, look: *mut curlpool_look) -> u32;
    pub fn curlpool_counts(pool: *mut curlpool, site: u32, counts: *mut curlpool_counts) -> u32;
    pub fn curlpool_closed(pool: *mut curlpool, token: *mut u64) -> u32;
    pub fn curlpool_take_log(
        pool: *mut curlpool,
        site: u32,
        buffer: *mut u8,
        length: usize,
        written: *mut usize,
    ) -> u32;
    pub fn curlpool_drop_logs(pool: *mut curlpool) -> u32;
    pub fn curlpool_close_all(pool: *mut curlpool, now: u64) -> u32;
    pub fn curlpool_close(pool: *mut curlpool) -> u32;
    pub fn curlpool_target(
        url: *const u8,
        url_length: usize,
        buffer: *mut u8,
        length: usize,
        target: *mut curlpool_target,
    ) -> u32;
    pub fn curlpool_strstatus(status: u32) -> *const c_char;
    pub fn curlpool_version() -> *const c_char;
}
