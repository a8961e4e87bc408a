// Package curlpool is libcurl's connection pool for HTTP/1.1, over the library for C.
//
// A Pool says which transfer gets which connection and who waits; sockets are yours. A connection is known by its token,
// any number of yours. Give each lease back with the facts of its response, or abandon it. Closed tells the tokens of the
// connections that the pool has closed. A mutex lets any number of goroutines use one pool.
//
// CGO_CFLAGS and CGO_LDFLAGS name header and library, as pkg-config has them.
package curlpool

/*
#include <curlpool.h>
#include <stdlib.h>
*/
import "C"

import (
	"sync"
	"time"
	"unsafe"
)

// Status is why a call was refused; curlpool.h says which call is refused by which.
type Status uint32

func (status Status) Error() string {
	return C.GoString(C.curlpool_strstatus(C.uint32_t(status)))
}

// What calls answer.
const (
	OK Status = iota
	New
	Reused
	Wait
	More
	Whole
	None
	NoMemory
	Full
	Stranger
	Closed
	AlreadyOpen
	BadLimit
	BadSite
	Busy
	Exhausted
	Leased
	Unattached
	Attached
	Unread
	Ended
	BadValue
	BadHead
	BadLength
	BadChunk
	HeadTooLong
	TooManyInterims
	TrailerTooLong
	NotText
	NotURL
	NotHTTP
	URLTooLong
	Small
)

func done(status C.uint32_t) error {
	if status == C.CURLPOOL_OK {
		return nil
	}
	return Status(status)
}

// Framing is how the end of a body is found.
type Framing uint32

// The framings.
const (
	NoBody Framing = iota
	Counted
	Chunked
	UntilClose
	Faulty
)

// Facts decide whether a connection persists after its response.
type Facts struct {
	HTTP10       bool
	Framing      Framing
	Close        bool
	KeepAlive    bool
	RequestClose bool
	BothLengths  bool
	Upgraded     bool
	Whole        bool
	Surplus      bool
}

// Response is what the bytes of a response tell so far; a status of 0 before its final head has come.
type Response struct {
	Status     uint32
	BodyLength uint64
	Framing    Framing
	Persists   bool
	Whole      bool
	Surplus    bool
}

// Look has the counts of a site at a moment.
type Look struct {
	Alive, Idle, Leased, Waiting uint32
	Queued                       bool
}

// Counts has what happened at a site.
type Counts struct {
	Opened, Reused, Closed, Waited uint64
}

// Target is where a URL leads to.
type Target struct {
	Host string
	Port uint16
	Path string
}

// Want is what a transfer wants of a connection.
type Want struct {
	Transfer    uint64
	Lane        uint32
	MaxAge      uint64
	MaxLife     uint64
	Fresh       bool
	ForbidReuse bool
}

// WantOf is what the transfer of that number wants, as libcurl's defaults have it.
func WantOf(transfer uint64) Want {
	return Want{Transfer: transfer, MaxAge: 118}
}

// Slot is what a transfer has: a connection, or a wait.
type Slot struct {
	pool   *Pool
	number C.uint64_t
	// Token is the connection's; it stands if HasToken does.
	Token    uint64
	HasToken bool
	// Waits says whether the transfer waits.
	Waits bool
}

// Number is that which Granted tells.
func (slot *Slot) Number() uint64 {
	return uint64(slot.number)
}

// Pool is a pool of connections.
type Pool struct {
	lock   sync.Mutex
	handle *C.curlpool
	begun  time.Time
}

// Open opens a pool of so many sites: at most hostLimit connections are open to one, total to all (0: no limit), and
// connects are kept after their use.
func Open(hosts, hostLimit, total, connects uint32) (*Pool, error) {
	// in C's memory, so that it is not moved
	handle := (*C.curlpool)(C.calloc(1, C.sizeof_curlpool))
	if handle == nil {
		return nil, NoMemory
	}
	status := C.curlpool_open(handle, C.uint32_t(hosts), C.uint32_t(hostLimit), C.uint32_t(total), C.uint32_t(connects))
	if err := done(status); err != nil {
		C.free(unsafe.Pointer(handle))
		return nil, err
	}
	return &Pool{handle: handle, begun: time.Now()}, nil
}

func (pool *Pool) now() C.uint64_t {
	return C.uint64_t(time.Since(pool.begun) / time.Second)
}

// A pointer to the first byte, which is never null.
func first(data []byte) *C.uint8_t {
	if len(data) == 0 {
		data = make([]byte, 1)
	}
	return (*C.uint8_t)(unsafe.Pointer(&data[0]))
}

// Site is that of a host.
func (pool *Pool) Site(host string, port uint16) (uint32, error) {
	pool.lock.Lock()
	defer pool.lock.Unlock()
	var site C.uint32_t
	err := done(C.curlpool_site(pool.handle, first([]byte(host)), C.size_t(len(host)), C.uint16_t(port), &site))
	return uint32(site), err
}

// Acquire acquires a connection of a site, or begins a wait.
func (pool *Pool) Acquire(site uint32, want Want) (*Slot, error) {
	pool.lock.Lock()
	defer pool.lock.Unlock()
	var slot, token C.uint64_t
	flags := C.uint32_t(0)
	if want.Fresh {
		flags |= C.CURLPOOL_FRESH
	}
	if want.ForbidReuse {
		flags |= C.CURLPOOL_FORBID_REUSE
	}
	status := C.curlpool_acquire(pool.handle, C.uint32_t(site), C.uint64_t(want.Transfer), C.uint32_t(want.Lane),
		C.uint64_t(want.MaxAge), C.uint64_t(want.MaxLife), flags, pool.now(), &slot, &token)
	return pool.slot(status, slot, token)
}

func (pool *Pool) slot(status C.uint32_t, slot, token C.uint64_t) (*Slot, error) {
	switch status {
	case C.CURLPOOL_NEW:
		return &Slot{pool: pool, number: slot}, nil
	case C.CURLPOOL_REUSED:
		return &Slot{pool: pool, number: slot, Token: uint64(token), HasToken: true}, nil
	case C.CURLPOOL_WAIT:
		return &Slot{pool: pool, number: slot, Waits: true}, nil
	}
	return nil, Status(status)
}

// Attach gives a new connection its token.
func (slot *Slot) Attach(token uint64) error {
	slot.pool.lock.Lock()
	defer slot.pool.lock.Unlock()
	err := done(C.curlpool_attach(slot.pool.handle, slot.number, C.uint64_t(token)))
	if err == nil {
		slot.Token, slot.HasToken = token, true
	}
	return err
}

// Granted tells the slot of the next waiter that has its connection since the last call.
func (pool *Pool) Granted() (uint64, bool) {
	pool.lock.Lock()
	defer pool.lock.Unlock()
	var slot C.uint64_t
	status := C.curlpool_granted(pool.handle, &slot)
	return uint64(slot), status == C.CURLPOOL_OK
}

// Claim claims what a waiter was granted: it waits no more then.
func (slot *Slot) Claim() error {
	slot.pool.lock.Lock()
	defer slot.pool.lock.Unlock()
	var token C.uint64_t
	status := C.curlpool_claim(slot.pool.handle, slot.number, &token)
	claimed, err := slot.pool.slot(status, slot.number, token)
	if err == nil {
		*slot = *claimed
	}
	return err
}

// Begin begins the response that is read from the connection.
func (slot *Slot) Begin(isHead, requestClose bool) error {
	slot.pool.lock.Lock()
	defer slot.pool.lock.Unlock()
	return done(C.curlpool_begin(slot.pool.handle, slot.number, C.bool(isHead), C.bool(requestClose)))
}

// Feed reads one piece more of the response: whether it is whole.
func (slot *Slot) Feed(data []byte) (bool, error) {
	slot.pool.lock.Lock()
	defer slot.pool.lock.Unlock()
	status := C.curlpool_feed(slot.pool.handle, slot.number, first(data), C.size_t(len(data)))
	if status == C.CURLPOOL_MORE || status == C.CURLPOOL_WHOLE {
		return status == C.CURLPOOL_WHOLE, nil
	}
	return false, Status(status)
}

// End tells that the connection has ended.
func (slot *Slot) End() error {
	slot.pool.lock.Lock()
	defer slot.pool.lock.Unlock()
	return done(C.curlpool_end(slot.pool.handle, slot.number))
}

// Response is what the response tells so far.
func (slot *Slot) Response() (Response, error) {
	slot.pool.lock.Lock()
	defer slot.pool.lock.Unlock()
	var told C.struct_curlpool_response
	err := done(C.curlpool_response(slot.pool.handle, slot.number, &told))
	return Response{uint32(told.status), uint64(told.body_length), Framing(told.framing), bool(told.persists),
		bool(told.whole), bool(told.surplus)}, err
}

// GiveBack gives the connection back with the facts of the bytes that were fed.
func (slot *Slot) GiveBack() error {
	slot.pool.lock.Lock()
	defer slot.pool.lock.Unlock()
	return done(C.curlpool_give_back(slot.pool.handle, slot.number, slot.pool.now()))
}

// GiveBackAs gives the connection back with facts of the caller's own.
func (slot *Slot) GiveBackAs(facts Facts) error {
	slot.pool.lock.Lock()
	defer slot.pool.lock.Unlock()
	version := C.uint32_t(1)
	if facts.HTTP10 {
		version = 0
	}
	told := C.struct_curlpool_facts{version: version, framing: C.uint32_t(facts.Framing), close: C.bool(facts.Close),
		keep_alive: C.bool(facts.KeepAlive), request_close: C.bool(facts.RequestClose),
		both_lengths: C.bool(facts.BothLengths), upgraded: C.bool(facts.Upgraded), whole: C.bool(facts.Whole),
		surplus: C.bool(facts.Surplus)}
	return done(C.curlpool_give_back_as(slot.pool.handle, slot.number, &told, slot.pool.now()))
}

// Abandon closes the connection.
func (slot *Slot) Abandon() error {
	slot.pool.lock.Lock()
	defer slot.pool.lock.Unlock()
	return done(C.curlpool_abandon(slot.pool.handle, slot.number, slot.pool.now()))
}

// Withdraw ends the wait.
func (slot *Slot) Withdraw() error {
	slot.pool.lock.Lock()
	defer slot.pool.lock.Unlock()
	return done(C.curlpool_withdraw(slot.pool.handle, slot.number, slot.pool.now()))
}

// Prune closes idle connections that are too old: how many.
func (pool *Pool) Prune(maxAge, maxLife uint64) (uint32, error) {
	pool.lock.Lock()
	defer pool.lock.Unlock()
	var closed C.uint32_t
	err := done(C.curlpool_prune(pool.handle, C.uint64_t(maxAge), C.uint64_t(maxLife), pool.now(), &closed))
	return uint32(closed), err
}

// SetHostLimit changes the most connections that may be open to a site's host.
func (pool *Pool) SetHostLimit(site, limit uint32) error {
	pool.lock.Lock()
	defer pool.lock.Unlock()
	return done(C.curlpool_set_host_limit(pool.handle, C.uint32_t(site), C.uint32_t(limit), pool.now()))
}

// Look tells the counts of a site at this moment.
func (pool *Pool) Look(site uint32) (Look, error) {
	pool.lock.Lock()
	defer pool.lock.Unlock()
	var look C.struct_curlpool_look
	err := done(C.curlpool_look(pool.handle, C.uint32_t(site), &look))
	return Look{uint32(look.alive), uint32(look.idle), uint32(look.leased), uint32(look.waiting), bool(look.queued)}, err
}

// Counts tells what happened at a site.
func (pool *Pool) Counts(site uint32) (Counts, error) {
	pool.lock.Lock()
	defer pool.lock.Unlock()
	var told C.struct_curlpool_counts
	err := done(C.curlpool_counts(pool.handle, C.uint32_t(site), &told))
	return Counts{uint64(told.opened), uint64(told.reused), uint64(told.closed), uint64(told.waited)}, err
}

// Closed tells the token of the next connection that the pool has closed: close its socket.
func (pool *Pool) Closed() (uint64, bool) {
	pool.lock.Lock()
	defer pool.lock.Unlock()
	var token C.uint64_t
	status := C.curlpool_closed(pool.handle, &token)
	return uint64(token), status == C.CURLPOOL_OK
}

// TakeLog tells what happened at a site since the last call, as lines.
func (pool *Pool) TakeLog(site uint32) (string, error) {
	pool.lock.Lock()
	defer pool.lock.Unlock()
	buffer, text := make([]byte, 4096), ""
	for {
		var written C.size_t
		status := C.curlpool_take_log(pool.handle, C.uint32_t(site), first(buffer), C.size_t(len(buffer)), &written)
		if status != C.CURLPOOL_OK && status != C.CURLPOOL_MORE {
			return text, Status(status)
		}
		text += string(buffer[:written])
		if status == C.CURLPOOL_OK {
			return text, nil
		}
	}
}

// DropLogs forgets what happened, so that it takes no memory.
func (pool *Pool) DropLogs() error {
	pool.lock.Lock()
	defer pool.lock.Unlock()
	return done(C.curlpool_drop_logs(pool.handle))
}

// End ends the pool: the tokens of all connections that were open, or were not told yet. No call comes after it.
func (pool *Pool) End() []uint64 {
	pool.lock.Lock()
	defer pool.lock.Unlock()
	if pool.handle == nil {
		return nil
	}
	C.curlpool_close_all(pool.handle, pool.now())
	var tokens []uint64
	var token C.uint64_t
	for C.curlpool_closed(pool.handle, &token) == C.CURLPOOL_OK {
		tokens = append(tokens, uint64(token))
	}
	C.curlpool_close(pool.handle)
	C.free(unsafe.Pointer(pool.handle))
	pool.handle = nil
	return tokens
}

// TargetOf tells where an http URL leads to, by the URL Standard's rules.
func TargetOf(url string) (Target, error) {
	buffer := make([]byte, 8192)
	var to C.struct_curlpool_target
	err := done(C.curlpool_target(first([]byte(url)), C.size_t(len(url)), first(buffer), C.size_t(len(buffer)), &to))
	if err != nil {
		return Target{}, err
	}
	end := to.host_length + to.path_length
	return Target{string(buffer[:to.host_length]), uint16(to.port), string(buffer[to.host_length:end])}, nil
}

// Version is that of the library.
func Version() string {
	return C.GoString(C.curlpool_version())
}
