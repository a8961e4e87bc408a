// Records what the Transport of Go's net/http does: go run go_transport.go PLAN [closes|ages].
//
// Goroutines send the requests of a plan through one Transport, which tells by httptrace what it was asked and which
// connection a request got, and by the connections' own Close what it closed. It has no hook for waits, and none before
// a connection goes back: the hook for that comes after, when another request may have it already. So a connection came
// back at the latest when the next request got it, if its response had begun to arrive by then; a reuse before the
// response's end isn't told apart. A connection that was dialled for one request may be handed to another one, or to
// none: it counts as opened at its first use.
package main

import (
	"bufio"
	"context"
	"encoding/json"
	"fmt"
	"io"
	"net"
	"net/http"
	"net/http/httptrace"
	"os"
	"sync"
	"time"
)

const (
	mostOfAHost, mostKept = 2, 3
	// the most seconds that a connection is kept idle, and what the trace says of that: moments are whole seconds
	age, ageInTrace = 1, 2
	timeout         = 10 * time.Second
)

type request struct {
	Host   int
	Number uint64
	Kind   string
}

type plan struct {
	Ports   []int
	Batches [][]request
	Pause   int
}

// recorder has the lines of the trace, the newest last. Its lock is held for each line, and for what it knows of a
// connection.
type recorder struct {
	lock   sync.Mutex
	began  time.Time
	opened map[int]int
	lines  []string
}

func (trace *recorder) say(options, format string, words ...interface{}) {
	text := fmt.Sprintf(format, words...)
	trace.lines = append(trace.lines, fmt.Sprintf("%s at %d%s", text, int(time.Since(trace.began).Seconds()), options))
}

// recorded is a connection. It has a number from its first use on.
type recorded struct {
	net.Conn
	trace  *recorder
	host   int
	number int
	holder *request
	// whether nothing has arrived yet of the response that its holder waits for
	waiting  bool
	isClosed bool
}

func (conn *recorded) Read(bytes []byte) (int, error) {
	count, err := conn.Conn.Read(bytes)
	conn.trace.lock.Lock()
	defer conn.trace.lock.Unlock()
	if count > 0 {
		conn.waiting = false
	}
	return count, err
}

func (conn *recorded) Close() error {
	conn.trace.lock.Lock()
	if conn.number != 0 && !conn.isClosed {
		conn.trace.say("", "closed %d.%d", conn.host, conn.number)
	}
	conn.holder, conn.isClosed = nil, true
	conn.trace.lock.Unlock()
	return conn.Conn.Close()
}

// comesBack says that the connection's holder gave it back, if it has one; the lock is held.
func (conn *recorded) comesBack() {
	if conn.holder == nil {
		return
	}
	kind := conn.holder.Kind
	if kind == "both" {
		kind = "close"
	}
	conn.trace.say("", "back %d %d %s", conn.holder.Number, conn.host, kind)
	conn.trace.say("", "returned %d.%d by %d", conn.host, conn.number, conn.holder.Number)
	conn.holder = nil
}

// starts says that the request got the connection, unless it was closed before the request could hear of it.
func (conn *recorded) starts(told *request) {
	conn.trace.lock.Lock()
	defer conn.trace.lock.Unlock()
	if conn.isClosed {
		return
	}
	if conn.number == 0 {
		conn.trace.opened[conn.host]++
		conn.number = conn.trace.opened[conn.host]
		conn.trace.say("", "opened %d.%d for %d", conn.host, conn.number, told.Number)
	} else {
		if !conn.waiting {
			conn.comesBack()
		}
		conn.trace.say("", "leased %d.%d to %d", conn.host, conn.number, told.Number)
	}
	conn.holder, conn.waiting = told, true
}

// send sends a request, and reads its response to the end.
func send(client *http.Client, trace *recorder, told request, port int, options string) {
	var current *recorded
	hooks := &httptrace.ClientTrace{
		GetConn: func(string) {
			trace.lock.Lock()
			defer trace.lock.Unlock()
			trace.say(options, "get %d %d 0", told.Number, told.Host)
		},
		GotConn: func(info httptrace.GotConnInfo) {
			current = info.Conn.(*recorded)
			current.starts(&told)
		},
		PutIdleConn: func(err error) {
			trace.lock.Lock()
			defer trace.lock.Unlock()
			if err == nil && current.holder == &told {
				current.comesBack()
			}
		},
	}
	url := fmt.Sprintf("http://127.0.0.1:%d/%d", port, told.Number)
	asked, err := http.NewRequestWithContext(httptrace.WithClientTrace(context.Background(), hooks), "GET", url, nil)
	if err != nil {
		panic(err)
	}
	response, err := client.Do(asked)
	if err != nil {
		// a truncated response, or one that begins with surplus bytes
		return
	}
	io.Copy(io.Discard, response.Body)
	response.Body.Close()
}

func transportOf(trace *recorder, ports []int, wrong string) *http.Transport {
	var dialer net.Dialer
	transport := &http.Transport{
		MaxConnsPerHost: mostOfAHost, MaxIdleConnsPerHost: mostOfAHost, MaxIdleConns: mostKept,
		DialContext: func(where context.Context, network, address string) (net.Conn, error) {
			conn, err := dialer.DialContext(where, network, address)
			if err != nil {
				return nil, err
			}
			for host, port := range ports {
				if conn.RemoteAddr().(*net.TCPAddr).Port == port {
					return &recorded{Conn: conn, trace: trace, host: host}, nil
				}
			}
			panic("no such host: " + address)
		},
	}
	if wrong != "ages" {
		transport.IdleConnTimeout = age * time.Second
	}
	return transport
}

func main() {
	text, err := os.ReadFile(os.Args[1])
	if err != nil {
		panic(err)
	}
	var told plan
	if err := json.Unmarshal(text, &told); err != nil {
		panic(err)
	}
	wrong := ""
	if len(os.Args) > 2 {
		wrong = os.Args[2]
	}
	trace := &recorder{began: time.Now(), opened: map[int]int{}}
	transport := transportOf(trace, told.Ports, wrong)
	client := &http.Client{Transport: transport, Timeout: timeout}
	options := fmt.Sprintf(" age %d", ageInTrace)
	for place, batch := range told.Batches {
		if place == len(told.Batches)-1 {
			time.Sleep(time.Duration(told.Pause) * time.Second)
		}
		var ended sync.WaitGroup
		for _, one := range batch {
			ended.Add(1)
			go func(one request) {
				defer ended.Done()
				send(client, trace, one, told.Ports[one.Host], options)
			}(one)
		}
		ended.Wait()
		// until the connections of this batch are idle or closed
		time.Sleep(100 * time.Millisecond)
		trace.lock.Lock()
		trace.lines = append(trace.lines, "rest")
		trace.lock.Unlock()
	}
	write(trace, told.Ports)
	transport.CloseIdleConnections()
}

func write(trace *recorder, ports []int) {
	trace.lock.Lock()
	defer trace.lock.Unlock()
	out := bufio.NewWriter(os.Stdout)
	defer out.Flush()
	fmt.Fprintf(out, "limits %d 0 %d\n", mostOfAHost, mostKept)
	for _, port := range ports {
		fmt.Fprintf(out, "site http://127.0.0.1:%d/\n", port)
	}
	// what happens beside a call is no rest
	fmt.Fprintln(out, "rest")
	for _, line := range trace.lines {
		fmt.Fprintln(out, line)
	}
}
