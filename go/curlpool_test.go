package curlpool

import (
	"fmt"
	"io"
	"net"
	"net/http"
	"net/http/httptest"
	"strings"
	"sync"
	"testing"
)

var kept = Facts{Framing: Counted, Whole: true}

func TestAConnectionIsReused(t *testing.T) {
	pool, err := Open(2, 1, 0, 2)
	if err != nil {
		t.Fatal(err)
	}
	site, _ := pool.Site("a.test", 80)
	first, err := pool.Acquire(site, WantOf(1))
	if err != nil || first.HasToken || first.Attach(7) != nil {
		t.Fatal(err)
	}
	second, err := pool.Acquire(site, WantOf(2))
	if err != nil || !second.Waits {
		t.Fatal("it does not wait")
	}
	if err := first.GiveBackAs(kept); err != nil {
		t.Fatal(err)
	}
	if number, is := pool.Granted(); !is || number != second.Number() {
		t.Fatal("the waiter was not told")
	}
	if second.Claim() != nil || second.Token != 7 || second.Waits {
		t.Fatal("the waiter has another connection")
	}
	if second.Abandon() != nil || second.Abandon() != Stranger {
		t.Fatal("a second use is no stranger's")
	}
	if token, is := pool.Closed(); !is || token != 7 {
		t.Fatal("the token was not told")
	}
	if text, err := pool.TakeLog(site); err != nil || strings.Count(text, "\n") != 5 {
		t.Fatal(text, err)
	}
	if len(pool.End()) != 0 || len(pool.End()) != 0 {
		t.Fatal("a token was told twice")
	}
}

func TestErrors(t *testing.T) {
	if _, err := Open(1, 1, 1, 0); err != BadLimit {
		t.Fatal(err)
	}
	if _, err := TargetOf("ftp://a/"); err != NotHTTP || err.Error() != "not an http URL" {
		t.Fatal(err)
	}
	if to, err := TargetOf("http://A.test:81/b?c#d"); err != nil || to != (Target{"a.test", 81, "/b?c"}) {
		t.Fatal(to, err)
	}
}

func TestGoroutinesUseOnePool(t *testing.T) {
	pool, err := Open(1, 0, 0, 8)
	if err != nil {
		t.Fatal(err)
	}
	var all sync.WaitGroup
	for transfer := uint64(0); transfer < 8; transfer++ {
		all.Add(1)
		go func(transfer uint64) {
			defer all.Done()
			for round := 0; round < 500; round++ {
				slot, err := pool.Acquire(0, WantOf(transfer))
				if err == nil && !slot.HasToken {
					err = slot.Attach(transfer)
				}
				if err != nil || slot.GiveBackAs(kept) != nil {
					t.Error(err)
					return
				}
			}
		}(transfer)
	}
	all.Wait()
	pool.End()
}

func fetch(pool *Pool, connections map[uint64]net.Conn, url string, transfer uint64) (uint32, error) {
	to, err := TargetOf(url)
	if err != nil {
		return 0, err
	}
	site, err := pool.Site(to.Host, to.Port)
	if err != nil {
		return 0, err
	}
	slot, err := pool.Acquire(site, WantOf(transfer))
	if err != nil {
		return 0, err
	}
	if !slot.HasToken {
		connection, err := net.Dial("tcp", fmt.Sprintf("%s:%d", to.Host, to.Port))
		if err != nil {
			slot.Abandon()
			return 0, err
		}
		connections[transfer] = connection
		if err := slot.Attach(transfer); err != nil {
			return 0, err
		}
	}
	connection := connections[slot.Token]
	fmt.Fprintf(connection, "GET %s HTTP/1.1\r\nHost: %s:%d\r\n\r\n", to.Path, to.Host, to.Port)
	if err := slot.Begin(false, false); err != nil {
		return 0, err
	}
	buffer := make([]byte, 4096)
	for isWhole := false; !isWhole; {
		length, err := connection.Read(buffer)
		if err == io.EOF {
			slot.End()
			break
		}
		if err != nil {
			slot.Abandon()
			return 0, err
		}
		if isWhole, err = slot.Feed(buffer[:length]); err != nil {
			slot.Abandon()
			return 0, err
		}
	}
	response, err := slot.Response()
	if err != nil {
		return 0, err
	}
	return response.Status, slot.GiveBack()
}

// Fetches a page ten times over connections that the pool keeps.
func Example() {
	server := httptest.NewServer(http.HandlerFunc(func(answer http.ResponseWriter, _ *http.Request) {
		fmt.Fprint(answer, "ok")
	}))
	defer server.Close()
	pool, err := Open(16, 6, 0, 16)
	if err != nil {
		panic(err)
	}
	connections := map[uint64]net.Conn{}
	for transfer := uint64(0); transfer < 10; transfer++ {
		if status, err := fetch(pool, connections, server.URL+"/", transfer); err != nil || status != 200 {
			panic(err)
		}
	}
	counts, _ := pool.Counts(0)
	for _, token := range pool.End() {
		connections[token].Close()
	}
	fmt.Println(counts.Opened, counts.Reused)
	// Output: 1 9
}
