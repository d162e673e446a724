// load calls a procedure that adds to a row of the client's own, from many clients at once, and says how many calls were
// committed a second, and how long they took.
package main

import (
	"bufio"
	"bytes"
	"crypto/tls"
	"encoding/binary"
	"encoding/hex"
	"encoding/json"
	"errors"
	"flag"
	"fmt"
	"net"
	"net/http"
	"os"
	"sort"
	"strconv"
	"strings"
	"sync"
	"time"
)

var (
	at          = flag.String("at", "", "servers: Unix sockets' paths, tcp://, tls://, http:// or etcd://HOST:PORT, with commas between them")
	clients     = flag.Int("clients", 1, "how many clients")
	connections = flag.Int("connections", 0, "on how many connections they share; 0 for one each")
	seconds     = flag.Float64("seconds", 5, "for how long")
	procedure   = flag.String("procedure", "add", "a procedure with a key and an amount, 8 bytes each")
)

// counted is what clients saw.
type counted struct {
	mutex  sync.Mutex
	took   []time.Duration
	others map[string]int
}

func (c *counted) add(word string, took time.Duration) {
	c.mutex.Lock()
	defer c.mutex.Unlock()
	if word == "committed" {
		c.took = append(c.took, took)
	} else {
		c.others[word]++
	}
}

func main() {
	flag.Parse()
	found := &counted{others: map[string]int{}}
	places := strings.Split(*at, ",")
	share := *connections
	if share == 0 {
		share = *clients
	}
	var callers []*caller
	if share == *clients && arePlain(places) {
		var err error
		if callers, err = newCallers(places, share); err != nil {
			fmt.Fprintln(os.Stderr, "load:", err)
			os.Exit(1)
		}
		share = 0
	}
	begun := time.Now()
	until := begun.Add(time.Duration(*seconds * float64(time.Second)))
	var all sync.WaitGroup
	faults := make(chan error, share+threads)
	for first := 0; first < len(callers) && first < threads; first++ {
		first := first
		all.Add(1)
		go func() {
			defer all.Done()
			if err := overPlain(callers, first, until, found); err != nil {
				faults <- err
			}
		}()
	}
	for one := 0; one < share; one++ {
		count := *clients / share
		if one < *clients%share {
			count++
		}
		place, first := places[one%len(places)], one*(*clients)/share
		all.Add(1)
		go func() {
			defer all.Done()
			if err := run(place, first, count, until, found); err != nil {
				faults <- err
			}
		}()
	}
	all.Wait()
	took := time.Since(begun).Seconds()
	select {
	case err := <-faults:
		fmt.Fprintln(os.Stderr, "load:", err)
		os.Exit(1)
	default:
	}
	found.print(took)
}

// print says how many calls were committed in so many seconds, and how long they took.
func (c *counted) print(seconds float64) {
	sort.Slice(c.took, func(a, b int) bool { return c.took[a] < c.took[b] })
	part := func(of float64) float64 {
		if len(c.took) == 0 {
			return 0
		}
		return float64(c.took[int(of*float64(len(c.took)-1))].Microseconds()) / 1000
	}
	fmt.Printf("clients=%d committed=%d per_second=%.0f p50_ms=%.3f p99_ms=%.3f others=%v\n",
		*clients, len(c.took), float64(len(c.took))/seconds, part(0.5), part(0.99), c.others)
}

func run(place string, first, count int, until time.Time, found *counted) error {
	if strings.HasPrefix(place, "http://") || strings.HasPrefix(place, "https://") {
		return overHTTP(place, first, until, found)
	}
	if address := strings.TrimPrefix(place, "etcd://"); address != place {
		return overEtcd(address, first, until, found)
	}
	reached, err := dial(place)
	if err != nil {
		return err
	}
	defer reached.Close()
	lines := bufio.NewReaderSize(reached, 1<<16)
	sessions, err := begin(reached, lines, count)
	if err != nil {
		return err
	}
	return together(reached, lines, first, sessions, until, found)
}

func dial(place string) (net.Conn, error) {
	if address := strings.TrimPrefix(place, "tcp://"); address != place {
		return net.Dial("tcp", address)
	}
	if address := strings.TrimPrefix(place, "tls://"); address != place {
		return tls.Dial("tcp", address, &tls.Config{InsecureSkipVerify: true})
	}
	return net.Dial("unix", place)
}

func begin(to net.Conn, lines *bufio.Reader, count int) ([]string, error) {
	sessions := make([]string, count)
	for at := range sessions {
		fmt.Fprintln(to, "session")
		answer, err := lines.ReadString('\n')
		if err != nil {
			return nil, err
		}
		session := strings.TrimPrefix(strings.TrimSpace(answer), "session ")
		if _, err := strconv.Atoi(session); err != nil {
			return nil, errors.New(answer)
		}
		sessions[at] = session
	}
	return sessions, nil
}

func args(key int) string {
	raw := binary.LittleEndian.AppendUint64(nil, uint64(key))
	return hex.EncodeToString(binary.LittleEndian.AppendUint64(raw, 1))
}

// together has several calls under way on one connection, one for each session.
func together(to net.Conn, lines *bufio.Reader, first int, sessions []string, until time.Time, found *counted) error {
	asked, sequences := make([]time.Time, len(sessions)), make([]int, len(sessions))
	var out bytes.Buffer
	ask := func(one int) {
		sequences[one]++
		asked[one] = time.Now()
		fmt.Fprintf(&out, "#%d call %s %s %s %d\n", one, *procedure, args(first+one), sessions[one], sequences[one])
	}
	for one := range sessions {
		ask(one)
	}
	for left := len(sessions); left > 0; {
		if out.Len() > 0 && lines.Buffered() == 0 {
			if _, err := out.WriteTo(to); err != nil {
				return err
			}
		}
		answer, err := lines.ReadString('\n')
		if err != nil {
			return err
		}
		tag, rest, _ := strings.Cut(strings.TrimSpace(answer), " ")
		one, err := strconv.Atoi(tag[1:])
		if err != nil {
			return errors.New(answer)
		}
		word, _, _ := strings.Cut(rest, " ")
		found.add(word, time.Since(asked[one]))
		if time.Now().Before(until) {
			ask(one)
		} else {
			left--
		}
	}
	return nil
}

func overHTTP(place string, key int, until time.Time, found *counted) error {
	client := &http.Client{Transport: &http.Transport{MaxIdleConnsPerHost: 1024}}
	post := func(path, body string) (map[string]any, error) {
		answer, err := client.Post(place+path, "application/json", strings.NewReader(body))
		if err != nil {
			return nil, err
		}
		defer answer.Body.Close()
		var it map[string]any
		err = json.NewDecoder(answer.Body).Decode(&it)
		return it, err
	}
	begun, err := post("/v1/sessions", "{}")
	if err != nil {
		return err
	}
	for sequence := 1; time.Now().Before(until); sequence++ {
		asked := time.Now()
		answer, err := post("/v1/call/"+*procedure, fmt.Sprintf(`{"args":"%s","session":"%v","sequence":%d}`, args(key), begun["session"], sequence))
		if err != nil {
			return err
		}
		found.add(fmt.Sprint(answer["answer"]), time.Since(asked))
	}
	return nil
}
