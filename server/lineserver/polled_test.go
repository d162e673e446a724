package lineserver

import (
	"bufio"
	"context"
	"errors"
	"fmt"
	"io"
	"net"
	"path/filepath"
	"strings"
	"testing"
	"time"

	"dsmdb/server/access"
	"dsmdb/server/batch"
	"dsmdb/server/order"
	"dsmdb/server/site"
)

// engineOf answers each string of the order, and rows.
type engineOf struct {
	answers  chan []byte
	position int
	rows     string
}

func (e *engineOf) Ask(lines []byte) {
	var text strings.Builder
	for _, line := range strings.Split(strings.TrimSuffix(string(lines), "\n"), "\n") {
		if line == "rows" {
			fmt.Fprintf(&text, "%sposition %d rows %d\n", e.rows, e.position, strings.Count(e.rows, "\n"))
		} else {
			e.position++
			fmt.Fprintf(&text, "entry %d nothing E1\n", e.position)
		}
	}
	e.answers <- []byte(text.String())
}

func (*engineOf) Unsent() int                       { return 0 }
func (e *engineOf) Answers() <-chan []byte          { return e.answers }
func (*engineOf) Err() error                        { return nil }
func (*engineOf) Processor() (time.Duration, error) { return 0, nil }
func (*engineOf) Memory() (uint64, error)           { return 0, nil }
func (*engineOf) Kill()                             {}
func (*engineOf) Close()                            {}

// serving has a server of these limits, whose rows are given, answer in each way, and calls try with how to reach the
// server.
func serving(t *testing.T, limits Limits, rows string, try func(t *testing.T, s *Server, dial func() net.Conn)) {
	for _, kind := range []string{"unix", "tcp", "streamed"} {
		t.Run(kind, func(t *testing.T) {
			over := order.OpenLocal(t.TempDir(), order.Maker{ID: batch.ID{1}})
			quiet := func(string, ...any) {}
			running := site.NewDatabase(site.DatabaseOptions{
				Site: site.Options{Number: 1, Maker: batch.ID{1}, Patience: time.Minute, Say: quiet, Warn: quiet},
				Open: func(uint64, batch.ID, func() batch.Vote) (order.Order, error) { return over, nil },
				Start: func(context.Context, uint64, []byte) (site.Engine, error) {
					return &engineOf{answers: make(chan []byte, 100), rows: rows}, nil
				},
			})
			ctx, stop := context.WithCancel(context.Background())
			ended := make(chan error, 2)
			go func() { ended <- running.Run(ctx) }()
			network, address := kind, "127.0.0.1:0"
			if kind != "tcp" {
				network, address = "unix", filepath.Join(t.TempDir(), "socket")
			}
			listener, err := net.Listen(network, address)
			if err != nil {
				t.Fatal(err)
			}
			s := &Server{Site: running, Policy: access.Without(true), Limits: limits, Warn: t.Logf}
			serve := func() error { return s.Serve(ctx, listener) }
			if kind == "streamed" {
				serve = func() error { return serveStreamed(s, listener) }
			}
			go func() { ended <- serve() }()
			for { // up to the order's first string
				if found, is := running.Snapshot(); is && found.Position > 0 {
					break
				}
				time.Sleep(time.Millisecond)
			}
			try(t, s, func() net.Conn {
				reached, err := net.Dial(network, listener.Addr().String())
				if err != nil {
					t.Fatal(err)
				}
				reached.SetDeadline(time.Now().Add(time.Minute))
				t.Cleanup(func() { reached.Close() })
				return reached
			})
			s.Close()
			stop()
			listener.Close()
			for range [2]int{} {
				if err := <-ended; err != nil {
					t.Error(err)
				}
			}
		})
	}
}

// serveStreamed takes connections as those over TLS are.
func serveStreamed(s *Server, listener net.Listener) error {
	for {
		accepted, err := listener.Accept()
		if err != nil {
			return nil
		}
		if !s.enter() || !s.begin() {
			accepted.Close()
			continue
		}
		go func() {
			defer s.all.Done()
			defer s.leave()
			s.runStreamed(newStreamed(s, accepted, s.Policy.Local()))
		}()
	}
}

func TestLinesOfOneConnection(t *testing.T) {
	limits := DefaultLimits
	limits.Requests, limits.Bytes = 10, 100 // so that lines wait for room again and again
	serving(t, limits, "", func(t *testing.T, _ *Server, dial func() net.Conn) {
		for _, tagged := range []bool{false, true} {
			client := dial()
			var text strings.Builder
			for number := 0; number < 3000; number++ {
				if tagged {
					fmt.Fprintf(&text, "#%d position\n", number)
				} else {
					fmt.Fprintf(&text, "position\n# a comment\n\nnoword\n")
				}
			}
			go func() {
				io.WriteString(client, text.String())
				client.(interface{ CloseWrite() error }).CloseWrite()
			}()
			answers, count := bufio.NewScanner(client), 0
			for ; answers.Scan(); count++ {
				wanted := [2]string{"position 1", "fault L2"}[count%2]
				if tagged {
					wanted = fmt.Sprintf("#%d position 1", count)
				}
				if answers.Text() != wanted {
					t.Fatalf("answer %d is %q, not %q", count, answers.Text(), wanted)
				}
			}
			if wanted := map[bool]int{false: 6000, true: 3000}[tagged]; count != wanted || answers.Err() != nil {
				t.Errorf("%d answers, not %d: %v", count, wanted, answers.Err())
			}
		}
	})
}

func TestWhoIsSilentLosesTheConnection(t *testing.T) {
	for name, sent := range map[string]string{"nothing": "", "half a line": "positi"} {
		limits := DefaultLimits
		if sent == "" {
			limits.Idle = 10 * time.Millisecond
		} else {
			limits.Line = 10 * time.Millisecond
		}
		serving(t, limits, "", func(t *testing.T, s *Server, dial func() net.Conn) {
			client := dial()
			io.WriteString(client, sent)
			if count, err := client.Read(make([]byte, 1)); count != 0 || err != io.EOF {
				t.Errorf("%s: %d bytes, %v", name, count, err)
			}
		})
	}
}

func TestWhoDoesNotReadLosesTheConnection(t *testing.T) {
	limits := DefaultLimits
	limits.Send, limits.Bytes = 10*time.Millisecond, 1000
	serving(t, limits, "", func(t *testing.T, s *Server, dial func() net.Conn) {
		silent, other := dial(), dial()
		lines := strings.Repeat("#1 position\n", 1000)
		written := 0
		for {
			count, err := io.WriteString(silent, lines)
			if written += count; err == nil {
				continue
			}
			var late net.Error
			if errors.As(err, &late) && late.Timeout() {
				t.Errorf("still there behind %d bytes", written)
			}
			break
		}
		// others were answered meanwhile, and are
		io.WriteString(other, "position\n")
		if answer, err := bufio.NewReader(other).ReadString('\n'); answer != "position 1\n" || err != nil {
			t.Errorf("%q, %v", answer, err)
		}
	})
}

func TestAServerThatEnds(t *testing.T) {
	serving(t, DefaultLimits, "", func(t *testing.T, s *Server, dial func() net.Conn) {
		client := dial()
		io.WriteString(client, "position\nposi")
		lines := bufio.NewReader(client)
		if answer, err := lines.ReadString('\n'); answer != "position 1\n" || err != nil {
			t.Errorf("%q, %v", answer, err)
		}
		s.Close()
		if rest, err := io.ReadAll(lines); len(rest) > 0 || err != nil {
			t.Errorf("%q, %v", rest, err)
		}
		if open, _ := s.Open(); open != 0 {
			t.Errorf("%d connections are open", open)
		}
		late := dial() // taken by nobody, or closed at once
		if count, err := late.Read(make([]byte, 1)); count != 0 || err == nil {
			t.Errorf("%d bytes, %v", count, err)
		}
	})
}

func TestRows(t *testing.T) {
	var rows strings.Builder
	for key := 0; key < 100_000; key++ {
		fmt.Fprintf(&rows, " 1 %d 0102030405060708\n", key)
	}
	serving(t, DefaultLimits, rows.String(), func(t *testing.T, s *Server, dial func() net.Conn) {
		if strings.HasSuffix(t.Name(), "/tcp") {
			return // by which nobody may read rows
		}
		for turn := 0; turn < 5; turn++ { // who leaves in the middle
			client := dial()
			io.WriteString(client, "rows\nposition\n#1 rows\n")
			io.ReadFull(client, make([]byte, 100_000))
			client.Close()
		}
		other := dial()
		for _, tag := range []string{"", "#7 "} {
			client := dial()
			io.WriteString(client, tag+"rows\n"+tag+"position\n")
			io.WriteString(other, "position\n") // which nobody holds up
			if answer, err := bufio.NewReader(other).ReadString('\n'); answer != "position 1\n" || err != nil {
				t.Errorf("%q, %v", answer, err)
			}
			lines, at := bufio.NewReader(client), 0
			for _, wanted := range strings.SplitAfter(rows.String()+"position 1 rows 100000\n", "\n") {
				if wanted == "" {
					continue
				}
				found, err := lines.ReadString('\n')
				if tag != "" && found == tag+"position 1\n" { // which may come first
					found, err = lines.ReadString('\n')
				}
				if at++; found != tag+wanted || err != nil {
					t.Fatalf("line %d is %q, not %q: %v", at, found, tag+wanted, err)
				}
			}
			client.Close()
		}
		for end := time.Now().Add(10 * time.Second); ; time.Sleep(10 * time.Millisecond) {
			if open, _ := s.Open(); open == 1 {
				break
			} else if time.Now().After(end) {
				t.Fatalf("%d connections are open", open)
			}
		}
	})
}

func TestABusyServerExpires(t *testing.T) {
	limits := DefaultLimits
	limits.Line = 10 * time.Millisecond
	serving(t, limits, "", func(t *testing.T, s *Server, dial func() net.Conn) {
		busy, over := dial(), make(chan struct{})
		defer func() { <-over }()
		stop := make(chan struct{})
		defer close(stop)
		go func() {
			defer close(over)
			for {
				select {
				case <-stop:
					return
				default:
					busy.Write([]byte("\n\n\n\n"))
				}
			}
		}()
		client := dial()
		io.WriteString(client, "posi")
		begun := time.Now()
		if count, err := client.Read(make([]byte, 1)); count != 0 || err != io.EOF || time.Since(begun) > 10*time.Second {
			t.Errorf("%d bytes, %v, after %v", count, err, time.Since(begun))
		}
	})
}

func TestLinesWithATag(t *testing.T) {
	long := strings.Repeat("x", 10_000) // which comes in parts
	found, err := io.ReadAll(&tagged{lines: bufio.NewReader(strings.NewReader("one\n" + long + "\ntwo\n")), tag: "#7 "})
	if wanted := "#7 one\n#7 " + long + "\n#7 two\n"; string(found) != wanted || err != nil {
		t.Errorf("%q, %v", found, err)
	}
}
