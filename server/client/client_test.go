package client

import (
	"bufio"
	"context"
	"errors"
	"net"
	"os"
	"path/filepath"
	"reflect"
	"strings"
	"sync"
	"testing"
	"time"
)

const greeting = "hello 00000000000000000000000000000000 1 5 16"

// stranger answers each line by the next of a list; an empty one closes the connection.
type stranger struct {
	path    string
	mutex   sync.Mutex
	answers []string
	asked   []string
}

func serve(t *testing.T, answers ...string) *stranger {
	t.Helper()
	s := &stranger{path: filepath.Join(t.TempDir(), "socket"), answers: answers}
	listener, err := net.Listen("unix", s.path)
	if err != nil {
		t.Fatal(err)
	}
	t.Cleanup(func() { listener.Close() })
	go func() {
		for {
			accepted, err := listener.Accept()
			if err != nil {
				return
			}
			s.serve(accepted)
		}
	}()
	return s
}

func (s *stranger) serve(accepted net.Conn) {
	defer accepted.Close()
	lines := bufio.NewReader(accepted)
	for {
		line, err := lines.ReadString('\n')
		if err != nil {
			return
		}
		s.mutex.Lock()
		s.asked = append(s.asked, strings.TrimSuffix(line, "\n"))
		answer := ""
		if len(s.answers) > 0 {
			answer, s.answers = s.answers[0], s.answers[1:]
		}
		s.mutex.Unlock()
		if answer == "" {
			return
		}
		accepted.Write([]byte(answer + "\n"))
	}
}

func (s *stranger) calls() []string { return s.all("call ") }

// all returns the lines that were asked and begin in one of these ways.
func (s *stranger) all(beginnings ...string) []string {
	s.mutex.Lock()
	defer s.mutex.Unlock()
	var found []string
	for _, line := range s.asked {
		for _, it := range beginnings {
			if strings.HasPrefix(line, it) {
				found = append(found, line)
			}
		}
	}
	return found
}

func within(t *testing.T, limit time.Duration) context.Context {
	ctx, cancel := context.WithTimeout(context.Background(), limit)
	t.Cleanup(cancel)
	return ctx
}

func TestACallIsAskedUntilItIsSettled(t *testing.T) {
	for _, it := range []struct {
		name    string
		answers []string
		calls   []string
		want    string
		left    bool // whether the call isn't settled
	}{
		{"at once", []string{greeting, "session 7", "committed 8 reply 1"}, []string{"call add 01 7 1 upto 21 within 2"}, "committed 8 reply 1", false},
		{"an answer is lost", []string{greeting, "session 7", "", greeting, "committed 30 reply 1"},
			[]string{"call add 01 7 1 upto 21 within 2", "call add 01 7 1 fresh after 21 upto 37 within 2"}, "committed 30 reply 1", false},
		{"late, and then lost", []string{greeting, "session 7", "late 100", greeting, "", greeting, "conflict 140 3"},
			[]string{"call add 01 7 1 upto 21 within 2", "call add 01 7 1 upto 116 within 2", "call add 01 7 1 fresh after 116 upto 132 within 2"}, "conflict 140 3", false},
		{"a line at fault behind a copy", []string{greeting, "session 7", "", greeting, "fault L4", "committed 60 reply 1"},
			[]string{"call add 01 7 1 upto 21 within 2", "call add 01 7 1 fresh after 21 upto 37 within 2", "call add 01 7 1 fresh after 37 upto 53 within 2"}, "committed 60 reply 1", false},
		{"no role", []string{greeting, "session 7", "refused role"}, []string{"call add 01 7 1 upto 21 within 2"}, "refused role", false},
		{"no memory", []string{greeting, "session 7", "refused P9"}, []string{"call add 01 7 1 upto 21 within 2"}, "refused P9", true},
	} {
		s := serve(t, it.answers...)
		store := &Memory{State{Next: 1}}
		c, err := Open(Options{Servers: []string{s.path}, Store: store, Within: 2 * time.Second})
		if err != nil {
			t.Fatal(err)
		}
		answer, err := c.Call(within(t, 20*time.Second), "add", []byte{1}, When{})
		if errors.Is(err, ErrUnsettled) != it.left || answer.Line != it.want || !reflect.DeepEqual(s.calls(), it.calls) {
			t.Errorf("%s: %q, %v; asked %q", it.name, answer.Line, err, s.calls())
		}
		if _, left := c.Unsettled(); left != it.left {
			t.Errorf("%s: unsettled %v", it.name, left)
		}
		c.Close()
		if left := store.state.Call != ""; left != it.left {
			t.Errorf("%s: kept %v", it.name, left)
		}
	}
}

// A call that was asked for the first time wasn't done where its session is over. Of another one nobody knows.
func TestASessionThatIsOver(t *testing.T) {
	for _, it := range []struct {
		name    string
		answers []string
		asked   []string // sessions and calls
		want    string
		lost    bool
		left    State // behind Close
	}{
		{"a first ask", []string{greeting, "refused P15", "session 9", "committed 8 reply 1"},
			[]string{"call add 01 7 3 upto 21 within 2", "session", "call add 01 9 1 upto 21 within 2"}, "committed 8 reply 1", false,
			State{Session: 9, Next: 2}},
		{"late, which was no ask", []string{greeting, "late 100", greeting, "refused P15", "session 9", "read 101 reply 1"},
			[]string{"call add 01 7 3 upto 21 within 2", "call add 01 7 3 upto 116 within 2", "session", "call add 01 9 1 upto 116 within 2"},
			"read 101 reply 1", false, State{Session: 9, Next: 2}},
		{"first asks of two sessions", []string{greeting, "refused P15", "session 9", "refused P15"},
			[]string{"call add 01 7 3 upto 21 within 2", "session", "call add 01 9 1 upto 21 within 2"}, "refused P15", false, State{Next: 1}},
		{"behind a copy", []string{greeting, "", greeting, "refused P15"},
			[]string{"call add 01 7 3 upto 21 within 2", "call add 01 7 3 fresh after 21 upto 37 within 2"}, "refused P15", true, State{Next: 1}},
		{"behind a copy in the second session", []string{greeting, "refused P15", "session 9", "unknown order", greeting, "refused P15"},
			[]string{"call add 01 7 3 upto 21 within 2", "session", "call add 01 9 1 upto 21 within 2", "call add 01 9 1 fresh after 21 upto 37 within 2"},
			"refused P15", true, State{Next: 1}},
	} {
		s := serve(t, it.answers...)
		store := &Memory{State{Session: 7, Next: 3}}
		c, err := Open(Options{Servers: []string{s.path}, Store: store, Within: 2 * time.Second})
		if err != nil {
			t.Fatal(err)
		}
		answer, err := c.Call(within(t, 20*time.Second), "add", []byte{1}, When{})
		if errors.Is(err, ErrSessionLost) != it.lost || err != nil && !it.lost || answer.Line != it.want {
			t.Errorf("%s: %q, %v", it.name, answer.Line, err)
		}
		if asked := s.all("call ", "session"); !reflect.DeepEqual(asked, it.asked) {
			t.Errorf("%s: asked %q", it.name, asked)
		}
		if line, is := c.Unsettled(); is {
			t.Errorf("%s: unsettled %q", it.name, line)
		}
		it.left.Database = strings.Repeat("0", 32)
		if c.Close(); store.state != it.left {
			t.Errorf("%s: left %+v", it.name, store.state)
		}
	}
}

func TestALostSessionIsToldUntilItIsHandedOn(t *testing.T) {
	store := &Memory{State{Session: 7, Next: 4, Call: "call add 01 7 3", Upto: 21}}
	s := serve(t, greeting, "refused P15", greeting, "refused P15", "session 9", "committed 8 reply 1")
	for turn := 0; turn < 2; turn++ {
		c, _ := Open(Options{Servers: []string{s.path}, Store: store, Within: 2 * time.Second})
		if answer, err := c.Settle(within(t, 10*time.Second)); !errors.Is(err, ErrSessionLost) || answer.Line != "refused P15" {
			t.Error(answer, err)
		}
		if turn == 0 {
			c.Abandon()
			continue
		}
		if session, err := c.Session(within(t, 10*time.Second)); err != nil || session != 9 {
			t.Error(session, err)
		}
		if answer, err := c.Call(within(t, 10*time.Second), "add", []byte{2}, When{}); err != nil || answer.Line != "committed 8 reply 1" {
			t.Error(answer, err)
		}
		c.Close()
	}
	want := []string{"call add 01 7 3 fresh after 21 upto 37 within 2", "call add 01 7 3 fresh after 37 upto 53 within 2", "session",
		"call add 02 9 1 upto 21 within 2"}
	if asked := s.all("call ", "session"); !reflect.DeepEqual(asked, want) {
		t.Errorf("%q", asked)
	}
}

func TestWhereNobodyAnswersInTime(t *testing.T) {
	c, _ := Open(Options{Servers: []string{filepath.Join(t.TempDir(), "nobody")}})
	if _, err := c.Call(within(t, 300*time.Millisecond), "add", nil, When{}); !errors.Is(err, ErrNothingSent) {
		t.Error(err)
	}
	s := serve(t, greeting, "session 7") // and then nothing
	c, _ = Open(Options{Servers: []string{s.path}})
	if _, err := c.Call(within(t, 300*time.Millisecond), "add", nil, When{}); !errors.Is(err, ErrUnsettled) {
		t.Error(err)
	}
	if _, is := c.Unsettled(); !is {
		t.Error("it is forgotten")
	}
	if _, err := c.Call(within(t, time.Second), "add", nil, When{}); !errors.Is(err, ErrUnsettled) {
		t.Error(err)
	}
}

// Who dies with an answer in hand, or goes on, is told as the store says.
func TestAContextThatEndsBehindAnAnswer(t *testing.T) {
	answers := make([]string, 2000)
	for at := range answers {
		answers[at] = "position 0"
	}
	reached, err := (&Dialer{}).Dial(context.Background(), serve(t, answers...).path)
	if err != nil {
		t.Fatal(err)
	}
	defer reached.Close()
	for turn := range answers {
		ctx, cancel := context.WithTimeout(context.Background(), time.Minute)
		if _, err := reached.Ask(ctx, "position"); err != nil {
			t.Fatalf("turn %d: %v", turn, err)
		}
		cancel() // which is nothing to the next one
	}
}

func TestAnAnswerIsKeptUntilItIsHandedOn(t *testing.T) {
	store := &Memory{State{Next: 1}}
	s := serve(t, greeting, "session 7", "committed 8 reply 1", "committed 9 reply 2", greeting, "committed 9 reply 2")
	c, _ := Open(Options{Servers: []string{s.path}, Store: store, Within: 2 * time.Second})
	for _, want := range []string{"call add 01 7 1", "call add 01 7 2"} {
		if _, err := c.Call(within(t, 10*time.Second), "add", []byte{1}, When{}); err != nil || store.state.Call != want {
			t.Errorf("%v; %q", err, store.state.Call)
		}
	}
	c.Abandon()
	c, _ = Open(Options{Servers: []string{s.path}, Store: store, Within: 2 * time.Second})
	if !c.IsUnsettled("add", []byte{1}) || c.IsUnsettled("add", []byte{2}) || c.IsUnsettled("ad", []byte{1}) {
		t.Error("another call")
	}
	if answer, err := c.Settle(within(t, 10*time.Second)); err != nil || answer.Line != "committed 9 reply 2" {
		t.Error(answer, err)
	}
	c.Close()
	if store.state.Call != "" || store.state.Next != 3 {
		t.Errorf("%+v", store.state)
	}
}

func TestNamesThatAreNone(t *testing.T) {
	c, _ := Open(Options{Servers: []string{"nowhere"}})
	for _, name := range []string{"", "a b", "a\nposition", "a\t", "gr\u00fc"} {
		if _, err := c.Call(within(t, time.Second), name, nil, When{}); err == nil || errors.Is(err, ErrNothingSent) {
			t.Errorf("%q: %v", name, err)
		}
	}
}

func TestAnotherDatabase(t *testing.T) {
	s := serve(t, greeting, greeting, greeting)
	c, _ := Open(Options{Servers: []string{s.path}, Store: &Memory{State{Database: strings.Repeat("1", 32), Session: 3, Next: 1}}})
	var other *OtherDatabase
	if _, err := c.Call(within(t, 5*time.Second), "add", nil, When{}); !errors.As(err, &other) {
		t.Error(err)
	}
}

func TestAFileHoldsWhatWasSaved(t *testing.T) {
	path := filepath.Join(t.TempDir(), "client")
	f, err := OpenFile(path)
	if err != nil {
		t.Fatal(err)
	}
	if state, err := f.Load(); err != nil || state != (State{Next: 1}) {
		t.Error(state, err)
	}
	want := State{strings.Repeat("a", 32), 7, 3, "call add 00 7 2", 40}
	for _, state := range []State{{Next: 1}, {strings.Repeat("a", 32), 7, 3, "", 0}, want} {
		if err := f.Save(state); err != nil {
			t.Fatal(err)
		}
		if found, err := f.Load(); err != nil || found != state {
			t.Error(found, err)
		}
	}
	if _, err := OpenFile(path); err == nil || !strings.Contains(err.Error(), "another client is at work with it") {
		t.Error(err)
	}
	f.Close()
	text, _ := os.ReadFile(path)
	if string(text) != "dsmdb client 1\ndatabase "+strings.Repeat("a", 32)+"\nsession 7\nnext 3\ncall add 00 7 2 upto 40\n" {
		t.Errorf("%q", text)
	}
	os.WriteFile(path, []byte("session 7\n"), 0o600)
	if f, err = OpenFile(path); err != nil {
		t.Fatal(err)
	}
	defer f.Close()
	if _, err := f.Load(); err == nil || !strings.Contains(err.Error(), "left as it is") {
		t.Error(err)
	}
}

func TestLinesUpToTheLastOne(t *testing.T) {
	for _, it := range []struct {
		last, answer string
		rows         []string
		want         string
	}{
		{"position", "window 4\n# a note\n\n row\npositional 1\nposition\nposition 5 lines 6", []string{"window 4", "# a note", "", " row", "positional 1", "position"}, "position 5 lines 6"},
		{"settings", "window 4\nposition 5 lines 1\nsettings 2 9 ab", []string{"window 4", "position 5 lines 1"}, "settings 2 9 ab"},
		{"position", "refused role", nil, "refused role"},
		{"position", "fault L2", nil, "fault L2"},
		{"position", "window 4\nunknown stopping", []string{"window 4"}, "unknown stopping"},
	} {
		reached, err := (&Dialer{}).Dial(context.Background(), serve(t, it.answer).path)
		if err != nil {
			t.Fatal(err)
		}
		defer reached.Close()
		var rows []string
		last, err := reached.LinesUntil(within(t, 10*time.Second), "dump", it.last, func(row string) error { rows = append(rows, row); return nil })
		if err != nil || last != it.want || !reflect.DeepEqual(rows, it.rows) {
			t.Errorf("%q: %q, %q, %v", it.answer, rows, last, err)
		}
	}
}

func TestLinesAreAskedAgainWhereNoneWasHandedOver(t *testing.T) {
	for _, it := range []struct {
		answers []string
		rows    int
		want    string
		failed  bool
	}{
		{[]string{greeting, "unknown order", greeting, "window 4\nposition 5 lines 1"}, 1, "position 5 lines 1", false},
		{[]string{greeting, "", greeting, "position 5 lines 0"}, 0, "position 5 lines 0", false},
		{[]string{greeting, "window 4\nunknown stopping", greeting, "position 5 lines 0"}, 1, "unknown stopping", true},
	} {
		c, _ := Open(Options{Servers: []string{serve(t, it.answers...).path}})
		rows := 0
		last, err := c.LinesUntil(within(t, 10*time.Second), "dump", "position", func(string) error { rows++; return nil })
		if (err != nil) != it.failed || rows != it.rows || last != it.want {
			t.Errorf("%q: %d rows, %q, %v", it.answers, rows, last, err)
		}
	}
}

// Rows are handed over as they come: the server sends the next one once the one before was taken.
func TestLinesAreHandedOverAsTheyCome(t *testing.T) {
	ours, theirs := net.Pipe()
	defer theirs.Close()
	taken := make(chan string)
	go func() {
		bufio.NewReader(theirs).ReadString('\n')
		for _, row := range []string{"row 1 1 00", "row 1 2 00"} {
			theirs.Write([]byte(row + "\n"))
			if <-taken != row {
				return // and the client waits until its time is over
			}
		}
		theirs.Write([]byte("position 2 lines 2\n"))
	}()
	c := &Conn{net: ours, from: bufio.NewReader(ours)}
	last, err := c.LinesUntil(within(t, 10*time.Second), "dump", "position", func(row string) error { taken <- row; return nil })
	if err != nil || last != "position 2 lines 2" {
		t.Error(last, err)
	}
}
