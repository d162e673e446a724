package site

import (
	"context"
	"encoding/binary"
	"encoding/hex"
	"fmt"
	"io"
	"os"
	"strings"
	"sync"
	"sync/atomic"
	"testing"
	"time"

	"dsmdb/server/batch"
	"dsmdb/server/engine"
	"dsmdb/server/order"
	"dsmdb/server/wire"
)

const limit = 30 * time.Second // after which a test has failed

const (
	add = "79160000000000007917080000000000b701000001000000bf62000000000000bfa300000000000007030000f8ffffff8500000001000000" +
		"79a8f8ff000000000f780000000000007b8af8ff00000000b701000001000000bf62000000000000bfa300000000000007030000f8ffffff" +
		"8500000002000000bf800000000000009500000000000000"
	claim = "7916000000000000b701000001000000bf62000000000000bfa300000000000007030000f8ffffff85000000010000001500020000000000" +
		"b7010000010000008500000006000000b701000001000000bf62000000000000bfa300000000000007030000f8ffffff8500000002000000" +
		"b7000000000000009500000000000000"
	one      = "b7000000010000009500000000000000"
	settings = "window 4\ntable 1 8\nadditions\nproc add 1 16 " + add + "\nproc claim 2 8 " + claim + "\n"
)

// atStart is the vote of a maker whose engine has no string yet.
var atStart = batch.Vote{Answers: batch.OfSettings([]byte(settings))}

// words_ returns arguments of 8 bytes each as HEX.
func words_(numbers ...uint64) string {
	var found []byte
	for _, it := range numbers {
		found = binary.LittleEndian.AppendUint64(found, it)
	}
	return hex.EncodeToString(found)
}

// increment returns the entry of an increment of a row that isn't there, or that holds reply less delta.
func increment(session, sequence uint32, key, delta uint64, snapshot uint32, reply uint64) []byte {
	text := []byte{1}
	for _, it := range []uint32{session, sequence, 0} {
		text = binary.LittleEndian.AppendUint32(text, it)
	}
	rest, _ := hex.DecodeString("01001000" + words_(key, delta))
	text = binary.LittleEndian.AppendUint32(append(text, rest...), snapshot)
	rest, _ = hex.DecodeString(words_(reply) + "010001" + words_(key, key) + "010001" + words_(key) + "01" + words_(reply))
	return append(text, rest...)
}

// rig is a site that runs in a test.
type rig struct {
	t     *testing.T
	seat  *seat
	site  *Site
	asked interface{ Ask(...*Request) }
	stop  context.CancelFunc
	ended chan error
	pid   atomic.Value // of the engine: func()
}

func program(t *testing.T) string {
	t.Helper()
	found := os.Getenv("DSMDB")
	if found == "" {
		t.Skip("DSMDB names no program")
	}
	return found
}

// run runs a site over an order, and waits until it has caught up.
func run(t *testing.T, of *shared, name byte, change func(*Options)) *rig {
	t.Helper()
	path := program(t)
	r := &rig{t: t, seat: of.sit(batch.ID{name}), ended: make(chan error, 1)}
	options := Options{
		Settings: []byte(settings), Number: 1, Order: r.seat, Maker: batch.ID{name}, Patience: limit,
		Say: t.Logf, Warn: t.Logf,
	}
	options.Start = func(ctx context.Context) (Engine, error) {
		started, err := engine.Start(ctx, path, options.Settings)
		if err != nil {
			return nil, err
		}
		r.pid.Store(started.Kill)
		return started, nil
	}
	if change != nil {
		change(&options)
	}
	r.site = New(options)
	r.seat.set(func() { r.seat.vote = r.site.Vote })
	ctx, stop := context.WithCancel(context.Background())
	r.stop = stop
	go func() { r.ended <- r.site.Run(ctx) }()
	t.Cleanup(func() {
		stop()
		r.seat.Close()
		<-r.site.closed
	})
	return r
}

// asker waits for one answer.
type asker struct {
	found chan Answer
	gone  atomic.Bool
}

func (a *asker) Answer(_ *Request, answer Answer) { a.found <- answer }
func (a *asker) Flush()                           {}
func (a *asker) Gone() bool                       { return a.gone.Load() }

func (r *rig) asks(line string) *asker {
	r.t.Helper()
	read, err := wire.Read(line)
	if err != nil {
		r.t.Fatalf("%s: %v", line, err)
	}
	a := &asker{found: make(chan Answer, 1)}
	if request := (&Request{Ask: read.Ask, Asker: a}); r.asked != nil {
		r.asked.Ask(request)
	} else if !r.site.Ask(request) {
		r.t.Fatal("the site has ended")
	}
	return a
}

func (r *rig) answer(a *asker) string {
	r.t.Helper()
	select {
	case answer := <-a.found:
		if answer.Kind == Rows {
			lines, err := answer.Lines.Reader()
			if err != nil {
				r.t.Fatal(err)
			}
			text, err := io.ReadAll(lines)
			if err != nil {
				r.t.Fatal(err)
			}
			answer.Lines.Close()
			return string(text)
		}
		return string(answer.AppendLine(nil))
	case <-time.After(limit):
		r.t.Fatal("no answer")
		return ""
	}
}

// caughtUp waits until the site has what stood in the order.
func (r *rig) caughtUp() *rig {
	r.t.Helper()
	until(r.t, func() bool { found, _ := r.site.Snapshot(); return found.CaughtUp })
	return r
}

func (r *rig) ask(line string) string { r.t.Helper(); return r.answer(r.asks(line)) }

func (r *rig) want(line, answer string) {
	r.t.Helper()
	if found := r.ask(line); found != answer {
		r.t.Errorf("%s: %s, and not %s", line, found, answer)
	}
}

// session begins a session.
func (r *rig) session() string {
	r.t.Helper()
	return strings.TrimPrefix(r.ask("session"), "session ")
}

// ends waits until the site has ended by itself.
func (r *rig) ends(why string) {
	r.t.Helper()
	select {
	case err := <-r.ended:
		if err == nil || !strings.Contains(err.Error(), why) {
			r.t.Errorf("it ended: %v", err)
		}
	case <-time.After(limit):
		r.t.Fatal("it doesn't end")
	}
}

// until waits until something holds.
func until(t *testing.T, holds func() bool) {
	t.Helper()
	for end := time.Now().Add(limit); !holds(); time.Sleep(time.Millisecond) {
		if time.Now().After(end) {
			t.Fatal("it didn't come to be")
		}
	}
}

func TestWhatIsAnswered(t *testing.T) {
	r := run(t, newShared(), 1, nil)
	s := r.session()
	if s != "2" {
		t.Fatalf("the first session is %s", s)
	}
	for _, it := range [][2]string{
		{"call add " + words_(5, 10) + " 2 1", "committed 3 reply 10"},
		{"call add " + words_(5, 10) + " 2 1", "committed 3 reply 10"},
		{"call add " + words_(5, 11) + " 2 1", "other 3"},
		{"call claim " + words_(5) + " 2 1", "other 3"},
		{"call claim " + words_(5) + " 2 2", "cancelled 3 code 1"},
		{"add one 9 0 " + one, "added 9"},
		{"add one 9 0 " + one, "added 9"},
		{"add add 1 16 " + add, "added 1"},
		{"add one 10 0 " + one, "taken C1"},
		{"add two 9 0 " + one, "taken C2"},
		{"add on-e 9 0 " + one, "refused P12"},
		{"add one 9 0 95", "refused P11 B1 slot 0"},
		{"call one - 2 2", "read 6 reply 1"},
		{"call one - 0 0", "read 6 reply 1"},
		{"call none - 1 1", "refused P2"},
		{"call one 00 1 1", "refused P3"},
		{"call one - 1 0", "refused P13"},
		{"call add " + words_(5, 10) + " 0 0", "refused P13"},
		{"call claim " + words_(5) + " 0 0", "cancelled 6 code 1"},
		{"call add " + words_(5, 1) + " 2 3 upto 5", "late 6"},
		{"call add " + words_(5, 1) + " 2 3 upto 6", "committed 7 reply 11"},
		{"rows", " 1                    5 0b00000000000000\nposition 7 rows 1\n"},
		{"scan 1 5 5 9", " 1                    5 0b00000000000000\nposition 7 rows 1\n"},
		{"scan 1 6 9 9", "position 7 rows 0\n"},
		{"scan 1 9 5 9", "position 7 rows 0\n"},
		{"scan 2 0 9 9", "refused P16"},
		{"position", "position 7"},
	} {
		r.want(it[0], it[1])
	}
	hello := r.ask("hello")
	if hello != "hello da"+strings.Repeat("0", 30)+" 1 7 16" {
		t.Error(hello)
	}
	// strings that hold no place are those refused before they are appended
	if r.seat.of.end != 7 {
		t.Errorf("the order has %d strings", r.seat.of.end)
	}
}

func TestAdditionsThatSettingsDontAllow(t *testing.T) {
	closed := strings.Replace(settings, "additions\n", "", 1)
	r := run(t, newShared(), 1, func(o *Options) { o.Settings = []byte(closed) })
	r.want("add one 9 0 "+one, "refused P14")
	r.want("add add 1 16 "+add, "added 1")
}

// overtaken asks a line before whose append a stranger has appended strings, and returns the answer.
func (r *rig) overtaken(line string, texts ...[]byte) string {
	r.t.Helper()
	r.seat.hold(true)
	asked := r.asks(line)
	until(r.t, func() bool { return r.seat.isWaiting(1) })
	r.seat.of.insert(batch.ID{9}, atStart, texts...)
	r.seat.hold(false)
	return r.answer(asked)
}

func TestConflictStaleAndARepeat(t *testing.T) {
	of := newShared()
	r := run(t, of, 1, nil)
	r.session()
	asked := "call add " + words_(5, 10) + " 2 "
	for _, it := range []struct {
		line  string
		texts [][]byte
		want  string
	}{
		// a try on newer rows isn't allowed, so what the first one came to is told
		{asked + "1 upto 2", [][]byte{increment(1002, 1, 5, 7, 2, 7)}, "conflict 4 3"},
		{asked + "1 upto 4", [][]byte{{}, {}, {}, {}, {}}, "stale 10"},
		// and else the call is tried again
		{asked + "1", [][]byte{increment(1002, 2, 5, 1, 10, 8)}, "committed 13 reply 18"},
		{asked + "2", [][]byte{{}, {}, {}, {}, {}}, "committed 20 reply 28"},
		{"call add " + words_(6, 10) + " 2 3", [][]byte{increment(2, 3, 6, 10, 20, 10)}, "committed 21 reply 10"},
		{"call add " + words_(6, 11) + " 2 4", [][]byte{increment(2, 4, 6, 10, 22, 20)}, "other 23"},
	} {
		if found := r.overtaken(it.line, it.texts...); found != it.want {
			t.Errorf("%s: %s, and not %s", it.line, found, it.want)
		}
	}
}

func TestWhatWasDoneBeforeTheOrder(t *testing.T) {
	before := settings + "request 7 3 10 1 " + words_(5, 10) + "\nrequest 8 0 0 0 -\nrequest 9 1 4 3 -\n"
	r := run(t, newShared(), 1, func(o *Options) { o.Settings = []byte(before) })
	r.want("call add "+words_(5, 10)+" 7 3", "committed 0 reply 10")
	r.want("call add "+words_(5, 11)+" 7 3", "other 0")
	r.want("call claim "+words_(5)+" 7 3", "other 0")
	r.want("call add "+words_(5, 10)+" 9 1", "other 0")
	r.want("call add "+words_(5, 10)+" 7 4", "committed 2 reply 10")
	r.want("call add "+words_(5, 10)+" 8 1", "committed 3 reply 20")
}

func TestAfterFreshAndPatience(t *testing.T) {
	of := newShared()
	r, two := run(t, of, 1, nil).caughtUp(), run(t, of, 2, nil)
	s := r.session()
	for sequence := 1; sequence <= 20; sequence++ {
		if found := r.ask(fmt.Sprintf("call add %s %s %d", words_(5, 1), s, sequence)); !strings.HasPrefix(found, "committed") {
			t.Fatal(found)
		}
		if found := two.ask("call claim " + words_(5) + " 0 0 fresh"); !strings.HasPrefix(found, "cancelled") {
			t.Fatal(found)
		}
	}
	r.want("call add "+words_(5, 1)+" "+s+" 100 after 1000000 within 1", "unknown time")
	found := r.ask("call add " + words_(5, 1) + " " + s + " 100 fresh after 40")
	if found != "committed 41 reply 21" { // the order was filled up to there
		t.Error(found)
	}
	found = r.ask("call add " + words_(5, 1) + " " + s + " 101 fresh after 5000")
	if found != "committed 5001 reply 22" {
		t.Error(found)
	}
	if found := strings.Fields(r.ask("hello")); found[3] != "5001" || found[4] != "16" { // what it was filled up with doesn't count
		t.Error(found)
	}
}

func TestWhatStoodInTheOrderAtTheStartIsNoGrowth(t *testing.T) {
	of := newShared()
	texts := [][]byte{order.First([]byte(settings), false)}
	for len(texts) < 1000 {
		texts = append(texts, []byte{7})
	}
	of.insert(batch.ID{9}, atStart, texts...)
	r := run(t, of, 1, nil).caughtUp()
	if found := strings.Fields(r.ask("hello")); found[3] != "1000" || found[4] != "16" {
		t.Error(found)
	}
}

func TestWhoHasLeftIsDropped(t *testing.T) {
	of := newShared()
	r := run(t, of, 1, nil)
	for at := 0; at < 3; at++ {
		r.session()
	}
	r.seat.hold(true)
	left, stays := r.asks("call add "+words_(5, 10)+" 2 1"), r.asks("call add "+words_(6, 10)+" 3 1")
	until(t, func() bool { return r.seat.isWaiting(2) })
	left.gone.Store(true)
	late := r.asks("call add " + words_(7, 10) + " 4 1 within 1")
	if found := r.answer(late); found != "unknown time" {
		t.Error(found)
	}
	r.seat.hold(false)
	if found := r.answer(stays); found != "committed 5 reply 10" {
		t.Error(found)
	}
	r.want("rows", " 1                    6 0a00000000000000\nposition 5 rows 1\n")
}

func TestCallsOfASessionWaitForEachOther(t *testing.T) {
	r := run(t, newShared(), 1, nil)
	s, another := r.session(), r.session()
	r.seat.hold(true)
	asked := "call add " + words_(5, 1) + " "
	first, second, third := r.asks(asked+s+" 2"), r.asks(asked+s+" 1 within 1"), r.asks(asked+s+" 1")
	until(t, func() bool { return r.seat.isWaiting(1) })
	beside := r.asks("call add " + words_(6, 1) + " " + another + " 1")
	until(t, func() bool { return r.seat.isWaiting(2) })
	if found := r.answer(second); found != "unknown time" { // though it was never out
		t.Error(found)
	}
	if r.seat.isWaiting(3) {
		t.Error("two calls of a session are out")
	}
	r.seat.hold(false)
	for _, it := range []struct {
		of   *asker
		want string
	}{{first, "committed 4 reply 1"}, {beside, "committed 5 reply 1"}, {third, "committed 6 reply 2"}} {
		if found := r.answer(it.of); found != it.want {
			t.Errorf("%s, and not %s", found, it.want)
		}
	}
}

func TestWhoHasLeftHoldsNoSessionUp(t *testing.T) {
	r := run(t, newShared(), 1, nil)
	s := r.session()
	left := r.asks("call add " + words_(5, 1) + " " + s + " 1 after 1000000")
	left.gone.Store(true)
	r.want("call add "+words_(5, 1)+" "+s+" 2", "committed 3 reply 1")
}

func TestAFullOrder(t *testing.T) {
	r := run(t, newShared(), 1, nil)
	s := r.session()
	r.seat.set(func() { r.seat.full = true })
	r.want("call add "+words_(5, 10)+" "+s+" 1", "full")
	r.want("call claim "+words_(5)+" 0 0", "refused P13")
	r.seat.set(func() { r.seat.full = false })
	r.want("call add "+words_(5, 10)+" "+s+" 1 fresh", "committed 3 reply 10")
}

func TestAnOrderOfOtherSettings(t *testing.T) {
	of := newShared()
	of.insert(batch.ID{9}, atStart, order.First([]byte("window 5\n"), false))
	run(t, of, 1, nil).ends("other settings")
}

func TestSomeSitesAreAlike(t *testing.T) {
	of := newShared()
	all := []*rig{run(t, of, 1, nil), run(t, of, 2, nil), run(t, of, 3, nil)}
	var working sync.WaitGroup
	for number, r := range all {
		s := r.session()
		for client := 0; client < 8; client++ {
			line := fmt.Sprintf("call add %s %s %d", words_(5, 1), s, client+1)
			if client%2 == 0 {
				line = fmt.Sprintf("call add %s %s %d", words_(uint64(100*number+client), 1), s, client+1)
			}
			working.Add(1)
			go func(r *rig) {
				defer working.Done()
				if found := r.ask(line); !strings.HasPrefix(found, "committed") {
					t.Errorf("%s: %s", line, found)
				}
			}(r)
		}
	}
	working.Wait()
	of.mutex.Lock()
	end := of.end
	of.mutex.Unlock()
	var rows, digests []string
	for _, r := range all {
		until(t, func() bool { found, _ := r.site.Snapshot(); return found.Position >= end })
		found, _ := r.site.Snapshot()
		rows, digests = append(rows, r.ask("rows")), append(digests, hex.EncodeToString(found.Digest[:]))
	}
	if rows[0] != rows[1] || rows[1] != rows[2] || digests[0] != digests[1] || digests[1] != digests[2] {
		t.Errorf("%q, %q", rows, digests)
	}
	if !strings.Contains(rows[0], "5 0c00000000000000") { // twelve increments
		t.Error(rows[0])
	}
}
