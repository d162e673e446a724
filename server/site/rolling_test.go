package site

import (
	"context"
	"fmt"
	"math/rand"
	"strings"
	"sync"
	"sync/atomic"
	"testing"
	"time"

	"dsmdb/server/batch"
	"dsmdb/server/ends"
	"dsmdb/server/engine"
	"dsmdb/server/order"
	"dsmdb/server/wire"
)

// endingSettings are those of a database whose orders end.
const endingSettings = "window 4\ntable 1 8\nadditions\norigin 0 0\nproc add 1 16 " + add + "\nproc claim 2 8 " + claim + "\n"

// atBeginning is the vote of a maker whose engine has no string of the first order yet.
var atBeginning = batch.Vote{Answers: batch.OfSettings([]byte(endingSettings))}

// sharedOrders are orders in memory, by their numbers.
type sharedOrders struct {
	mutex sync.Mutex
	all   map[uint64]*shared
}

func (o *sharedOrders) of(number uint64) *shared {
	o.mutex.Lock()
	defer o.mutex.Unlock()
	if o.all[number] == nil {
		o.all[number] = newShared()
	}
	return o.all[number]
}

// server is a database that runs in a test.
type server struct {
	rig
	database *Database
	mutex    sync.Mutex
	seats    map[uint64]*seat
	kept     map[uint64]string
}

func newOrders() *sharedOrders { return &sharedOrders{all: map[uint64]*shared{}} }

// serve runs a database over orders, and waits until it has caught up.
func serve(t *testing.T, over *sharedOrders, name byte, change func(*Options)) *server {
	t.Helper()
	s := serveBy(t, over, name, change, func(uint64) {}, nil)
	until(t, func() bool { found, _ := s.database.Snapshot(); return found.CaughtUp })
	return s
}

// serveBy runs a database whose orders are opened behind something, and the lines of whose engines are changed where there
// is a change.
func serveBy(t *testing.T, over *sharedOrders, name byte, change func(*Options), opens func(uint64), lines func(string) string) *server {
	t.Helper()
	path := program(t)
	s := &server{rig: rig{t: t, ended: make(chan error, 1)}, seats: map[uint64]*seat{}, kept: map[uint64]string{}}
	options := Options{
		Settings: []byte(endingSettings), Number: 1, Maker: batch.ID{name}, Patience: limit, Say: t.Logf, Warn: t.Logf,
		Rolls: Rolls{Keep: time.Hour, Began: time.Now(), Save: s.keep},
	}
	if change != nil {
		change(&options)
	}
	s.database = NewDatabase(DatabaseOptions{
		Site: options,
		Open: func(number uint64, _ batch.ID, vote func() batch.Vote) (order.Order, error) {
			opens(number)
			return s.sit(over.of(number), number, vote), nil
		},
		Start: func(ctx context.Context, _ uint64, settings []byte) (Engine, error) {
			started, err := engine.Start(ctx, path, settings)
			if err != nil || lines == nil {
				return started, err
			}
			return changedBy(started, lines), nil
		},
	})
	s.rig.asked = s.database
	ctx, stop := context.WithCancel(context.Background())
	s.stop = stop
	go func() { s.ended <- s.database.Run(ctx) }()
	t.Cleanup(func() {
		stop()
		until(t, func() bool { _, is := s.database.Snapshot(); return !is })
	})
	return s
}

// keep keeps the settings of an order.
func (s *server) keep(number uint64, settings []byte) error {
	s.mutex.Lock()
	defer s.mutex.Unlock()
	s.kept[number] = string(settings)
	return nil
}

// sit takes the server's seat at an order.
func (s *server) sit(of *shared, number uint64, vote func() batch.Vote) *seat {
	found := of.sit(s.database.Site.Maker)
	found.set(func() { found.vote = vote })
	s.mutex.Lock()
	defer s.mutex.Unlock()
	s.seats[number] = found
	return found
}

func (s *server) at(number uint64) *seat {
	s.mutex.Lock()
	defer s.mutex.Unlock()
	return s.seats[number]
}

func (s *server) settings(number uint64) string {
	s.mutex.Lock()
	defer s.mutex.Unlock()
	return s.kept[number]
}

// comesTo waits until the database is at an order, and has caught up there.
func (s *server) comesTo(number uint64) {
	s.t.Helper()
	until(s.t, func() bool { found, _ := s.database.Snapshot(); return found.Order == number && found.CaughtUp })
}

func TestADatabaseGoesOnInAnotherOrder(t *testing.T) {
	s := serve(t, newOrders(), 1, nil)
	s.want("session", "session 1")
	s.want("call add "+words_(5, 10)+" 1 1", "committed 3 reply 10")
	s.want("call add "+words_(5, 10)+" 1 3", "committed 4 reply 20")
	s.want("roll 1", "rolled 2 own")
	want := "# database da000000000000000000000000000000\n" + strings.Replace(endingSettings, "origin 0 0\n", "origin 4 1\n", 1) +
		"row 1 5 1400000000000000\nrequest 1 3 20 1 05000000000000000a00000000000000\n"
	if found := s.settings(2); found != want {
		t.Errorf("%s, and not %s", found, want)
	}
	s.want("call add "+words_(5, 10)+" 1 3 fresh", "committed 4 reply 20") // what was done in the order before is told
	s.want("call add "+words_(5, 11)+" 1 3 fresh", "other 4")
	s.want("call add "+words_(5, 10)+" 1 1 fresh", "refused P15")
	s.want("call claim "+words_(5)+" 0 0 fresh", "cancelled 5 code 1")
	s.want("rows", " 1                    5 1400000000000000\nposition 5 rows 1\n")
	s.want("scan 1 0 9 10", " 1                    5 1400000000000000\nposition 5 rows 1\n")
	s.want("roll 1", "rolled 2 other") // an order ends once
	s.want("roll 3", "refused order")
	s.want("hello", "hello da000000000000000000000000000000 2 5 16")
	s.want("call add "+words_(5, 1)+" 1 4", "committed 6 reply 21")
	s.want("session", "session 2")
	s.want("call add "+words_(6, 1)+" 2 1 after 7", "committed 8 reply 1")
	s.want("call add "+words_(6, 1)+" 2 1 upto 7", "late 8")
	if found := strings.SplitAfter(s.ask("dump"), "origin ")[1]; !strings.HasPrefix(found, "8 2\n") || !strings.HasSuffix(found, "\nposition 8 lines 10\n") {
		t.Error(found)
	}
	if found := s.database.Spans(); fmt.Sprint(found) != "[{1 0} {2 4}]" {
		t.Error(found)
	}
}

func TestServersGoOnTogether(t *testing.T) {
	over := newOrders()
	one, two := serve(t, over, 1, nil), serve(t, over, 2, nil)
	one.want("session", "session 1")
	for number := uint64(1); number <= 5; number++ {
		one.committed("call add "+words_(5, 1)+fmt.Sprintf(" 1 %d", 2*number), 2*number-1)
		one.want(fmt.Sprintf("roll %d", number), fmt.Sprintf("rolled %d own", number+1))
		two.committed("call add "+words_(5, 1)+fmt.Sprintf(" 1 %d fresh", 2*number+1), 2*number)
		one.comesTo(number + 1)
		if found := two.settings(number + 1); found != one.settings(number+1) {
			t.Errorf("%s, and %s", found, one.settings(number+1))
		}
	}
}

// committed asks a call that commits with a reply.
func (s *server) committed(line string, reply uint64) {
	s.t.Helper()
	if found := s.ask(line); !strings.HasPrefix(found, "committed ") || !strings.HasSuffix(found, fmt.Sprintf(" reply %d", reply)) {
		s.t.Errorf("%s: %s, and not reply %d", line, found, reply)
	}
}

func TestWhatIsOutAtAnEndIsAskedAgainBehindIt(t *testing.T) {
	s := serve(t, newOrders(), 1, nil)
	s.want("session", "session 1")
	s.want("session", "session 2")
	s.at(1).hold(true)
	out := s.asks("call add " + words_(5, 10) + " 1 1")
	session, roll := s.asks("session"), s.asks("roll 1 window 7")
	until(t, func() bool { return s.at(1).isWaiting(3) })
	behind := s.asks("call add " + words_(5, 7) + " 1 2")
	late := s.asks("call add " + words_(5, 7) + " 2 1 after 9")
	end, _ := wire.Read("roll 1 about 00 table 2 16")
	s.at(1).of.insert(batch.ID{9}, atBeginning, end.Ask.(*wire.Roll).End.Bytes())
	if found := s.answer(roll); found != "rolled 2 other" {
		t.Error(found)
	}
	first, second := s.answer(out), s.answer(behind) // the session's string comes between or behind
	if first != "committed 5 reply 10" && first != "committed 6 reply 10" || second != "committed 7 reply 17" {
		t.Errorf("%s and %s", first, second)
	}
	if found := s.answer(session); found != "session 3" {
		t.Error(found)
	}
	s.want("call add "+words_(6, 1)+" 3 1", "committed 8 reply 1")
	s.want("call add "+words_(7, 1)+" 3 2", "committed 9 reply 1")
	if found := s.answer(late); found != "committed 10 reply 24" {
		t.Error(found)
	}
	if found := s.settings(2); !strings.Contains(found, "window 4\ntable 1 8\ntable 2 16\n") || strings.Contains(found, "about") {
		t.Error(found)
	}
	s.want("scan 2 0 9 1", "position 10 rows 0\n")
	s.want("roll 2 table 2 16", "refused S3")
}

func TestAnOrderWithoutAnOriginDoesNotEnd(t *testing.T) {
	s := serve(t, newOrders(), 1, func(o *Options) { o.Settings = []byte(settings) })
	s.want("roll 1", "refused form")
	of := s.at(1).of
	of.insert(batch.ID{9}, atStart, (&ends.End{}).Bytes())
	until(t, func() bool { found, _ := s.database.Snapshot(); return found.Position == 2 })
	s.want("session", "session 3")
}

func TestIdleSessionsAreClosed(t *testing.T) {
	over := newOrders()
	s := serve(t, over, 1, func(o *Options) { o.Rolls.Keep = 0 })
	s.want("session", "session 1")
	s.want("session", "session 2")
	s.want("call add "+words_(5, 1)+" 1 1", "committed 4 reply 1")
	s.want("roll 1 idle", "rolled 2 own") // which closes none: both were opened, or committed, in this order
	s.comesTo(2)
	s.want("call add "+words_(5, 1)+" 1 2", "committed 6 reply 2")
	s.want("roll 2 idle", "rolled 3 own")
	s.comesTo(3)
	if found := s.settings(3); strings.Contains(found, "request 2 ") || !strings.Contains(found, "request 1 2 2 1 ") {
		t.Error(found)
	}
	s.want("call add "+words_(5, 1)+" 2 1", "refused P15")
	s.want("call add "+words_(5, 1)+" 1 3", "committed 8 reply 3")
	s.want("session", "session 3")
	young := serve(t, newOrders(), 1, nil)
	young.want("roll 1 idle", "refused keep")
}

func TestASessionThatAnotherSiteHasOpened(t *testing.T) {
	over := newOrders()
	one, two := serve(t, over, 1, nil), serve(t, over, 2, nil)
	for sequence := 1; sequence <= 10; sequence++ { // two may not have read the string that opened the session
		found := one.ask("session")
		two.want("call add "+words_(uint64(sequence), 1)+strings.TrimPrefix(found, "session")+" 1", fmt.Sprintf("committed %d reply 1", 2*sequence+1))
	}
	two.want("call add "+words_(5, 1)+" 99 1", "refused P15")
}

func TestALateCopyOfACall(t *testing.T) {
	s := serve(t, newOrders(), 1, nil)
	s.want("session", "session 1")
	s.at(1).hold(true)
	late := s.asks("call add " + words_(5, 1) + " 1 1")
	until(t, func() bool { return s.at(1).isWaiting(1) })
	s.at(1).of.insert(batch.ID{9}, atBeginning, increment(1, 2, 6, 1, 2, 1)) // the session's next call, at another site
	s.at(1).hold(false)
	if found := s.answer(late); found != "refused P15" {
		t.Error(found)
	}
	if found, _ := s.database.Snapshot(); found.Counts.Refused != 1 || found.Counts.Nothing != 0 || found.Counts.Committed != 1 {
		t.Errorf("%+v", found.Counts)
	}
}

func TestAnOrderEndsByItself(t *testing.T) {
	s := serve(t, newOrders(), 1, func(o *Options) { o.Rolls.At = 6 })
	s.want("session", "session 1")
	for sequence, position := range []int{3, 4, 5, 6} {
		s.want(fmt.Sprintf("call add %s 1 %d", words_(5, 1), sequence+1), fmt.Sprintf("committed %d reply %d", position, sequence+1))
	}
	s.comesTo(2)
	s.want("call add "+words_(5, 1)+" 1 5", "committed 8 reply 5")
}

func TestWhatStandsBehindAnEndIsNotOfTheOrder(t *testing.T) {
	over := newOrders()
	of := over.of(1)
	of.insert(batch.ID{9}, atBeginning, order.First([]byte(endingSettings), true), []byte{7})
	of.insert(batch.ID{9}, atBeginning, []byte{7}, (&ends.End{}).Bytes(), []byte{7})
	of.insert(batch.ID{9}, atBeginning, []byte{7}, (&ends.End{Window: 9}).Bytes())
	s := serve(t, over, 1, nil)
	s.comesTo(2)
	if found, _ := s.database.Snapshot(); found.Before != 3 {
		t.Errorf("order 1 has %d strings", found.Before)
	}
	if found := s.settings(2); !strings.Contains(found, "\nwindow 4\n") {
		t.Error(found)
	}
}

func TestAnOrderDoesNotEndAtItsFirstString(t *testing.T) {
	over := newOrders()
	next := ends.Identity(database) + strings.Replace(endingSettings, "origin 0 0", "origin 1 0", 1)
	over.of(2).insert(batch.ID{9}, batch.Vote{Answers: batch.OfSettings([]byte(next))}, (&ends.End{}).Bytes())
	s := serve(t, over, 1, nil)
	s.want("roll 1", "rolled 2 own")
	s.want("session", "session 1")
	if found, _ := s.database.Snapshot(); found.Order != 2 {
		t.Errorf("order %d", found.Order)
	}
}

// Engines take the next settings of each end, up to the limits of windows and tables.
func TestEnginesTakeTheNextSettings(t *testing.T) {
	path := program(t)
	drawn := rand.New(rand.NewSource(1))
	near := func(most int) int { return [...]int{0, 1, 2, most - 1, most, most + 1}[drawn.Intn(6)] }
	dump := strings.Replace(endingSettings, "origin 0 0\n", "", 1) + "row 1 5 1400000000000000\nrequest 1 3 20 1 05\n"
	dump = strings.Replace(dump, "additions\n", "additions\norigin 4 1\n", 1)
	taken := 0
	for tries := 0; tries < 300; tries++ {
		text := "\x00\x03"
		for lines := drawn.Intn(4); lines > 0; lines-- {
			text += [...]string{fmt.Sprintf("window %d\n", near(4096)), fmt.Sprintf("table %d %d\n", near(64), near(128)), "idle\n", "\n# why\n"}[drawn.Intn(4)]
		}
		how, is := ends.Of([]byte(text), []ends.Table{{Number: 1, Width: 8}})
		if !is {
			continue
		}
		taken++
		started, err := engine.Start(context.Background(), path, ends.Next(database, nil, []byte(dump), how))
		if err != nil {
			t.Fatalf("%q: %v", text, err)
		}
		started.Close()
	}
	if taken < 50 {
		t.Errorf("%d ends", taken)
	}
}

// wrongAt changes the lines of a server's engines, once it is told to.
func wrongAt(from *atomic.Bool, pairs ...string) func(string) string {
	change := strings.NewReplacer(pairs...)
	return func(line string) string {
		if from.Load() {
			return change.Replace(line)
		}
		return line
	}
}

// thirdIsWrong runs three servers, of which the third one's engine answers otherwise once it is told to. It opens later
// orders before the others do.
func thirdIsWrong(t *testing.T, from *atomic.Bool, pairs ...string) (one, two, three *server) {
	over := newOrders()
	late := func(number uint64) {
		if number > 1 {
			time.Sleep(300 * time.Millisecond)
		}
	}
	one, two = serveBy(t, over, 1, nil, late, nil), serveBy(t, over, 2, nil, late, nil)
	three = serveBy(t, over, 3, nil, func(uint64) {}, wrongAt(from, pairs...))
	one.want("session", "session 1")
	one.committed("call add "+words_(5, 10)+" 1 1", 10)
	return one, two, three
}

func TestAServerWithOtherRowsAnswersNobodyBehindAnEnd(t *testing.T) {
	var from atomic.Bool
	from.Store(true)
	one, two, three := thirdIsWrong(t, &from, "row 1 5 0a00", "row 1 5 0b00")
	one.want("roll 1", "rolled 2 own")
	three.comesTo(2)
	wrong := three.asks("rows")
	for _, it := range []*server{one, two} {
		it.comesTo(2)
		if found := it.ask("rows"); !strings.HasPrefix(found, " 1                    5 0a00") {
			t.Error(found)
		}
	}
	until(t, func() bool { found, _ := three.database.Snapshot(); return found.Silent })
	select {
	case it := <-wrong.found:
		t.Errorf("the server with other rows answers %v", it.Kind)
	case <-time.After(confirmedIn + time.Second):
	}
}

func TestASilentServerStaysSilentBehindAnEnd(t *testing.T) {
	var from atomic.Bool
	from.Store(true)
	one, two, three := thirdIsWrong(t, &from, "commit reply 20", "commit reply 21", "row 1 5 1400", "row 1 5 1500")
	one.committed("call add "+words_(5, 10)+" 1 2", 20)
	two.want("session", "session 2")
	one.want("session", "session 3")
	two.want("session", "session 4")
	until(t, func() bool { found, _ := three.database.Snapshot(); return found.Silent })
	held := []*asker{three.asks("rows"), three.asks("call add " + words_(5, 10) + " 4 1 within 20")}
	one.asks("roll 1")
	three.comesTo(2)
	one.comesTo(2)
	one.committed("call add "+words_(5, 10)+" 1 3", 30)
	for _, it := range held {
		select {
		case answer := <-it.found:
			t.Errorf("a silent server answers %s", answer.AppendLine(nil))
		case <-time.After(confirmedIn + time.Second):
		}
	}
}

func TestWhoGoesOnAloneAnswersAfterAWhile(t *testing.T) {
	over := newOrders()
	one, two := serve(t, over, 1, nil), serve(t, over, 2, nil)
	one.want("session", "session 1")
	two.committed("call add "+words_(5, 1)+" 1 1", 1)
	two.stop()
	until(t, func() bool { _, is := two.database.Snapshot(); return !is })
	began := time.Now()
	one.want("roll 1", "rolled 2 own")
	one.committed("call add "+words_(5, 1)+" 1 2", 2)
	if took := time.Since(began); took < confirmedIn || took > limit/2 {
		t.Errorf("a call took %v", took)
	}
}

func TestEachOrderHasAnAgeOfItsOwn(t *testing.T) {
	s := serve(t, newOrders(), 1, func(o *Options) { o.Rolls.Began = time.Now().Add(-2 * time.Hour) })
	s.want("roll 1 idle", "rolled 2 own")
	s.comesTo(2)
	s.want("roll 2 idle", "refused keep")
}

func TestVotesBeforeTheStartAreOverruledInTheFirstOrderAlone(t *testing.T) {
	over, wrong := newOrders(), batch.Vote{Answers: batch.OfSettings([]byte("others"))}
	s := serve(t, over, 1, func(o *Options) { o.Overrule = true })
	over.of(2).insert(batch.ID{8}, wrong, order.First([]byte("others"), true))
	over.of(2).insert(batch.ID{9}, wrong, []byte{0})
	s.want("roll 1", "rolled 2 own")
	s.comesTo(2)
	until(t, func() bool { found, _ := s.database.Snapshot(); return found.Silent })
}

func TestAnOrderThatWasFetchedHasToBeThere(t *testing.T) {
	s := serveBy(t, newOrders(), 1, func(o *Options) { o.Number, o.Joins = 2, true }, func(uint64) {}, nil)
	s.ends("order 2 isn't there")
}

func TestWhatIsKnownWhileSettingsAreKept(t *testing.T) {
	saving, saved := make(chan bool), make(chan bool)
	s := serve(t, newOrders(), 1, func(o *Options) {
		save := o.Rolls.Save
		o.Rolls.Save = func(number uint64, text []byte) error {
			saving <- true
			<-saved
			return save(number, text)
		}
	})
	s.want("session", "session 1")
	s.at(1).hold(true)
	out := s.asks("call add " + words_(5, 10) + " 1 1")
	until(t, func() bool { return s.at(1).isWaiting(1) })
	s.at(1).of.insert(batch.ID{9}, atBeginning, (&ends.End{}).Bytes())
	<-saving
	if _, err := s.database.Look(10 * time.Millisecond); err != ErrBusy {
		t.Error(err)
	}
	saved <- true
	if found, err := s.database.Look(limit); found.Order != 2 || err != nil { // who asks waits for the next site
		t.Errorf("order %d, %v", found.Order, err)
	}
	if found := s.answer(out); found != "committed 4 reply 10" {
		t.Error(found)
	}
}

func TestRequestsOfARoll(t *testing.T) {
	for line, want := range map[string]string{
		"roll 1": "roll 1", "roll 7 idle": "roll 7 idle", "roll 2 about 00 table 3 8 window 9 idle table 2 8": "roll 2 window 9 table 3 8 table 2 8 idle about 00",
	} {
		found, err := wire.Read(line)
		if err != nil || found.Ask.(*wire.Roll).String() != want {
			t.Errorf("%s: %v, %v", line, found, err)
		}
	}
}
