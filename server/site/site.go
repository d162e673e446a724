// Package site keeps a replica for its clients: an engine that has the rows, an order that has the calls, and between
// them one goroutine that has all that is known of the site. Whatever comes together goes on together: lines to the
// engine, strings to the order, answers to clients.
package site

import (
	"context"
	"errors"
	"fmt"
	"sync"
	"time"

	"dsmdb/server/batch"
	"dsmdb/server/ends"
	"dsmdb/server/engine"
	"dsmdb/server/order"
	"dsmdb/server/votes"
)

const (
	unsentMost  = 1 << 20  // bytes that wait for the engine before more of the order is handed to it
	backlogMost = 64 << 20 // bytes of strings that wait for the engine before the order is read further
	tick        = 100 * time.Millisecond
	silentFor   = 60 * time.Second // of a server that others disagree with, before it ends
	awayFor     = 2 * time.Second  // of an order that can't be reached, before the log tells of it
	voteWithin  = 50 * time.Second // of strings that were counted since the last vote
	endAgain    = 10 * time.Second // before an order that hasn't ended is ended once more
	confirmedIn = 2 * time.Second  // for which who begins an order waits for another server that agrees
)

// Stopped says why a site can't go on.
type Stopped struct{ Why string }

func (s *Stopped) Error() string { return s.Why }

// Engine is what a site asks of its engine.
type Engine interface {
	Ask(lines []byte)
	Unsent() int
	Answers() <-chan []byte
	Err() error
	Processor() (time.Duration, error)
	Memory() (uint64, error)
	Kill()
	Close()
}

var _ Engine = (*engine.Engine)(nil)

// Options are what a site is made of.
type Options struct {
	Settings []byte
	Number   uint64 // of the order among those of its database, from 1 on
	Order    order.Order
	Maker    batch.ID
	// Start starts an engine over the settings, which has no string yet.
	Start func(ctx context.Context) (Engine, error)
	// Patience is for how long a call is tried that doesn't say for how long.
	Patience time.Duration
	// Overrule has the site go on whatever other servers voted before its start.
	Overrule bool
	// Rolls says how the order ends, and what is kept then.
	Rolls Rolls
	// Joins says that the order has been begun by others, from whom its settings are.
	Joins bool
	// Alone says that no other server appends to the order.
	Alone bool
	// Past is what the site of the order before has counted; nil for the first one since the start.
	Past *Past
	// Say is told of what happens, a line an event, and Warn of what an operator should look at. They never wait.
	Say, Warn func(format string, values ...any)
}

// Site is one site, from its start to its end.
type Site struct {
	settings []byte
	number   uint64
	origin   *ends.Origin // nil where the order opens no sessions
	tables   []ends.Table
	before   uint64 // strings that came before this order
	order    order.Order
	start    func(ctx context.Context) (Engine, error)
	patience time.Duration
	overrule bool
	rolls    Rolls
	say      func(format string, values ...any)
	warn     func(format string, values ...any)
	maker    batch.ID

	mutex  sync.Mutex
	inbox  []*Request
	tasks  []func()
	ended  bool
	wake   chan struct{}
	closed chan struct{}

	engine      Engine
	out         []byte // lines that go to the engine at the turn's end
	pending     queue[pending]
	restarting  *restart
	heardAt     time.Time     // when the engine last answered, or was seen to work
	usedAt      time.Duration // of processors, when it was last looked at
	restarts    int           // of late
	restartedAt time.Time     // the last one

	vote       batch.Vote // by mutex
	position   uint64     // of the last string that the engine has answered
	fed        uint64     // of the last string that the engine was handed
	end        uint64     // of the last string that was counted
	begun      bool       // whether it is known where the order ended at the start
	beginning  uint64     // where
	wantsFirst bool       // whether the order is empty and its first string is still to be appended
	joins      bool       // whether the order has to be there already
	alone      bool       // whether no other server appends to the order
	begins     bool       // whether the site is the first since the start
	database   batch.ID
	unfed      queue[[]byte]
	unread     queue[[]byte] // strings that the engine was handed and hasn't answered
	backlog    int           // bytes of both
	owns       queue[own]

	votes       *votes.Votes
	unheard     queue[unheard]
	voted       voted
	silentSince time.Time // zero where votes agree
	diverged    votes.Divergence
	isDiverged  bool
	unconfirmed time.Time // since when another server's vote is waited for before anybody is answered; zero for none
	awaySince   time.Time // when it was told that the order can't be reached; zero where it can

	procedures map[string]procedure
	asked      committed
	ending     *ending    // nil where no end was read
	endedAt    time.Time  // when this server last handed the order an end by itself
	next       []byte     // the settings of the next order; nil before they are kept
	handedOver []*Request // to the next order's site

	asking    outstanding
	early     []*Request // that came before the site had caught up
	turns     turns
	ready     queue[*Request] // calls that may begin
	behind    waiting         // calls that wait for a position
	fresh     queue[*Request]
	retries   waiting // calls that wait for a time, in nanoseconds
	submitted []*order.String
	filledTo  uint64   // the position up to which the order was filled up
	spooling  *Request // whose rows the engine prints, into spool
	spool     *Spool
	rowsNext  []*Request   // who wait for their rows
	flushes   []Asker      // who were answered in this turn
	flusher   chan []Asker // to the goroutine that flushes where many are
	counts    Counts
	growth    growth
	stats     stats
	now       time.Time
}

// pending is what the engine was asked for.
type pending struct {
	kind pendingKind
	of   *Request
}

type pendingKind uint8

const (
	forString   pendingKind = iota // of the order
	forOldOne                      // a string that an engine before this one has answered
	forCall                        // a call's run
	forAddition                    // what an addition would append
	forRows                        // rows, up to the line of their position
	forDump                        // the settings of a database that goes on, up to the line of their position
	forNext                        // the same, for the next order
)

// own is a batch of this server's strings.
type own struct {
	first uint64
	of    []*order.String
}

// unheard is a vote, until the engine has come to where its batch stands.
type unheard struct {
	position uint64
	header   batch.Header
	made     bool // by this server since its start
	early    bool // whether the batch stood in the order at the start
}

// Counts are of what became of the order's strings.
type Counts struct{ Committed, Refused, Nothing, Untrue uint64 }

// New makes a site, which Run runs.
func New(o Options) *Site {
	found := ends.Read(o.Settings)
	s := &Site{
		settings: o.Settings, number: o.Number, joins: o.Joins, alone: o.Alone, begins: o.Past == nil, origin: found.Origin, tables: found.Tables, database: found.Of,
		order: o.Order, start: o.Start, patience: o.Patience, overrule: o.Overrule, rolls: o.Rolls, say: o.Say, warn: o.Warn, maker: o.Maker,
		wake: make(chan struct{}, 1), closed: make(chan struct{}), flusher: make(chan []Asker, flushersWait),
		votes: votes.New(o.Maker, o.Settings), procedures: proceduresOf(o.Settings), asked: committedBefore(o.Settings, found.Origin != nil),
		turns: turns{},
		vote:  batch.Vote{Answers: batch.OfSettings(o.Settings)},
	}
	if found.Origin != nil {
		s.before = found.Origin.Strings
	}
	if o.Past != nil {
		s.goOnFrom(o.Past)
	}
	return s
}

// Vote returns what the engine has come to. It may be called from any goroutine.
func (s *Site) Vote() batch.Vote {
	s.mutex.Lock()
	defer s.mutex.Unlock()
	return s.vote
}

// Ask hands over requests, each of which is answered once, by this site or by that of a later order; false where the site
// has ended. It never waits, and may be called from any goroutine.
func (s *Site) Ask(requests ...*Request) bool {
	s.mutex.Lock()
	ended := s.ended
	if !ended {
		s.inbox = append(s.inbox, requests...)
	}
	s.mutex.Unlock()
	if !ended {
		s.ring()
	}
	return !ended
}

// do has the site's goroutine do something; false where the site has ended.
func (s *Site) do(task func()) bool {
	s.mutex.Lock()
	ended := s.ended
	if !ended {
		s.tasks = append(s.tasks, task)
	}
	s.mutex.Unlock()
	s.ring()
	return !ended
}

func (s *Site) ring() {
	select {
	case s.wake <- struct{}{}:
	default:
	}
}

// Run goes on until the order or the context ends, where it returns nil, or an error says why it can't. Where the order
// has ended Next has what the next one begins with; else all requests are answered.
func (s *Site) Run(ctx context.Context) error {
	go flushAll(s.flusher)
	err := s.run(ctx)
	s.mutex.Lock()
	s.ended = true
	left, tasks := s.inbox, s.tasks
	s.inbox, s.tasks = nil, nil
	s.mutex.Unlock()
	if err == nil && s.next != nil {
		s.handOver(left)
	} else {
		s.answerAll(left, tasks)
	}
	s.flush()
	close(s.flusher)
	close(s.closed)
	if s.engine != nil {
		s.engine.Close()
	}
	return err
}

func (s *Site) run(ctx context.Context) error {
	started, err := s.start(ctx)
	if err != nil {
		return err
	}
	s.engine, s.heardAt, s.voted.when = started, time.Now(), time.Now()
	ticks := time.NewTicker(tick)
	defer ticks.Stop()
	timer := time.NewTimer(time.Hour)
	defer timer.Stop()
	for {
		s.setTimer(timer)
		if stop, err := s.turn(ctx, ticks.C, timer.C); stop || err != nil || s.next != nil {
			return err
		}
		s.goOn()
	}
}

// answerAll answers all requests, at the site's end, and does what was left to do.
func (s *Site) answerAll(left []*Request, tasks []func()) {
	for _, r := range left {
		s.arrive(r)
	}
	for s.asking.first != nil {
		s.tell(s.asking.first, Answer{Kind: Unknown, Text: IsStopping})
	}
	for _, task := range tasks {
		task()
	}
}

// turn waits for something to happen, and takes it in.
func (s *Site) turn(ctx context.Context, ticks, timer <-chan time.Time) (stop bool, err error) {
	events := s.order.Events()
	if s.backlog > backlogMost || s.ending != nil { // nothing behind an end is of the order
		events = nil
	}
	answers := s.engine.Answers()
	var refed <-chan refeed
	if s.restarting != nil {
		answers, refed = s.restarting.answers(answers)
	}
	select {
	case <-ctx.Done():
		return true, nil
	case <-s.wake:
		s.now = time.Now()
		s.takeInbox()
	case some, is := <-events:
		s.now = time.Now()
		return false, s.takeEvents(some, is)
	case lines, is := <-answers:
		s.now = time.Now()
		return false, s.takeAnswers(lines, is)
	case it := <-refed:
		s.now = time.Now()
		return false, s.takeRefeed(it)
	case <-timer:
		s.now = time.Now()
	case <-ticks:
		s.now = time.Now()
		return false, s.takeTick()
	}
	return false, nil
}

// goOn hands on what has come together in a turn.
func (s *Site) goOn() {
	s.feed()
	s.retryDue()
	s.askReady()
	s.finish()
	if len(s.out) > 0 {
		s.engine.Ask(s.out)
		s.out = s.out[:0]
	}
	if len(s.submitted) > 0 {
		if s.ending == nil {
			s.order.Append(s.submitted)
		}
		s.submitted = nil
	}
	s.flush()
}

func (s *Site) takeInbox() {
	s.mutex.Lock()
	requests, tasks := s.inbox, s.tasks
	s.inbox, s.tasks = nil, nil
	s.mutex.Unlock()
	for _, r := range requests {
		s.arrive(r)
	}
	for _, task := range tasks {
		task()
	}
}

// takeEvents takes in what the order says.
func (s *Site) takeEvents(some []order.Event, is bool) error {
	if !is {
		if err := s.order.Err(); err != nil {
			return fmt.Errorf("the order can't be gone on with: %w", err)
		}
		return errors.New("the order was closed")
	}
	for _, event := range some {
		switch it := event.(type) {
		case *order.Counted:
			if err := s.count(it); err != nil {
				return err
			}
		case *order.Refused:
			s.refuse(it)
		case *order.Dropped:
			s.drop(it)
		case order.Begun:
			if err := s.begin(it.Position); err != nil {
				return err
			}
		case order.End:
			s.endsAt(it)
		}
	}
	return nil
}

// takeTick looks at what only time changes.
func (s *Site) takeTick() error {
	s.growth.note(s.now)
	s.beginOrder()
	s.fillUp()
	s.expire()
	s.tellReach()
	s.endOrder()
	s.watchEngine()
	s.payVote()
	s.confirm()
	if s.isDiverged && s.diverged.Silences() && s.now.Sub(s.silentSince) > silentFor {
		return &Stopped{fmt.Sprintf("other servers came to other answers than this one from position %d on: %d disagree, %d agree",
			s.before+s.diverged.Since, s.diverged.Disagree, s.diverged.Agree)}
	}
	if s.caughtUp() && s.voted.newStrings && s.now.Sub(s.voted.when) > voteWithin {
		s.giveVote()
	}
	return nil
}

// tellReach has the log tell when the order can't be reached, and when it is again.
func (s *Site) tellReach() {
	since, why := s.order.Reached()
	switch {
	case why != nil && s.awaySince.IsZero() && s.now.Sub(since) > awayFor:
		s.awaySince = since
		s.warn("the order can't be reached: %v", why)
	case why == nil && !s.awaySince.IsZero():
		s.say("the order is reached again, after %v", s.now.Sub(s.awaySince).Round(time.Millisecond))
		s.awaySince = time.Time{}
	}
}

// caughtUp returns whether the engine has what stood in the order at the start.
func (s *Site) caughtUp() bool { return s.begun && s.position >= s.beginning }

func (s *Site) setTimer(timer *time.Timer) {
	if len(s.retries) == 0 {
		return
	}
	left := time.Duration(int64(s.retries[0].for_) - time.Now().UnixNano())
	if left < 0 {
		left = 0
	}
	timer.Reset(left)
}
