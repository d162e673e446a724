package site

import (
	"encoding/hex"
	"fmt"
	"sort"
	"time"

	"dsmdb/server/batch"
	"dsmdb/server/durations"
)

// stats are counts of what a site did.
type stats struct {
	answers  [kinds]uint64
	calls    durations.Histogram
	appends  durations.Histogram // from handing a string over to its being counted
	batches  uint64              // of this server
	dropped  uint64
	retried  uint64
	restarts uint64
}

func (c *stats) answered(kind Kind, took time.Duration, isCall bool) {
	c.answers[kind]++
	if isCall {
		c.calls.Add(took)
	}
}

// Snapshot is what is known of a site at a time.
type Snapshot struct {
	Database       batch.ID
	Order          uint64       // number of the order
	Before         uint64       // strings that came before this order
	Position, End  uint64       // of the database: Before and those of this order
	Digest         batch.Digest // of the strings up to Position
	Counts         Counts
	CaughtUp       bool
	Beginning      uint64    // where the order ended at the start
	AwaySince      time.Time // zero where the order can be reached
	Away           string    // why it can't
	Diverged       bool
	Silent         bool
	DivergedSince  uint64
	Waiting        int // requests that aren't answered
	Backlog        int // bytes of strings that wait for the engine
	EngineLines    int // that the engine hasn't answered
	EngineTime     time.Duration
	EngineMemory   uint64 // bytes
	EngineRestarts uint64
	Restarting     bool
	Ahead          uint64
	Dropped        uint64
	Retried        uint64
	Answers        map[string]uint64
	Calls          durations.Histogram
	Appends        durations.Histogram // of strings, from handing them over to their being counted
	Batches        uint64              // that this server has made since its start
	Procedures     []Procedure         // by name
}

// Snapshot returns what is known of the site now; false where the site has ended.
func (s *Site) Snapshot() (Snapshot, bool) {
	found := make(chan Snapshot, 1)
	if !s.do(func() { found <- s.snapshot() }) {
		return Snapshot{}, false
	}
	select {
	case it := <-found:
		return it, true
	case <-s.closed:
		select {
		case it := <-found:
			return it, true
		default:
			return Snapshot{}, false
		}
	}
}

func (s *Site) snapshot() Snapshot {
	it := Snapshot{
		Database: s.database, Order: s.number, Before: s.before, Position: s.before + s.position, End: s.before + s.end, Digest: s.votes.Own().Strings, Counts: s.counts,
		CaughtUp: s.caughtUp(), Beginning: s.before + s.beginning, Diverged: s.isDiverged, Silent: s.isSilent(),
		DivergedSince: s.before + s.diverged.Since,
		Waiting:       s.asking.count, Backlog: s.backlog, EngineLines: s.pending.len(), EngineRestarts: s.stats.restarts,
		Restarting: s.restarting != nil, Ahead: s.growth.ahead(), Dropped: s.stats.dropped, Retried: s.stats.retried,
		Answers: map[string]uint64{}, Calls: s.stats.calls, Appends: s.stats.appends,
		Batches: s.stats.batches,
	}
	if since, why := s.order.Reached(); why != nil {
		it.AwaySince, it.Away = since, why.Error()
	}
	if s.engine != nil {
		it.EngineTime, _ = s.engine.Processor()
		it.EngineMemory, _ = s.engine.Memory()
	}
	for kind, count := range s.stats.answers {
		if word := words[kind]; word != "" {
			it.Answers[word] = count
		}
	}
	for name, found := range s.procedures {
		it.Procedures = append(it.Procedures, Procedure{name, found.number, found.argsLen, found.program})
	}
	sort.Slice(it.Procedures, func(a, b int) bool { return it.Procedures[a].Name < it.Procedures[b].Name })
	return it
}

func (s *Site) positionLine() string { return fmt.Sprintf("position %d", s.before+s.position) }

func (s *Site) statusLine() string {
	it := s.snapshot()
	order := "reached"
	if it.Away != "" {
		order = fmt.Sprintf("away since=%d", it.AwaySince.Unix())
	}
	state := "ready"
	switch {
	case it.Silent:
		state = "silent"
	case !it.CaughtUp:
		state = "catching-up"
	case it.Restarting:
		state = "restarting"
	}
	return fmt.Sprintf("status database=%s order=%d before=%d position=%d end=%d digest=%s committed=%d refused=%d nothing=%d untrue=%d "+
		"state=%s waiting=%d procedures=%d access=%s",
		hex.EncodeToString(it.Database[:]), it.Order, it.Before, it.Position, it.End, hex.EncodeToString(it.Digest[:]), it.Counts.Committed,
		it.Counts.Refused, it.Counts.Nothing, it.Counts.Untrue, state, it.Waiting, len(it.Procedures), order)
}

// hello answers which database and order this is, where it is, and how far a call's upto should be ahead.
func (s *Site) hello(r *Request) {
	if s.end == 0 { // the first batch brings the database's identity
		r.after = 1
		s.place(r)
		return
	}
	s.tell(r, Answer{Kind: Text, Text: fmt.Sprintf("hello %s %d %d %d", hex.EncodeToString(s.database[:]), s.number,
		s.before+s.position, s.growth.ahead())})
}
