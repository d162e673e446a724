package site

import (
	"bytes"
	"crypto/sha256"
	"fmt"
	"time"

	"dsmdb/server/ends"
	"dsmdb/server/order"
	"dsmdb/server/votes"
	"dsmdb/server/wire"
)

// Rolls says how an order ends, and what is kept then.
type Rolls struct {
	// At is after how many strings the server ends an order by itself; 0 for never.
	At uint64
	// Keep is how old an order is before its end closes the sessions that did nothing in it.
	Keep time.Duration
	// Began is when the order was begun at this server.
	Began time.Time
	// Save keeps the settings of an order for good.
	Save func(number uint64, settings []byte) error
	// Step is told of each step of a roll by its name, so that tests can end a server there. Nil stands for nobody.
	Step func(name string)
}

// Steps of a roll.
const (
	StepEnd    = "end"    // the order's end was read
	StepDump   = "dump"   // the engine has printed what goes on
	StepSaved  = "saved"  // the next order's settings are kept
	StepOpened = "opened" // the next order is open
)

func (r *Rolls) step(name string) {
	if r.Step != nil {
		r.Step(name)
	}
}

// Whether a request ended its order.
const (
	byOwn   = "own"
	byOther = "other"
)

// ending is the end of an order that was read.
type ending struct {
	how     *ends.End
	by      *Request // whose string it is, of this server since its start; nil for another's
	dumping bool     // whether the engine was asked for what goes on
}

// isEnd returns whether a string of a batch ends the order. Nothing from there on is of the order.
func (s *Site) isEnd(it *order.Counted, at int) bool {
	if s.origin == nil || s.end == 0 {
		return false
	}
	how, is := ends.Of(it.Strings[at], s.tables)
	if !is {
		return false
	}
	s.ending = &ending{how: how}
	if it.Own != nil {
		s.ending.by, _ = it.Own[at].For.(*Request)
	}
	if s.begun && s.beginning > s.end {
		s.beginning = s.end
	}
	s.say("order %d ends behind position %d", s.number, s.before+s.end)
	s.rolls.step(StepEnd)
	return true
}

// finish asks the engine for what goes on, once it has answered all there is.
func (s *Site) finish() {
	if s.ending == nil || s.ending.dumping || s.restarting != nil || s.position != s.end || s.pending.len() > 0 {
		return
	}
	s.ending.dumping = true
	s.spool = &Spool{}
	s.out = append(s.out, "dump\n"...)
	s.pending.push(pending{kind: forNext})
}

// dumped keeps the settings of the next order, which the engine has printed up to a last line.
func (s *Site) dumped(last []byte) error {
	lines := s.spool
	s.spool = nil
	defer lines.Close()
	dump, err := lines.whole()
	if err != nil {
		return fmt.Errorf("reading what order %d ends with: %w", s.number, err)
	}
	what, err := lines.readLast(last)
	if err != nil || what != "lines" || lines.Position != s.position || lines.Count != uint64(bytes.Count(dump, []byte{'\n'})) {
		return &Stopped{fmt.Sprintf("the engine ends a dump at position %d by %q", s.position, last)}
	}
	s.rolls.step(StepDump)
	next := ends.Next(s.database, s.settings, dump, s.ending.how)
	if err := s.rolls.Save(s.number+1, next); err != nil {
		return fmt.Errorf("keeping the settings of order %d: %w", s.number+1, err)
	}
	s.rolls.step(StepSaved)
	s.next = next
	return nil
}

// Next returns the settings of the next order, and the requests that its site is to answer; nil where the order hasn't
// ended. It is called once Run has returned.
func (s *Site) Next() (settings []byte, requests []*Request) { return s.next, s.handedOver }

// handOver gives up what isn't answered, in the order in which it came. What was handed to this order, and isn't of it, is
// asked again as if it had just come.
func (s *Site) handOver(left []*Request) {
	for r := s.asking.first; r != nil; r = s.asking.first {
		if ask, is := r.Ask.(*wire.Roll); is && ask.Order == s.number {
			s.tell(r, s.rolled(r == s.ending.by))
		}
		if r.done.Load() {
			continue
		}
		s.asking.remove(r)
		if r.held.Lines != nil {
			r.held.Lines.Close()
		}
		r.after, r.question, r.tries, r.fresh, r.out = 0, 0, 0, false, false
		r.last, r.held, r.padding = Answer{}, Answer{}, time.Time{}
		s.handedOver = append(s.handedOver, r)
	}
	s.handedOver = append(s.handedOver, left...)
}

// rolled says which order goes on behind this one, and whether by the request that is answered.
func (s *Site) rolled(own bool) Answer {
	if own {
		return Answer{Kind: Rolled, At: s.number + 1, Text: byOwn}
	}
	return Answer{Kind: Rolled, At: s.number + 1, Text: byOther}
}

// tryRoll hands the order its end.
func (s *Site) tryRoll(r *Request, ask *wire.Roll) {
	switch {
	case s.origin == nil:
		s.tell(r, Answer{Kind: Refused, Text: "form"})
	case ask.Order < s.number:
		s.tell(r, Answer{Kind: Rolled, At: ask.Order + 1, Text: byOther})
	case ask.Order > s.number:
		s.tell(r, Answer{Kind: Refused, Text: "order"})
	case !ask.End.Fits(s.tables):
		s.tell(r, Answer{Kind: Refused, Text: "S3"})
	case ask.End.Idle && !s.mayCloseIdle():
		s.tell(r, Answer{Kind: Refused, Text: "keep"})
	default:
		s.submit(r, ask.End.Bytes())
	}
}

// mayCloseIdle returns whether the order is old enough for its end to close idle sessions.
func (s *Site) mayCloseIdle() bool { return s.now.Sub(s.rolls.Began) >= s.rolls.Keep }

// endOrder ends an order that has as many strings as one should, and closes idle sessions where the order is old enough.
func (s *Site) endOrder() {
	wanted := s.rolls.At > 0 && s.origin != nil && s.end >= s.rolls.At && s.now.Sub(s.endedAt) >= endAgain
	if !wanted || s.ending != nil || !s.caughtUp() || s.holdsAnswers() {
		return
	}
	s.endedAt = s.now
	how := ends.End{Idle: s.mayCloseIdle()}
	s.submitted = append(s.submitted, &order.String{Text: how.Bytes()})
}

// tellSettings answers the settings of the order, and then their length and sum. They may be long, and never change, so
// another goroutine makes the lines. Where the order ends meanwhile the next one's site is asked.
func (s *Site) tellSettings(r *Request) {
	go func() {
		lines := &Spool{}
		lines.write(s.settings)
		if len(s.settings) > 0 && s.settings[len(s.settings)-1] != '\n' {
			lines.write([]byte{'\n'})
		}
		lines.write([]byte(fmt.Sprintf("settings %d %d %x\n", s.number, len(s.settings), sha256.Sum256(s.settings))))
		if !s.do(func() { s.toldSettings(r, lines) }) {
			lines.Close()
		}
	}()
}

func (s *Site) toldSettings(r *Request, lines *Spool) {
	switch {
	case r.done.Load():
		lines.Close()
	case lines.failed != nil:
		s.warn("%v", lines.failed)
		s.tell(r, Answer{Kind: Unknown, Text: "room"})
		lines.Close()
	default:
		s.tell(r, Answer{Kind: Rows, Lines: lines})
	}
}

// Past is what a site knows that doesn't end with its order.
type Past struct {
	stats       stats
	growth      growth
	heard       votes.Heard
	silentSince time.Time
}

// Past returns what goes on behind the order. It is called once Run has returned.
func (s *Site) Past() *Past { return &Past{s.stats, s.growth, s.votes.Heard(), s.silentSince} }

// goOnFrom takes over what the site of the order before has counted and heard. Where others disagreed with that one they
// disagree with this one too, until they vote. All of them vote at once.
func (s *Site) goOnFrom(past *Past) {
	s.stats, s.growth, s.now = past.stats, past.growth, time.Now()
	if len(past.heard) == 0 {
		return
	}
	s.votes.Begin(past.heard)
	s.oweVote(0)
	s.awaitOthers()
	s.compare()
	if s.isSilent() {
		s.silentSince = past.silentSince
	}
}

// awaitOthers has nobody answered in an order after the first before another server has voted there: this server may have
// come to other rows than the rest, which nobody could see before.
func (s *Site) awaitOthers() {
	if s.number > 1 && !s.alone {
		s.unconfirmed = s.now
	}
}
