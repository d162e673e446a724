package site

import (
	"bytes"
	"container/heap"
	"fmt"

	"dsmdb/server/order"
	"dsmdb/server/wire"
)

// begin is told where the order ended at the start. An empty one gets its first string.
func (s *Site) begin(position uint64) error {
	s.begun, s.beginning = true, position
	if s.ending != nil {
		s.beginning = s.end
	}
	if position == 0 {
		if s.joins {
			return &Stopped{fmt.Sprintf("order %d isn't there, though its settings were fetched: they are of another etcd, or of another prefix", s.number)}
		}
		s.beginning, s.wantsFirst = 1, true
		if s.begins { // it may have died at the roll, and knows nothing of others
			s.awaitOthers()
		}
	}
	s.beginOrder()
	early := s.early
	s.early = nil
	for _, r := range early {
		s.admit(r)
	}
	return nil
}

// beginOrder puts the first string into an order that is empty.
func (s *Site) beginOrder() {
	if s.wantsFirst && s.end == 0 {
		s.submitted = append(s.submitted, &order.String{Text: s.firstString()})
	}
	s.wantsFirst = false
}

// checkFirst looks at the order's first string. Whose settings are right where others began an order after the first with
// others is what votes say.
func (s *Site) checkFirst(text []byte) error {
	switch {
	case bytes.Equal(text, s.firstString()):
	case s.number == 1:
		return &Stopped{"the order was begun for other settings: one order has one settings file"}
	default:
		s.warn("order %d was begun by a server that came to other settings: votes say whose are right", s.number)
	}
	return nil
}

// firstString returns the string that the order begins with.
func (s *Site) firstString() []byte { return order.First(s.settings, s.origin != nil) }

// count takes in a batch of the order.
func (s *Site) count(it *order.Counted) error {
	if s.ending != nil { // it stands behind the end
		return nil
	}
	if it.First != s.end+1 {
		return fmt.Errorf("the order has a batch at position %d behind position %d", it.First, s.end)
	}
	s.unheard.push(unheard{s.end, it.Header, it.Made, !s.begun})
	s.database = it.Header.Database
	for at, text := range it.Strings {
		if s.end == 0 {
			if err := s.checkFirst(text); err != nil {
				return err
			}
		}
		if s.isEnd(it, at) {
			break
		}
		s.end++
		if s.begun && !bytes.Equal(text, order.Filling) {
			s.growth.strings++
		}
		s.backlog += len(text)
		s.unfed.push(text)
	}
	s.noteBatch(it)
	return s.hearVotes()
}

// noteBatch notes whose batch is part of the order now, and how long it took where it is this server's.
func (s *Site) noteBatch(it *order.Counted) {
	if len(it.Own) > 0 {
		s.owns.push(own{it.First, it.Own})
		for _, text := range it.Own {
			if r, is := text.For.(*Request); is {
				s.stats.appends.Add(s.now.Sub(r.handed))
			}
		}
	}
	if it.Made {
		s.stats.batches++
		s.noteVote(it.Header.Vote.Position)
	} else {
		s.voted.newStrings = s.voted.newStrings || len(it.Strings) > 0
	}
}

// feed hands the engine as many strings as it should have waiting.
func (s *Site) feed() {
	if s.restarting != nil {
		return
	}
	for s.unfed.len() > 0 && s.engine.Unsent()+len(s.out) < unsentMost {
		text := s.unfed.pop()
		s.unread.push(text)
		s.putEntry(text)
		s.pending.push(pending{kind: forString})
		s.fed++
	}
}

func (s *Site) putEntry(text []byte) {
	s.out = append(wire.AppendHex(append(s.out, "entry "...), text), '\n')
}

// entered takes in what the engine answers to the next string of the order.
func (s *Site) entered(line []byte) error {
	it, ok := wire.ReadEntry(line)
	if !ok || it.Position != s.position+1 {
		return &Stopped{fmt.Sprintf("the engine answers %q at position %d", line, s.position+1)}
	}
	text := s.unread.pop()
	s.backlog -= len(text)
	s.position = it.Position
	s.votes.Answered(text, line)
	s.noteAsked(it, text)
	if err := s.becameOwn(it, line); err != nil {
		return err
	}
	return s.hearVotes()
}

// noteAsked counts what became of a string, and keeps what a committed call asked.
func (s *Site) noteAsked(it wire.Entry, text []byte) {
	s.asked.push(&it, text)
	switch it.Kind {
	case wire.EntryCommit:
		s.counts.Committed++
	case wire.EntryAdded:
		s.counts.Committed++
		name, added := additionIn(text)
		s.procedures[name] = added
	case wire.EntrySession:
	case wire.EntryNothing:
		s.noteNothing(it, text)
	default:
		s.counts.Refused++
	}
}

func (s *Site) noteNothing(it wire.Entry, text []byte) {
	switch {
	case isOvertaken(it):
		s.counts.Refused++
	case !order.IsOfServers(text):
		s.counts.Nothing++
	}
	if string(it.Word) == "E5" {
		s.counts.Untrue++
		s.warn("position %d: nothing E5: its maker has other rows, or is no server of this database", s.before+it.Position)
	}
}

// isOvertaken returns whether a string is a call whose session has committed one of a greater number.
func isOvertaken(it wire.Entry) bool { return it.Kind == wire.EntryNothing && string(it.Word) == "E6" }

// becameOwn tells who handed a string what became of it.
func (s *Site) becameOwn(it wire.Entry, line []byte) error {
	if s.owns.len() == 0 || s.owns.first().first > it.Position {
		return nil
	}
	mine := s.owns.first()
	at := it.Position - mine.first
	text := mine.of[at]
	if at == uint64(len(mine.of)-1) {
		s.owns.pop()
	}
	r, _ := text.For.(*Request)
	if r == nil {
		return nil
	}
	switch r.Ask.(type) {
	case wire.NewSession:
		s.becameSession(r, it)
	case *wire.Add:
		return s.becameAddition(r, it, line)
	case *wire.Call:
		return s.becameCall(r, it, line)
	case *wire.Roll:
		s.tell(r, Answer{Kind: Refused, Text: "order"}) // what it handed over has ended nothing
	}
	return nil
}

// becameSession tells a session's number: where the order opens no sessions it is the string's position.
func (s *Site) becameSession(r *Request, it wire.Entry) {
	switch {
	case s.origin == nil:
		s.tell(r, Answer{Kind: Session, At: it.Position})
	case it.Kind == wire.EntrySession:
		s.tell(r, Answer{Kind: Session, At: it.Value})
	default: // there are as many as there can be
		s.tell(r, Answer{Kind: Full})
	}
}

func (s *Site) becameAddition(r *Request, it wire.Entry, line []byte) error {
	switch it.Kind {
	case wire.EntryNothing:
		return s.ownNothing(line)
	case wire.EntryAdded:
		s.tell(r, Answer{Kind: Added, At: it.Value})
	default:
		if !s.isThere(r) {
			s.tell(r, Answer{Kind: Taken, Text: string(it.Word)})
		}
	}
	return nil
}

func (s *Site) becameCall(r *Request, it wire.Entry, line []byte) error {
	switch it.Kind {
	case wire.EntryCommit:
		s.tell(r, Answer{Kind: Committed, At: it.Position, Value: it.Value})
	case wire.EntryRepeat:
		s.repeated(r, it.Other, it.Value)
	case wire.EntryConflict:
		s.again(r, Answer{Kind: Conflict, At: it.Position, Value: it.Other})
	case wire.EntryStale:
		s.again(r, Answer{Kind: Stale, At: it.Position})
	default:
		if !isOvertaken(it) {
			return s.ownNothing(line)
		}
		s.tell(r, Answer{Kind: Refused, Text: sessionIsOver})
	}
	return nil
}

func (s *Site) ownNothing(line []byte) error {
	return &Stopped{fmt.Sprintf("the engine answers '%s' to what it had submitted itself: its program or its memory isn't as it was", line)}
}

// refuse tells whose strings weren't appended.
func (s *Site) refuse(it *order.Refused) {
	answer := Answer{Kind: Full}
	if it.Why != order.ErrFull {
		answer = Answer{Kind: Unknown, Text: NoOrder}
	}
	for _, text := range it.Of {
		if r, is := text.For.(*Request); is {
			s.tell(r, answer)
		} else {
			s.wantsFirst, s.filledTo = s.end == 0, 0
		}
	}
}

// drop gives up the requests whose askers have left.
func (s *Site) drop(it *order.Dropped) {
	for _, text := range it.Of {
		if r, is := text.For.(*Request); is {
			s.stats.dropped++
			s.tell(r, Answer{Kind: Unknown, Text: NoTime})
		}
	}
}

// endsAt answers questions for the order's end.
func (s *Site) endsAt(it order.End) {
	for s.fresh.len() > 0 && (*s.fresh.first()).question <= it.Question {
		r := s.fresh.pop()
		if r.done.Load() {
			continue
		}
		r.question = 0
		if it.Position > r.after {
			r.after = it.Position
		}
		if s.ending == nil || it.Position <= s.end {
			s.place(r)
		}
	}
}

// place has a call begin where the engine has the strings that it asks for.
func (s *Site) place(r *Request) {
	if r.after <= s.fed {
		s.ready.push(r)
	} else {
		heap.Push(&s.behind, waiter{r.after, r})
	}
}
