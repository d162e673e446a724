package site

import (
	"bytes"
	"fmt"
	"time"

	"dsmdb/server/wire"
)

// takeAnswers takes in lines of the engine.
func (s *Site) takeAnswers(lines []byte, is bool) error {
	if !is {
		return s.restart(s.engine.Err())
	}
	s.heardAt = s.now
	defer s.publishVote()
	for len(lines) > 0 {
		if s.pending.len() == 0 {
			return &Stopped{"the engine answers what it wasn't asked"}
		}
		if s.pending.first().kind.hasLines() {
			var err error
			if lines, err = s.linesSaid(lines); err != nil {
				return err
			}
			continue
		}
		end := bytes.IndexByte(lines, '\n')
		line := lines[:end]
		lines = lines[end+1:]
		if err := s.answered(s.pending.pop(), line); err != nil {
			return err
		}
	}
	return nil
}

// publishVote has batches carry the vote of what the engine has come to.
func (s *Site) publishVote() {
	if s.vote.Position == s.position {
		return // which this goroutine alone writes
	}
	s.mutex.Lock()
	defer s.mutex.Unlock()
	s.vote = s.votes.Own()
}

func (s *Site) answered(it pending, line []byte) error {
	switch it.kind {
	case forString:
		return s.entered(line)
	case forOldOne:
		return s.enteredAgain(line)
	case forCall:
		return s.ran(it.of, line)
	default:
		return s.adds(it.of, line)
	}
}

// hasLines returns whether an answer is of lines, up to one of another kind.
func (k pendingKind) hasLines() bool { return k == forRows || k == forDump || k == forNext }

// endsLines returns whether a line is the last of an answer.
func (k pendingKind) endsLines(line []byte) bool {
	if k == forRows {
		return line[0] != ' '
	}
	return bytes.HasPrefix(line, []byte("position "))
}

// linesSaid takes in lines of an answer, up to that of their position, and returns the rest.
func (s *Site) linesSaid(lines []byte) ([]byte, error) {
	it := *s.pending.first()
	end := 0
	for end < len(lines) && !it.kind.endsLines(lines[end:]) {
		end += bytes.IndexByte(lines[end:], '\n') + 1
	}
	s.spool.write(lines[:end])
	if end == len(lines) {
		return nil, nil
	}
	last := lines[end : end+bytes.IndexByte(lines[end:], '\n')]
	rest := lines[end+len(last)+1:]
	s.pending.pop()
	if it.kind == forNext {
		return rest, s.dumped(last)
	}
	s.linesEnd(it.of, last)
	return rest, nil
}

// linesEnd answers a request for rows, or for a dump, by what the engine printed.
func (s *Site) linesEnd(r *Request, last []byte) {
	lines := s.spool
	s.spool, s.spooling = nil, nil
	what, err := lines.readLast(last)
	switch {
	case lines.failed != nil:
		s.warn("%v", lines.failed)
		s.tell(r, Answer{Kind: Unknown, Text: "room"})
	case err != nil: // a fault, or a refusal
		s.tell(r, Answer{Kind: Text, Text: string(last)})
	case !r.done.Load():
		lines.Position += s.before
		lines.write([]byte(fmt.Sprintf("position %d %s %d\n", lines.Position, what, lines.Count)))
		s.tell(r, Answer{Kind: Rows, At: lines.Position, Lines: lines})
		return
	}
	lines.Close()
}

// askRows has the engine print rows for one request at a time.
func (s *Site) askRows() {
	for s.spooling == nil && len(s.rowsNext) > 0 {
		r := s.rowsNext[0]
		s.rowsNext = s.rowsNext[1:]
		if r.done.Load() || r.Asker.Gone() {
			s.tell(r, Answer{Kind: Unknown, Text: NoTime})
			continue
		}
		s.spooling, s.spool = r, &Spool{}
		s.out = append(append(s.out, r.Ask.(fmt.Stringer).String()...), '\n')
		kind := forRows
		if _, is := r.Ask.(wire.Dump); is {
			kind = forDump
		}
		s.pending.push(pending{kind, r})
	}
}

// growth is how fast the order grows by what clients ask. What servers fill it up with doesn't count: calls would be asked
// for further ahead, and the order be filled up further.
type growth struct {
	strings uint64 // since the start, but for those that fill up
	at      [11]struct {
		when    time.Time
		strings uint64
	}
	next int
}

func (g *growth) note(now time.Time) {
	g.at[g.next].when, g.at[g.next].strings = now, g.strings
	g.next = (g.next + 1) % len(g.at)
}

// ahead returns by how much a call's upto should be ahead of the position: what the order grew by in a second.
func (g *growth) ahead() uint64 {
	oldest := g.at[g.next]
	if oldest.when.IsZero() {
		oldest = g.at[0]
	}
	grew := g.strings - oldest.strings
	switch {
	case grew < leastAhead:
		return leastAhead
	case grew > MostAhead:
		return MostAhead
	}
	return grew
}
