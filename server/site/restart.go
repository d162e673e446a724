package site

import (
	"context"
	"errors"
	"fmt"
	"time"

	"dsmdb/server/batch"
	"dsmdb/server/engine"
)

const (
	hangsFor     = 10 * time.Second // of an engine that neither answers nor uses its processor
	longestPause = time.Minute      // before an engine is started again
	forgiveAfter = 5 * time.Minute  // since the last start, so that the next one doesn't wait
)

// restart is an engine's that has ended, and is started again from the order.
type restart struct {
	upto    uint64 // the position that the engine before had come to
	from    uint64 // the last position that the new one has answered
	fed     uint64
	digest  batch.Digest // the digest of what it has answered
	refeeds chan refeed
	ready   bool // whether there is a new engine
	cancel  context.CancelFunc
}

// refeed is a step of an engine's start.
type refeed struct {
	engine  Engine
	texts   [][]byte
	err     error
	reading bool // whether the order can't be read again
	taken   chan struct{}
}

// answers returns where answers and steps are to be taken from.
func (r *restart) answers(of <-chan []byte) (<-chan []byte, <-chan refeed) {
	if !r.ready {
		return nil, r.refeeds
	}
	return of, r.refeeds
}

// restart gives an engine up that has ended, and has another one started, which is given the order again. Its answers
// have to be those of the one before.
func (s *Site) restart(why error) error {
	s.warn("%v: it is started again from the order", why)
	if s.restarting != nil {
		s.restarting.cancel()
	}
	if s.now.Sub(s.restartedAt) > forgiveAfter {
		s.restarts = 0
	}
	s.restarts++
	s.restartedAt = s.now
	s.stats.restarts++
	s.takeBack()
	ctx, cancel := context.WithCancel(context.Background())
	r := &restart{
		upto: s.position, refeeds: make(chan refeed), cancel: cancel, digest: batch.OfSettings(s.settings),
	}
	s.restarting = r
	pause := time.Duration(0)
	if s.restarts > 1 {
		pause = time.Second << uint(s.restarts-2)
		if pause > longestPause || pause <= 0 {
			pause = longestPause
		}
	}
	go s.refeed(ctx, r, pause)
	return nil
}

// takeBack takes what the engine was asked back into what it is to be asked.
func (s *Site) takeBack() {
	for _, it := range s.pending.all() {
		if it.kind == forNext {
			s.spool.Close()
			s.ending.dumping = false
		}
		if it.of == nil || it.of.done.Load() {
			continue
		}
		if it.kind.hasLines() {
			s.spool.Close()
			s.spooling, s.spool = nil, nil
			s.rowsNext = append(s.rowsNext, it.of)
			continue
		}
		s.place(it.of)
	}
	texts := append(s.unread.all(), s.unfed.all()...)
	for _, text := range texts {
		s.unfed.push(text)
	}
	s.fed, s.out = s.position, s.out[:0]
	s.spooling, s.spool = nil, nil
}

// refeed starts an engine, and hands it what stands in the order up to where the one before was.
func (s *Site) refeed(ctx context.Context, r *restart, pause time.Duration) {
	select {
	case <-time.After(pause):
	case <-ctx.Done():
		return
	}
	started, err := s.start(ctx)
	if err != nil {
		r.hand(ctx, s.closed, refeed{err: err})
		return
	}
	if !r.hand(ctx, s.closed, refeed{engine: started}) {
		started.Close()
		return
	}
	err = s.order.Reread(ctx, r.upto, func(found *batch.Batch) error {
		for started.Unsent() > unsentMost && ctx.Err() == nil {
			time.Sleep(time.Millisecond)
		}
		if !r.hand(ctx, s.closed, refeed{texts: found.Strings}) {
			return errGivenUp
		}
		return nil
	})
	if err != nil && ctx.Err() == nil {
		r.hand(ctx, s.closed, refeed{err: fmt.Errorf("reading the order again: %w", err), reading: true})
	}
}

var errGivenUp = errors.New("the engine's start was given up")

// hand hands a step to the site, and waits until it was taken; false where it isn't taken.
func (r *restart) hand(ctx context.Context, closed <-chan struct{}, it refeed) bool {
	it.taken = make(chan struct{})
	select {
	case r.refeeds <- it:
		<-it.taken
		return true
	case <-ctx.Done():
	case <-closed:
	}
	return false
}

// takeRefeed takes in a step of an engine's start.
func (s *Site) takeRefeed(it refeed) error {
	defer close(it.taken)
	r := s.restarting
	if r == nil {
		return nil
	}
	var fault *engine.SettingsFault
	switch {
	case it.err != nil && (it.reading || errors.As(it.err, &fault)):
		return it.err
	case it.err != nil:
		return s.restart(it.err)
	}
	if it.engine != nil {
		s.engine.Close()
		s.engine, r.ready, s.heardAt = it.engine, true, s.now
	}
	for _, text := range it.texts {
		if r.fed == r.upto {
			break // what is behind waits for the engine already
		}
		r.fed++
		s.putEntry(text)
		s.pending.push(pending{kind: forOldOne})
	}
	s.refed()
	return nil
}

// enteredAgain takes in what a new engine answers to a string that one before has answered.
func (s *Site) enteredAgain(line []byte) error {
	r := s.restarting
	r.from++
	r.digest = r.digest.WithAnswer(line)
	s.refed()
	if r.from == r.upto && r.digest != s.votes.Own().Answers {
		return &Stopped{fmt.Sprintf("the engine was started again, and answers otherwise than before up to position %d", s.before+r.upto)}
	}
	return nil
}

// refed has the site go on where the new engine has come to where the one before was.
func (s *Site) refed() {
	if r := s.restarting; r.ready && r.from == r.upto {
		r.cancel()
		s.restarting = nil
		s.say("the engine is back at position %d", s.before+s.position)
	}
}

// watchEngine ends an engine that hangs: one that has something to answer, and for a time neither answers nor uses its
// processor.
func (s *Site) watchEngine() {
	if s.pending.len() == 0 || s.restarting != nil && !s.restarting.ready {
		s.heardAt = s.now
		return
	}
	used, err := s.engine.Processor()
	if err != nil {
		return // it has ended, which its answers tell
	}
	if used != s.usedAt {
		s.usedAt, s.heardAt = used, s.now
		return
	}
	if s.now.Sub(s.heardAt) > hangsFor {
		s.warn("the engine has neither answered nor worked for %v", hangsFor)
		s.engine.Kill()
		s.heardAt = s.now
	}
}
