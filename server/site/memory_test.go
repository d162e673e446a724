package site

import (
	"context"
	"strconv"
	"sync"
	"time"

	"dsmdb/server/batch"
	"dsmdb/server/order"
)

// shared is an order in memory, in which some sites have seats.
type shared struct {
	mutex   sync.Mutex
	batches []*batch.Batch
	end     uint64
	seats   []*seat
	grown   *sync.Cond
}

// seat is the order as one site has it. Its appends can be held up, or refused.
type seat struct {
	of     *shared
	maker  batch.ID
	vote   func() batch.Vote
	events chan []order.Event
	closed chan struct{}

	next     int // batch that is handed on next
	waiting  []*order.String
	votes    int
	question uint64
	held     bool
	full     bool
	owns     map[*batch.Batch][]*order.String
	err      error
}

func newShared() *shared {
	o := &shared{}
	o.grown = sync.NewCond(&o.mutex)
	return o
}

var database = batch.ID{0xda}

// insert appends strings as a stranger's batch.
func (o *shared) insert(maker batch.ID, vote batch.Vote, texts ...[]byte) {
	o.mutex.Lock()
	o.append(&batch.Batch{Header: batch.Header{Database: database, Maker: maker, Vote: vote}, Strings: texts})
	o.mutex.Unlock()
}

func (o *shared) append(it *batch.Batch) {
	o.batches = append(o.batches, it)
	o.end += uint64(len(it.Strings))
	o.grown.Broadcast()
}

func (o *shared) sit(maker batch.ID) *seat {
	s := &seat{of: o, maker: maker, events: make(chan []order.Event), closed: make(chan struct{}), owns: map[*batch.Batch][]*order.String{}}
	o.mutex.Lock()
	o.seats = append(o.seats, s)
	o.mutex.Unlock()
	go s.run()
	return s
}

func (s *seat) run() {
	defer close(s.events)
	position, begun, answered := uint64(0), false, uint64(0)
	for {
		var some []order.Event
		s.of.mutex.Lock()
		for {
			some = append(some, s.hand()...)
			for ; s.next < len(s.of.batches); s.next++ {
				it := s.of.batches[s.next]
				some = append(some, &order.Counted{
					First: position + 1, Header: it.Header, Strings: append([][]byte(nil), it.Strings...), Own: s.owns[it], Made: it.Header.Maker == s.maker && s.owns[it] != nil,
				})
				position += uint64(len(it.Strings))
			}
			if !begun {
				some, begun = append(some, order.Begun{Position: position}), true
			}
			if s.question > answered {
				some, answered = append(some, order.End{Question: s.question, Position: position}), s.question
			}
			if len(some) > 0 || s.isClosed() {
				break
			}
			s.of.grown.Wait()
		}
		s.of.mutex.Unlock()
		select {
		case s.events <- some:
		case <-s.closed:
			return
		}
	}
}

// hand appends what waits, where that isn't held up.
func (s *seat) hand() []order.Event {
	if s.held || len(s.waiting) == 0 && s.votes == 0 {
		return nil
	}
	var wanted, dropped []*order.String
	for _, it := range s.waiting {
		if it.For == nil || it.For.Wants() {
			wanted = append(wanted, it)
		} else {
			dropped = append(dropped, it)
		}
	}
	s.waiting, s.votes = nil, 0
	var some []order.Event
	if dropped != nil {
		some = append(some, &order.Dropped{Of: dropped})
	}
	if s.full && len(wanted) > 0 {
		return append(some, &order.Refused{Of: wanted, Why: order.ErrFull})
	}
	it := &batch.Batch{Header: batch.Header{Database: database, Maker: s.maker, Vote: s.vote()}}
	for _, text := range wanted {
		it.Strings = append(it.Strings, text.Text)
	}
	s.owns[it] = append([]*order.String{}, wanted...)
	s.of.append(it)
	return some
}

func (s *seat) isClosed() bool {
	select {
	case <-s.closed:
		return true
	default:
		return false
	}
}

func (s *seat) set(do func()) {
	s.of.mutex.Lock()
	do()
	s.of.grown.Broadcast()
	s.of.mutex.Unlock()
}

func (s *seat) Append(texts []*order.String) {
	s.set(func() {
		s.waiting = append(s.waiting, texts...)
		if len(texts) == 0 {
			s.votes++
		}
	})
}

func (s *seat) AskEnd() uint64 {
	s.set(func() { s.question++ })
	s.of.mutex.Lock()
	defer s.of.mutex.Unlock()
	return s.question
}

func (s *seat) Events() <-chan []order.Event { return s.events }
func (s *seat) Err() error                   { return s.err }
func (s *seat) Reached() (time.Time, error)  { return time.Time{}, nil }
func (s *seat) hold(held bool)               { s.set(func() { s.held = held }) }
func (s *seat) isWaiting(count int) bool {
	s.of.mutex.Lock()
	defer s.of.mutex.Unlock()
	return len(s.waiting) >= count
}

func (s *seat) Reread(ctx context.Context, upto uint64, take func(found *batch.Batch) error) error {
	s.of.mutex.Lock()
	batches := append([]*batch.Batch(nil), s.of.batches...)
	s.of.mutex.Unlock()
	position := uint64(0)
	for _, it := range batches {
		if position >= upto {
			return nil
		}
		if err := take(it); err != nil {
			return err
		}
		position += uint64(len(it.Strings))
	}
	return nil
}

func (s *seat) Close() error {
	close(s.closed)
	s.of.mutex.Lock()
	s.of.grown.Broadcast()
	s.of.mutex.Unlock()
	return nil
}

func decimal(value uint64) string { return strconv.FormatUint(value, 10) }
