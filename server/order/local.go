package order

import (
	"context"
	"errors"
	"fmt"
	"sync"
	"time"

	"dsmdb/server/batch"
	"dsmdb/server/durations"
	"dsmdb/server/segments"
)

const (
	eventsAhead  = 8           // that were handed on together and aren't taken, before more is appended
	eventsAtOnce = 256         // that are handed on together at most
	bytesAtOnce  = 4 << 20     // of their strings, or little more
	roomPause    = time.Second // before a full disk is tried again
)

// Local is an order in the folder of one server, who alone appends to it.
type Local struct {
	path   string
	maker  Maker
	forces durations.Shared
	events chan []Event
	closed chan struct{} // by Close
	done   chan struct{} // at the end of run
	err    error         // once done is closed

	mutex    sync.Mutex
	more     sync.Cond
	waiting  []*String
	wantVote bool
	asked    uint64 // the last question
	closing  bool
	counted  []uint64  // position of the last string of each record, for Reread
	noRoom   error     // why the order can't be opened; nil where it can
	since    time.Time // when that was so first
}

var _ Order = (*Local)(nil)

// OpenLocal opens the order in a folder, which has to be there and to hold nothing else. What is wrong with the folder
// is told by Err.
func OpenLocal(path string, maker Maker) *Local {
	l := &Local{path: path, maker: maker, events: make(chan []Event, eventsAhead), closed: make(chan struct{}), done: make(chan struct{})}
	l.more.L = &l.mutex
	go l.run()
	return l
}

// Append implements Order.
func (l *Local) Append(strings []*String) {
	l.mutex.Lock()
	l.waiting = append(l.waiting, strings...)
	l.wantVote = l.wantVote || len(strings) == 0
	l.mutex.Unlock()
	l.more.Signal()
}

// AskEnd implements Order.
func (l *Local) AskEnd() uint64 {
	l.mutex.Lock()
	defer l.mutex.Unlock()
	l.asked++
	l.more.Signal()
	return l.asked
}

// Events implements Order.
func (l *Local) Events() <-chan []Event { return l.events }

// Err implements Order.
func (l *Local) Err() error {
	<-l.done
	return l.err
}

// Reached implements Order: a folder is there, or the order has ended. At the start its disk may be full.
func (l *Local) Reached() (since time.Time, why error) {
	l.mutex.Lock()
	defer l.mutex.Unlock()
	return l.since, l.noRoom
}

// Forces returns how long the forcing of strings to the disk took.
func (l *Local) Forces() durations.Histogram { return l.forces.Histogram() }

// Reread implements Order.
func (l *Local) Reread(ctx context.Context, upto uint64, take func(found *batch.Batch) error) error {
	l.mutex.Lock()
	records := uint64(0)
	for records < uint64(len(l.counted)) && (records == 0 || l.counted[records-1] < upto) {
		records++
	}
	l.mutex.Unlock()
	if upto == 0 {
		return nil
	}
	return segments.Reread(l.path, Magic, records, func(kept []byte) error {
		if err := ctx.Err(); err != nil {
			return err
		}
		found, err := batch.Read(append([]byte(nil), kept...))
		if err != nil {
			return fmt.Errorf("reading the order again: %w", err)
		}
		return take(found)
	})
}

// Close implements Order.
func (l *Local) Close() error {
	l.mutex.Lock()
	first := !l.closing
	l.closing = true
	l.mutex.Unlock()
	if first {
		close(l.closed)
	}
	l.more.Signal()
	<-l.done
	return nil
}

func (l *Local) run() {
	defer close(l.events)
	defer close(l.done)
	if err := l.work(); !errors.Is(err, errClosed) {
		l.err = err
	}
}

var errClosed = errors.New("the order is closed")

func (l *Local) work() error {
	log, err := l.open()
	if err != nil {
		return err
	}
	defer log.Close()
	answered := uint64(0)
	for {
		strings, vote, asked, err := l.take(answered, log.Room())
		if err != nil {
			return err
		}
		some, err := l.append(log, strings, vote)
		if err != nil {
			return err
		}
		if asked > answered {
			some, answered = append(some, End{asked, log.Position()}), asked
		}
		if err := l.send(some); err != nil {
			return err
		}
	}
}

// open opens the log, and hands on its batches. Where the disk has no room for the last segment's copy it waits for room.
func (l *Local) open() (*Log, error) {
	var some []Event
	handed, size := 0, 0
	for {
		read := 0
		log, err := Open(l.path, l.maker, &l.forces, func(found *batch.Batch) error {
			if read++; read <= handed { // before there was no room
				return nil
			}
			handed++
			some = append(some, l.count(found, nil, false))
			for _, text := range found.Strings {
				size += len(text)
			}
			if len(some) < eventsAtOnce && size < bytesAtOnce {
				return nil
			}
			err := l.send(some)
			some, size = nil, 0
			return err
		})
		l.noteRoom(err)
		if err == nil {
			return log, l.send(append(some, Begun{log.Position()}))
		}
		if !segments.IsFull(err) {
			return nil, err
		}
		select {
		case <-l.closed:
			return nil, errClosed
		case <-time.After(roomPause):
		}
	}
}

// noteRoom notes whether the disk is full.
func (l *Local) noteRoom(err error) {
	l.mutex.Lock()
	defer l.mutex.Unlock()
	if !segments.IsFull(err) {
		l.noRoom, l.since = nil, time.Time{}
	} else if l.noRoom == nil {
		l.noRoom, l.since = err, time.Now()
	}
}

// count notes a batch, whose last string stands at the order's position now.
func (l *Local) count(found *batch.Batch, own []*String, made bool) *Counted {
	l.mutex.Lock()
	defer l.mutex.Unlock()
	first := uint64(1)
	if len(l.counted) > 0 {
		first = l.counted[len(l.counted)-1] + 1
	}
	l.counted = append(l.counted, first+uint64(len(found.Strings))-1)
	return &Counted{First: first, Header: found.Header, Strings: found.Strings, Own: own, Made: made}
}

// take waits for something to do, and takes as many strings as one batch has room for.
func (l *Local) take(answered uint64, room int) (strings []*String, vote bool, asked uint64, err error) {
	l.mutex.Lock()
	defer l.mutex.Unlock()
	for len(l.waiting) == 0 && !l.wantVote && l.asked == answered && !l.closing {
		l.more.Wait()
	}
	if l.closing {
		return nil, false, 0, errClosed
	}
	strings, l.waiting = cutToRoom(l.waiting, room)
	vote, l.wantVote = l.wantVote, false
	return strings, vote, l.asked, nil
}

// cutToRoom returns the first strings, as many as have room in one batch, and the rest.
func cutToRoom(strings []*String, room int) (first, rest []*String) {
	size := 0
	for at, it := range strings {
		if size += batch.SizeOf(it.Text); size > room && at > 0 {
			return strings[:at:at], strings[at:]
		}
	}
	return strings, nil
}

// append appends those of the strings that are still wanted, and returns what became of all.
func (l *Local) append(log *Log, strings []*String, vote bool) ([]Event, error) {
	wanted, dropped := stillWanted(strings)
	var events []Event
	if dropped != nil {
		events = append(events, &Dropped{dropped})
	}
	if len(wanted) == 0 && !vote {
		return events, nil
	}
	texts := make([][]byte, len(wanted))
	for at, it := range wanted {
		texts[at] = it.Text
	}
	made, err := log.Append(texts, l.maker.vote())
	switch {
	case errors.Is(err, ErrFull):
		return append(events, &Refused{wanted, ErrFull}), nil
	case err != nil:
		return nil, err
	}
	return append(events, l.count(made, wanted, true)), nil
}

func (l *Local) send(some []Event) error {
	if len(some) == 0 {
		return nil
	}
	select {
	case l.events <- some:
		return nil
	case <-l.closed:
		return errClosed
	}
}
