// Package order keeps orders: sequences of byte strings, numbered from 1, that only grow, and that all who read one read
// alike. An order lies in the folder of one server, or in etcd for several.
package order

import (
	"context"
	"errors"
	"time"

	"dsmdb/server/batch"
)

var (
	// ErrFull says that the order can't grow now, and that none of the strings was appended.
	ErrFull = errors.New("the order is full")
	// ErrUnknown says that strings may have been appended, or may still be.
	ErrUnknown = errors.New("it isn't known whether the order has them")
	// ErrGone says that the order was forgotten: all of it is deleted, or will be.
	ErrGone = errors.New("the order is gone")
)

// Order is one order, which works in goroutines of its own. Its methods may be called from any goroutine.
type Order interface {
	// Append hands over strings that are to be appended, in this order but maybe with others between them. What became
	// of each is told by one event, Counted, Refused or Dropped. Append never waits. Without strings it asks for a
	// batch that carries the vote alone.
	Append(strings []*String)
	// AskEnd asks where the order ends, and returns the number of the question. An event End whose Question is at least
	// that number answers it: each string that was appended before the question has a position of at most End's.
	// AskEnd never waits.
	AskEnd() (question uint64)
	// Events returns what happens, some events at a time: the batches in the order's order from the first one on, and
	// what became of this server's own strings. Who doesn't take events holds the order up. The channel is closed when
	// the order can't be gone on with, or is closed.
	Events() <-chan []Event
	// Err returns why the order can't be gone on with, once Events is closed; nil where it was closed.
	Err() error
	// Reread hands over the counted batches once more, from the first one to that in which the string at a position
	// stands, as they are kept on this machine. The batches are take's.
	Reread(ctx context.Context, upto uint64, take func(found *batch.Batch) error) error
	// Reached returns since when the order can't be reached, and why; a nil error where it can.
	Reached() (since time.Time, why error)
	// Close ends the order, and waits for its goroutines.
	Close() error
}

// String is a byte string that a server wants appended.
type String struct {
	Text []byte // at most batch.LongestString bytes
	// For is who wants it; nil for one that is wanted in any case.
	For Wanter
}

// Wanter is who wants strings appended.
type Wanter interface {
	// Wants returns whether the strings are still to be appended. It is asked right before a string is handed to whatever
	// keeps the order, each time, and may be called from any goroutine.
	Wants() bool
}

func (s *String) wanted() bool { return s.For == nil || s.For.Wants() }

// stillWanted asks of each string whether it is still wanted.
func stillWanted(strings []*String) (wanted, dropped []*String) {
	for _, it := range strings {
		if it.wanted() {
			wanted = append(wanted, it)
		} else {
			dropped = append(dropped, it)
		}
	}
	return wanted, dropped
}

// Event is one of Counted, Refused, Dropped, Begun and End.
type Event interface{ isEvent() }

type (
	// Counted says that a batch is part of the order.
	Counted struct {
		First  uint64 // position of its first string, or of the next one where it has none
		Header batch.Header
		// Strings are those of the batch. They are the receiver's.
		Strings [][]byte
		// Own are the handed strings which the batch has, one for one; nil where this server hasn't made it since its
		// start.
		Own []*String
		// Made says that this server has made the batch since its start.
		Made bool
	}
	// Refused says that strings weren't appended (ErrFull), or that this isn't known (ErrUnknown).
	Refused struct {
		Of  []*String
		Why error
	}
	// Dropped says that strings weren't wanted any more, and won't be appended.
	Dropped struct{ Of []*String }
	// Begun says where the order ended when it was opened. It comes once.
	Begun struct{ Position uint64 }
	// End answers questions for the order's end, all up to Question.
	End struct{ Question, Position uint64 }
)

func (*Counted) isEvent() {}
func (*Refused) isEvent() {}
func (*Dropped) isEvent() {}
func (Begun) isEvent()    {}
func (End) isEvent()      {}

// Maker says who makes the batches of an order.
type Maker struct {
	ID      batch.ID
	Version string // of the program, at most 255 bytes
	// Database is the identity that the order's database has. Zeros say that the identity isn't known: then a new order
	// draws one with its first batch.
	Database batch.ID
	// Vote returns what the maker's engine has come to. It may be called from any goroutine. Nil stands for a vote at
	// position 0 without digests.
	Vote func() batch.Vote
}

// isKnown returns whether the identity of the order's database is known.
func (m *Maker) isKnown() bool { return m.Database != batch.ID{} }

func (m *Maker) vote() batch.Vote {
	if m.Vote == nil {
		return batch.Vote{}
	}
	return m.Vote()
}
