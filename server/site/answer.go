package site

import "strconv"

// Kind is what an answer says.
type Kind uint8

// Of a call, then of an addition, of a session, of what is asked of the server itself. None is no answer.
const (
	None      Kind = iota
	Committed      // at position At, with reply Value
	Read           // on the rows after position At, with reply Value
	Cancelled      // on the rows after position At, with code Value
	Conflict       // at position At, with the call at position Value
	Stale          // at position At
	Other          // the pair is that of another call, at position At
	Late           // no try of the call was made, since the server is at position At
	Refused        // Text says by which rule
	Full           // the order can't grow now
	Unknown        // Text says what ended before the call was settled
	Added          // procedure At
	Taken          // Text says which rule the name or the number breaks
	Session        // of number At
	Rows           // Lines has them
	Rolled         // order At goes on; Text says whether by this request
	Text           // Text is the line
	kinds
)

var words = [kinds]string{
	"", "committed", "read", "cancelled", "conflict", "stale", "other", "late", "refused", "full", "unknown", "added", "taken",
	"session", "rows", "rolled", "",
}

// String returns the word with which a line of this kind begins.
func (k Kind) String() string { return words[k] }

// Reasons of Unknown.
const (
	NoTime     = "time"       // the caller's patience ended
	NoOrder    = "order"      // it isn't known whether the order has the call
	Diverged   = "divergence" // other servers came to other answers
	IsStopping = "stopping"   // the server ends
)

// Answer is what a request is answered.
type Answer struct {
	Kind  Kind
	At    uint64
	Value uint64
	Text  string
	Lines *Spool // of Rows; its receiver closes it
}

// restsOnRows returns whether an answer may be wrong where a server has come to other rows than others.
func (k Kind) restsOnRows() bool { return k != Text && k != Unknown && k != Rolled }

// behind returns an answer by positions of an order, as one by positions of the database, of which some came before.
func (a Answer) behind(before uint64) Answer {
	switch a.Kind {
	case Conflict:
		a.Value += before
		a.At += before
	case Committed, Read, Cancelled, Stale, Other, Late:
		a.At += before
	}
	return a
}

// AppendLine appends the line of an answer that isn't of rows, without LF.
func (a *Answer) AppendLine(to []byte) []byte {
	to = append(to, words[a.Kind]...)
	switch a.Kind {
	case Committed, Read:
		return appendNumber(append(appendNumber(to, a.At), " reply"...), a.Value)
	case Cancelled:
		return appendNumber(append(appendNumber(to, a.At), " code"...), a.Value)
	case Conflict:
		return appendNumber(appendNumber(to, a.At), a.Value)
	case Stale, Other, Late, Added, Session:
		return appendNumber(to, a.At)
	case Refused, Taken, Unknown:
		return append(append(to, ' '), a.Text...)
	case Rolled:
		return append(append(appendNumber(to, a.At), ' '), a.Text...)
	case Text:
		return append(to, a.Text...)
	}
	return to
}

func appendNumber(to []byte, value uint64) []byte {
	return strconv.AppendUint(append(to, ' '), value, 10)
}
