package wire

import (
	"bytes"
	"encoding/hex"
	"strconv"
)

// EntryKind is what became of a string of the order.
type EntryKind uint8

const (
	EntryCommit EntryKind = iota
	EntryConflict
	EntryStale
	EntryRepeat
	EntryAdded
	EntryTaken
	EntrySession
	EntryNothing
)

// Entry is what an engine answers to an `entry` line.
type Entry struct {
	Position uint64
	Kind     EntryKind
	Value    uint64 // the reply of a commit or a repeat, the number of an added procedure, the session that is opened
	Other    uint64 // the position of what is repeated, or met in conflict
	Word     []byte // the rule that an addition breaks, or by which a string is nothing
	HasPair  bool   // whether a session and a sequence number follow
}

// entryForms are the words behind `entry D`, and how many fields each has.
var entryForms = []struct {
	word   string
	kind   EntryKind
	fields int
}{
	{"commit", EntryCommit, 2}, {"conflict", EntryConflict, 1}, {"stale", EntryStale, 0}, {"repeat", EntryRepeat, 3},
	{"added", EntryAdded, 1}, {"taken", EntryTaken, 1}, {"session", EntrySession, 1}, {"nothing", EntryNothing, 1},
}

// ReadEntry reads an engine's answer to an `entry` line; false where it is none.
func ReadEntry(line []byte) (Entry, bool) {
	var room [10][]byte
	fields := split(line, room[:0])
	if len(fields) < 3 || string(fields[0]) != "entry" {
		return Entry{}, false
	}
	var it Entry
	ok := true
	it.Position = number(fields[1], &ok)
	for _, form := range entryForms {
		if string(fields[2]) != form.word {
			continue
		}
		rest := fields[3:]
		it.HasPair = len(rest) == form.fields+4
		if len(rest) != form.fields && !it.HasPair {
			return Entry{}, false
		}
		it.Kind = form.kind
		it.take(rest, &ok)
		return it, ok
	}
	return Entry{}, false
}

func (e *Entry) take(fields [][]byte, ok *bool) {
	switch e.Kind {
	case EntryCommit: // reply V
		e.Value = number(fields[1], ok)
	case EntryConflict:
		e.Other = number(fields[0], ok)
	case EntryRepeat: // E reply V
		e.Other, e.Value = number(fields[0], ok), number(fields[2], ok)
	case EntryAdded, EntrySession:
		e.Value = number(fields[0], ok)
	case EntryTaken, EntryNothing:
		e.Word = fields[0]
	}
}

// RunKind is what an engine answers to a `call` or an `add` line.
type RunKind uint8

const (
	RunSubmit RunKind = iota
	RunRead
	RunCancelled
	RunRepeat
	RunRefused
)

// Run is what an engine answers to a `call` or an `add` line.
type Run struct {
	Kind  RunKind
	At    uint64 // the position of the rows that were read, or of what is repeated
	Value uint64 // the reply, or the code
	Bytes []byte // what is to be appended; of a refusal the words of why
}

// ReadRun reads an engine's answer to a `call` or an `add` line; false where it is none.
func ReadRun(line []byte) (Run, bool) {
	if rest := bytes.TrimPrefix(line, []byte("submit ")); len(rest) < len(line) {
		found := make([]byte, hex.DecodedLen(len(rest)))
		_, err := hex.Decode(found, rest)
		return Run{Kind: RunSubmit, Bytes: found}, err == nil
	}
	if rest := bytes.TrimPrefix(line, []byte("refused ")); len(rest) < len(line) {
		return Run{Kind: RunRefused, Bytes: rest}, true
	}
	var room [6][]byte
	fields := split(line, room[:0])
	if len(fields) != 4 {
		return Run{}, false
	}
	ok := true
	it := Run{At: number(fields[1], &ok), Value: number(fields[3], &ok)}
	switch string(fields[0]) + " " + string(fields[2]) {
	case "read reply":
		it.Kind = RunRead
	case "cancelled code":
		it.Kind = RunCancelled
	case "repeat reply":
		it.Kind = RunRepeat
	default:
		return Run{}, false
	}
	return it, ok
}

// split returns the fields of a line, cut at each space.
func split(line []byte, fields [][]byte) [][]byte {
	for {
		at := bytes.IndexByte(line, ' ')
		if at < 0 {
			return append(fields, line)
		}
		fields = append(fields, line[:at])
		line = line[at+1:]
	}
}

// number reads a decimal number; ok is set to false where it is none.
func number(field []byte, ok *bool) uint64 {
	if len(field) == 0 || len(field) > 20 {
		*ok = false
		return 0
	}
	if len(field) == 20 { // which may be too large
		value, err := strconv.ParseUint(string(field), 10, 64)
		*ok = *ok && err == nil
		return value
	}
	value := uint64(0)
	for _, digit := range field {
		if digit < '0' || digit > '9' {
			*ok = false
			return 0
		}
		value = value*10 + uint64(digit-'0')
	}
	return value
}

const hexDigits = "0123456789abcdef"

// AppendHex appends bytes as HEX, `-` for none.
func AppendHex(to, found []byte) []byte {
	if len(found) == 0 {
		return append(to, '-')
	}
	for _, it := range found {
		to = append(to, hexDigits[it>>4], hexDigits[it&15])
	}
	return to
}

// AppendRun appends the line that asks an engine for a call's run, without LF.
func (c *Call) AppendRun(to []byte) []byte {
	to = append(append(append(to, "call "...), c.Name...), ' ')
	to = append(AppendHex(to, c.Args), ' ')
	to = append(strconv.AppendUint(to, uint64(c.Session), 10), ' ')
	return strconv.AppendUint(to, uint64(c.Sequence), 10)
}
