package client

import (
	"fmt"
	"strconv"
	"strings"
)

// Answer is what a call was answered, as a line and in parts.
type Answer struct {
	Line  string // as the server wrote it
	Word  string // committed, read, cancelled, conflict, stale, other, refused, ..
	At    uint64 // the position
	Value uint64 // the reply of committed and read, the code of cancelled
	Why   string // of refused and unknown
}

// Done returns whether the call was done: it committed, or it read.
func (a Answer) Done() bool { return a.Word == "committed" || a.Word == "read" }

// settles returns whether an answer settles a call, of which a copy may have been sent before.
func (a Answer) settles(sent bool) bool { return a.Settled() || a.Word == "fault" && !sent }

// isOutOfSession returns whether the call's session is over, or has committed a call of a greater number.
func (a Answer) isOutOfSession() bool { return a.Word == "refused" && a.Why == "P15" }

// isRefusal returns whether who asked may not, so that nothing was begun.
func (a Answer) isRefusal() bool {
	return a.Word == "refused" && (a.Why == "role" || a.Why == "rate" || a.Why == "token")
}

// Settled returns whether the call is settled, where it was asked so that an answer holds of all its copies.
func (a Answer) Settled() bool {
	switch a.Word {
	case "committed", "read", "cancelled", "conflict", "stale", "other":
		return true
	case "refused":
		return a.Why == "P2" || a.Why == "P3" || a.Why == "P13" || a.Why == "P15"
	}
	return false
}

func parse(line string) (Answer, error) {
	fields := strings.Split(line, " ")
	a := Answer{Line: line, Word: fields[0]}
	var err error
	number := func(at int) uint64 {
		if at >= len(fields) {
			err = fmt.Errorf("the server answers %q", line)
			return 0
		}
		value, fault := strconv.ParseUint(fields[at], 10, 64)
		if fault != nil {
			err = fmt.Errorf("the server answers %q", line)
		}
		return value
	}
	switch a.Word {
	case "committed", "read", "cancelled":
		a.At, a.Value = number(1), number(3)
	case "conflict":
		a.At, a.Value = number(1), number(2)
	case "stale", "other", "late", "session", "added":
		a.At = number(1)
	case "refused", "unknown", "taken", "fault":
		a.Why = strings.Join(fields[1:], " ")
	}
	return a, err
}

// hello is what a server says of itself.
type hello struct {
	database        string
	order           uint64
	position, ahead uint64
}

func parseHello(line string) (hello, error) {
	var it hello
	_, err := fmt.Sscanf(line, "hello %s %d %d %d", &it.database, &it.order, &it.position, &it.ahead)
	if err != nil || len(it.database) != 32 {
		return it, fmt.Errorf("the server says %q: it is no server of dsmdb, or of another version", line)
	}
	return it, nil
}
