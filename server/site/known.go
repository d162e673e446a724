package site

import (
	"bytes"
	"crypto/sha256"
	"encoding/binary"
	"encoding/hex"
	"sort"
	"strconv"

	"dsmdb/server/ends"
	"dsmdb/server/wire"
)

// procedure is what a procedure is besides its name.
type procedure struct {
	number, argsLen uint32
	program         [sha256.Size]byte
}

// Procedure is a procedure that a site has.
type Procedure struct {
	Name            string
	Number, ArgsLen uint32
	Program         [sha256.Size]byte // SHA-256 of its bytes
}

// proceduresOf returns the procedures of settings that an engine has accepted, by their names.
func proceduresOf(settings []byte) map[string]procedure {
	found := map[string]procedure{}
	ends.Lines(settings, "proc", func(line []byte) {
		fields := bytes.Split(line, []byte{' '})
		if len(fields) != 5 {
			return
		}
		number, _ := strconv.ParseUint(string(fields[2]), 10, 16)
		length, _ := strconv.ParseUint(string(fields[3]), 10, 16)
		program, _ := hex.DecodeString(string(bytes.TrimPrefix(fields[4], []byte{'-'})))
		found[string(fields[1])] = procedure{uint32(number), uint32(length), sha256.Sum256(program)}
	})
	return found
}

// ProceduresOf returns the procedures of settings that an engine has accepted.
func ProceduresOf(settings []byte) []Procedure {
	var all []Procedure
	for name, found := range proceduresOf(settings) {
		all = append(all, Procedure{name, found.number, found.argsLen, found.program})
	}
	sort.Slice(all, func(a, b int) bool { return all[a].Name < all[b].Name })
	return all
}

// additionIn returns the name and the procedure of an addition that was taken into an order.
func additionIn(text []byte) (string, procedure) {
	number, length := binary.LittleEndian.Uint16(text[1:]), binary.LittleEndian.Uint16(text[3:])
	name := text[6 : 6+int(text[5])]
	return string(name), procedure{uint32(number), uint32(length), sha256.Sum256(text[10+len(name):])}
}

func procedureIn(it *wire.Add) procedure {
	return procedure{it.Number, it.ArgsLen, sha256.Sum256(it.Program)}
}

// asked tells what a committed call asked, so that its repetition can be told from another call with its pair: procedure
// and arguments themselves where they are short, else a sum of them.
type asked [32]byte

func askedBy(number uint16, args []byte) asked {
	var it asked
	if len(args) <= len(it)-3 {
		it[0] = byte(len(args)) + 1
		binary.LittleEndian.PutUint16(it[1:], number)
		copy(it[3:], args)
		return it
	}
	sum := sha256.Sum256(append(binary.LittleEndian.AppendUint16(nil, number), args...))
	it[0] = 0xff
	copy(it[1:], sum[:])
	return it
}

// committed has what committed calls asked: what each session asked last, and, where the order opens no sessions, by
// position what its call asked.
type committed struct {
	at   *askedAt         // nil where the order opens sessions, whose repeated calls are their last ones
	last map[uint32]asked // by session; where there are positions, before the order alone
}

// committedBefore returns what sessions asked last before an order, of settings that an engine has accepted.
func committedBefore(settings []byte, opensSessions bool) committed {
	found := committed{last: lastAsked(settings)}
	if !opensSessions {
		found.at = &askedAt{}
	}
	return found
}

// push takes in what became of the next string.
func (c *committed) push(it *wire.Entry, text []byte) {
	var found asked
	if it.Kind == wire.EntryCommit && it.HasPair {
		found = askedIn(text)
		if c.at == nil {
			c.last[sessionIn(text)] = found
		}
	}
	if c.at != nil {
		c.at.push(found)
	}
}

// of returns what the call asked that a session's call repeats, at a position, or before the order at 0.
func (c *committed) of(position uint64, session uint32) asked {
	if c.at == nil || position == 0 {
		return c.last[session]
	}
	return c.at.at(position)
}

// lastAsked returns what sessions asked last before the order, by session.
func lastAsked(settings []byte) map[uint32]asked {
	found := map[uint32]asked{}
	ends.Lines(settings, "request", func(line []byte) {
		fields := bytes.Split(line, []byte{' '})
		if len(fields) != 6 {
			return
		}
		session, _ := strconv.ParseUint(string(fields[1]), 10, 32)
		number, _ := strconv.ParseUint(string(fields[4]), 10, 16)
		args, _ := hex.DecodeString(string(bytes.TrimPrefix(fields[5], []byte{'-'})))
		found[uint32(session)] = askedBy(uint16(number), args)
	})
	return found
}

// sessionIn returns the session of a call that stands in the order.
func sessionIn(call []byte) uint32 { return binary.LittleEndian.Uint32(call[1:]) }

// askedIn returns what a call that stands in the order asked.
func askedIn(call []byte) asked {
	length := int(binary.LittleEndian.Uint16(call[15:]))
	return askedBy(binary.LittleEndian.Uint16(call[13:]), call[17:17+length])
}

const askedPage = 1 << 14

// askedAt has by position what its call asked, 32 bytes for each string of the order.
type askedAt struct {
	pages [][]asked
	count uint64
}

func (a *askedAt) push(it asked) {
	if a.count%askedPage == 0 {
		a.pages = append(a.pages, make([]asked, askedPage))
	}
	a.pages[a.count/askedPage][a.count%askedPage] = it
	a.count++
}

// at returns what stands at a position from 1; nothing of a position that isn't there.
func (a *askedAt) at(position uint64) asked {
	if position == 0 || position > a.count {
		return asked{}
	}
	position--
	return a.pages[position/askedPage][position%askedPage]
}
