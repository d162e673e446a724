// Package wire reads the lines that clients send, as records.
package wire

import (
	"encoding/hex"
	"fmt"
	"strconv"
	"strings"
	"time"

	"dsmdb/server/ends"
)

const (
	// LongestLine is the most bytes of a line, without its LF.
	LongestLine = 1_048_576
	longestArgs = 256 // bytes of a procedure's arguments
	longestTag  = 20  // digits
)

// Fault says why a line can't be read. Its text is what the client is answered.
type Fault string

const (
	NotPrintable Fault = "fault L1" // or too long
	NoWord       Fault = "fault L2"
	WrongCount   Fault = "fault L3"
	WrongField   Fault = "fault L4"
)

func (f Fault) Error() string { return string(f) }

// Line is what one line asks.
type Line struct {
	Tag string // `#7 ` of a line that may be under way beside others of its connection; empty where there is none
	Ask Ask
}

// Ask is one of Call, Add, NewSession, Rows, Scan, Dump, Settings, Roll, Forget, Position, Status, Hello, Layout, Join,
// Token; nil for an empty line or a comment.
type Ask interface{ isAsk() }

type (
	// Call asks a call of a procedure.
	Call struct {
		Name              string
		Args              []byte
		Session, Sequence uint32        // both 0 for none
		After             uint64        // it runs on rows that are at least those after this position
		Upto              uint64        // and on none behind this one; 0 for no such bound
		Fresh             bool          // it runs on rows that are at least those of the order's end now
		Within            time.Duration // for how long it may be tried; 0 for the server's patience
	}
	// Add asks that a procedure is added.
	Add struct {
		Name            string
		Number, ArgsLen uint32
		Program         []byte
	}
	// NewSession asks for the number of a new session.
	NewSession struct{}
	// Rows asks for all rows.
	Rows struct{}
	// Scan asks for the first rows of a table whose keys are in a range, at most Most of them.
	Scan struct {
		Table       uint8
		First, Last uint64
		Most        uint32
	}
	// Dump asks for the settings of a database that goes on from where the server is.
	Dump struct{}
	// Settings asks for the settings of the server's order.
	Settings struct{}
	// Roll asks that the order of a number is ended, and another one begun.
	Roll struct {
		Order uint64
		End   ends.End
	}
	// Forget asks that all orders below a number are deleted.
	Forget struct{ Below uint64 }
	// Position asks how far the server has come.
	Position struct{}
	// Status asks that and more.
	Status struct{}
	// Hello asks which database and which order this is.
	Hello struct{}
	// Layout asks for the names and types of fields, as JSON.
	Layout struct{}
	// Join asks that a new member is taken into the cluster.
	Join struct{ Name, Place string }
	// Token says who asks.
	Token struct{ Word string }
)

func (*Call) isAsk()      {}
func (*Add) isAsk()       {}
func (NewSession) isAsk() {}
func (Rows) isAsk()       {}
func (*Scan) isAsk()      {}
func (Dump) isAsk()       {}
func (Settings) isAsk()   {}
func (*Roll) isAsk()      {}
func (*Forget) isAsk()    {}
func (Position) isAsk()   {}
func (Status) isAsk()     {}
func (Hello) isAsk()      {}
func (Layout) isAsk()     {}
func (*Join) isAsk()      {}
func (Token) isAsk()      {}

// Read reads a line, which is without its LF. The error is a Fault; the tag is read all the same where there is one.
func Read(text string) (Line, error) {
	if len(text) > LongestLine || !isPrintable(text) {
		return Line{}, NotPrintable
	}
	var line Line
	line.Tag, text = cutTag(text)
	if text == "" || line.Tag == "" && text[0] == '#' {
		return line, nil
	}
	if text == "call" || strings.HasPrefix(text, "call ") { // the one that matters for speed
		var room [12]string
		var err error
		line.Ask, err = readCall(splitText(text, room[:0])[1:])
		return line, err
	}
	words := splitText(text, nil)
	read, is := readers[words[0]]
	if !is {
		return line, NoWord
	}
	ask, err := read(words[1:])
	if err != nil {
		return line, err
	}
	line.Ask = ask
	return line, nil
}

// splitText appends the words of a text, cut at each space.
func splitText(text string, to []string) []string {
	for {
		at := strings.IndexByte(text, ' ')
		if at < 0 {
			return append(to, text)
		}
		to = append(to, text[:at])
		text = text[at+1:]
	}
}

func isPrintable(text string) bool {
	for at := 0; at < len(text); at++ {
		if text[at] < ' ' || text[at] > '~' {
			return false
		}
	}
	return true
}

// cutTag returns the tag at the beginning of a line, and the rest: `#`, digits, a space. Else the line is a comment.
func cutTag(text string) (tag, rest string) {
	if text == "" || text[0] != '#' {
		return "", text
	}
	end := 1
	for end < len(text) && text[end] >= '0' && text[end] <= '9' {
		end++
	}
	if end == 1 || end > 1+longestTag || end == len(text) || text[end] != ' ' {
		return "", text
	}
	return text[:end+1], text[end+1:]
}

var readers = map[string]func(fields []string) (Ask, error){
	"add":      readAdd,
	"token":    readToken,
	"join":     readJoin,
	"session":  alone(NewSession{}),
	"rows":     alone(Rows{}),
	"scan":     readScan,
	"dump":     alone(Dump{}),
	"settings": alone(Settings{}),
	"roll":     readRoll,
	"forget":   readForget,
	"position": alone(Position{}),
	"status":   alone(Status{}),
	"hello":    alone(Hello{}),
	"layout":   alone(Layout{}),
}

func alone(ask Ask) func(fields []string) (Ask, error) {
	return func(fields []string) (Ask, error) {
		if len(fields) != 0 {
			return nil, WrongCount
		}
		return ask, nil
	}
}

func readToken(fields []string) (Ask, error) {
	if len(fields) != 1 {
		return nil, WrongCount
	}
	if fields[0] == "" {
		return nil, WrongField
	}
	return Token{fields[0]}, nil
}

func readJoin(fields []string) (Ask, error) {
	if len(fields) != 2 {
		return nil, WrongCount
	}
	if fields[0] == "" || fields[1] == "" {
		return nil, WrongField
	}
	return &Join{fields[0], fields[1]}, nil
}

func readScan(fields []string) (Ask, error) {
	if len(fields) != 4 {
		return nil, WrongCount
	}
	var values [4]uint64
	for at, most := range [...]uint64{1<<8 - 1, 1<<64 - 1, 1<<64 - 1, 1<<32 - 1} {
		value, err := numberOf(fields[at], most)
		if err != nil {
			return nil, err
		}
		values[at] = value
	}
	if values[3] == 0 {
		return nil, WrongField
	}
	return &Scan{uint8(values[0]), values[1], values[2], uint32(values[3])}, nil
}

func readAdd(fields []string) (Ask, error) {
	if len(fields) != 4 {
		return nil, WrongCount
	}
	number, err := numberOf(fields[1], 1<<16-1)
	if err != nil {
		return nil, err
	}
	length, err := numberOf(fields[2], longestArgs)
	if err != nil {
		return nil, err
	}
	program, err := bytesOf(fields[3])
	if err != nil {
		return nil, err
	}
	return &Add{Name: fields[0], Number: uint32(number), ArgsLen: uint32(length), Program: program}, nil
}

func readCall(fields []string) (Ask, error) {
	if len(fields) < 4 {
		return nil, WrongCount
	}
	call := &Call{Name: fields[0]}
	if err := call.readOptions(fields[4:]); err != nil {
		return nil, err
	}
	args, err := bytesOf(fields[1])
	if err != nil {
		return nil, err
	}
	session, err := numberOf(fields[2], 1<<32-1)
	if err != nil {
		return nil, err
	}
	sequence, err := numberOf(fields[3], 1<<32-1)
	if err != nil {
		return nil, err
	}
	call.Args, call.Session, call.Sequence = args, uint32(session), uint32(sequence)
	return call, nil
}

// readOptions reads what stands behind a call's pair, each option once and in any order.
func (c *Call) readOptions(fields []string) error {
	if len(fields) == 0 {
		return nil
	}
	seen := map[string]bool{}
	for first := true; len(fields) > 0; first = false {
		word := fields[0]
		if seen[word] {
			return WrongCount
		}
		seen[word] = true
		count, err := c.readOption(word, fields[1:])
		if err == WrongField && !first && count == 0 {
			return WrongCount // more fields than the options before have
		}
		if err != nil {
			return err
		}
		fields = fields[1+count:]
	}
	return nil
}

// readOption reads one option, and returns how many fields behind its word it takes.
func (c *Call) readOption(word string, fields []string) (int, error) {
	if word == "fresh" {
		c.Fresh = true
		return 0, nil
	}
	into := map[string]*uint64{"after": &c.After, "upto": &c.Upto, "within": new(uint64)}[word]
	if into == nil {
		return 0, WrongField
	}
	if len(fields) == 0 {
		return 0, WrongCount
	}
	most := uint64(1<<64 - 1)
	if word == "within" {
		most = 86_400 // seconds
	}
	value, err := numberOf(fields[0], most)
	if err != nil {
		return 1, err
	}
	*into = value
	if word == "within" {
		c.Within = time.Duration(value) * time.Second
	}
	return 1, nil
}

// numberOf reads a decimal number without sign or leading zero.
func numberOf(field string, most uint64) (uint64, error) {
	if len(field) > 1 && field[0] == '0' || strings.HasPrefix(field, "+") {
		return 0, WrongField
	}
	value, err := strconv.ParseUint(field, 10, 64)
	if err != nil || value > most {
		return 0, WrongField
	}
	return value, nil
}

// bytesOf reads HEX, `-` for none.
func bytesOf(field string) ([]byte, error) {
	if field == "-" {
		return nil, nil
	}
	found, err := hex.DecodeString(field)
	if err != nil || len(found) == 0 {
		return nil, WrongField
	}
	return found, nil
}

// HexOf writes bytes as HEX, `-` for none.
func HexOf(found []byte) string {
	if len(found) == 0 {
		return "-"
	}
	return hex.EncodeToString(found)
}

// String writes a call as a line that Read reads so.
func (c *Call) String() string {
	text := fmt.Sprintf("call %s %s %d %d", c.Name, HexOf(c.Args), c.Session, c.Sequence)
	if c.Fresh {
		text += " fresh"
	}
	if c.After > 0 {
		text += fmt.Sprintf(" after %d", c.After)
	}
	if c.Upto > 0 {
		text += fmt.Sprintf(" upto %d", c.Upto)
	}
	if c.Within > 0 {
		text += fmt.Sprintf(" within %d", c.Within/time.Second)
	}
	return text
}

// String writes the line that asks for all rows.
func (Rows) String() string { return "rows" }

// String writes a scan as a line that Read reads so.
func (s *Scan) String() string {
	return fmt.Sprintf("scan %d %d %d %d", s.Table, s.First, s.Last, s.Most)
}

// String writes an addition as a line that Read reads so.
func (a *Add) String() string {
	return fmt.Sprintf("add %s %d %d %s", a.Name, a.Number, a.ArgsLen, HexOf(a.Program))
}
