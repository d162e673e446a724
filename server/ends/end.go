// Package ends has the ends of orders: the string that ends one, and the settings of the order that goes on from there.
package ends

import (
	"bytes"
	"encoding/hex"
	"fmt"
	"strconv"
	"strings"
)

// The limits of settings (docs/LIMITS.md).
const (
	widestWindow = 4096
	mostTables   = 64
	widestRow    = 128
	longestLine  = 70_000 // bytes
)

// End ends an order, and says what changes in the settings of the next one.
type End struct {
	Window uint32   // of the next order; 0 for the same
	Tables []Table  // that the next order has besides
	Idle   bool     // whether sessions are closed that did nothing in this order
	About  []string // at most one: HEX, which is kept nowhere
}

// Table is a table of settings.
type Table struct {
	Number uint8
	Width  uint16 // bytes of a row
}

// The string that ends an order is 00 03, and lines as of settings behind it, each with its LF:
//
//	window W     in place of the window, once
//	table T W    a table that isn't there yet
//	idle         sessions that did nothing in this order are closed, once
//	about HEX    whatever a person wants to say, once
var head = []byte{0, 3}

// Bytes returns the string that ends an order so.
func (e *End) Bytes() []byte {
	text := append([]byte(nil), head...)
	for _, line := range e.Lines() {
		text = append(append(text, line...), '\n')
	}
	return text
}

// Lines returns what changes, a line each, without LF.
func (e *End) Lines() []string {
	var lines []string
	if e.Window > 0 {
		lines = append(lines, fmt.Sprintf("window %d", e.Window))
	}
	for _, it := range e.Tables {
		lines = append(lines, it.line())
	}
	if e.Idle {
		lines = append(lines, "idle")
	}
	for _, it := range e.About {
		lines = append(lines, "about "+it)
	}
	return lines
}

func (t Table) line() string { return fmt.Sprintf("table %d %d", t.Number, t.Width) }

// Of reads the string that ends an order with some tables; false where the string ends none.
func Of(text []byte, tables []Table) (*End, bool) {
	rest := bytes.TrimPrefix(text, head)
	if len(rest) == len(text) || len(rest) > 0 && rest[len(rest)-1] != '\n' {
		return nil, false
	}
	end := &End{}
	for len(rest) > 0 {
		at := bytes.IndexByte(rest, '\n')
		if line := string(rest[:at]); !isSettingsLine(rest[:at]) || line != "" && line[0] != '#' && !end.Read(line) {
			return nil, false
		}
		rest = rest[at+1:]
	}
	return end, end.Fits(tables)
}

// isSettingsLine returns whether a line's bytes may stand in settings.
func isSettingsLine(line []byte) bool {
	for _, it := range line {
		if it < ' ' || it > '~' {
			return false
		}
	}
	return len(line) <= longestLine
}

// Read adds what a line changes; false where the line changes nothing that may be changed, or changes it again.
func (e *End) Read(line string) bool {
	fields := strings.Split(line, " ")
	switch {
	case len(line) > longestLine:
		return false
	case fields[0] == "window" && len(fields) == 2 && e.Window == 0:
		width, ok := numberFrom1(fields[1], widestWindow)
		e.Window = uint32(width)
		return ok
	case fields[0] == "table" && len(fields) == 3:
		number, ok := numberFrom1(fields[1], mostTables)
		width, right := numberFrom1(fields[2], widestRow)
		if !ok || !right || has(e.Tables, uint8(number)) {
			return false
		}
		e.Tables = append(e.Tables, Table{uint8(number), uint16(width)})
		return true
	case line == "idle" && !e.Idle:
		e.Idle = true
		return true
	case fields[0] == "about" && len(fields) == 2 && len(e.About) == 0:
		e.About = fields[1:]
		return isHex(fields[1])
	}
	return false
}

// Fits returns whether an order with some tables may end so: no table comes again.
func (e *End) Fits(tables []Table) bool {
	for _, it := range e.Tables {
		if has(tables, it.Number) {
			return false
		}
	}
	return true
}

func has(tables []Table, number uint8) bool {
	for _, it := range tables {
		if it.Number == number {
			return true
		}
	}
	return false
}

// numberFrom1 reads a decimal number from 1 on, without sign or leading zero.
func numberFrom1(field string, most uint64) (uint64, bool) {
	value, ok := decimal(field, 64)
	return value, ok && value >= 1 && value <= most
}

// decimal reads a decimal number without sign or leading zero.
func decimal(field string, bits int) (uint64, bool) {
	if len(field) > 1 && field[0] == '0' || strings.HasPrefix(field, "+") {
		return 0, false
	}
	value, err := strconv.ParseUint(field, 10, bits)
	return value, err == nil
}

func isHex(field string) bool {
	_, err := hex.DecodeString(field)
	return field == "-" || field != "" && err == nil
}
