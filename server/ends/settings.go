package ends

import (
	"bytes"
	"encoding/hex"
	"fmt"
	"strings"

	"dsmdb/server/batch"
)

// Origin is what came before an order.
type Origin struct {
	Strings  uint64 // how many byte strings
	Sessions uint32 // how many sessions were opened
}

// identity begins the first line of settings that say of which database they are: a comment for an engine.
const identity = "# database "

// Settings is what settings say besides procedures, as far as that can be read: an engine refuses what can't.
type Settings struct {
	Tables []Table
	Origin *Origin  // nil where the order opens no sessions
	Of     batch.ID // of the database; zeros where the settings don't say
}

// Read reads settings, up to their rows.
func Read(text []byte) Settings {
	var found Settings
	for first := true; len(text) > 0; first = false {
		var line []byte
		line, text = cut(text)
		fields := strings.Split(string(line[:min(len(line), 80)]), " ")
		switch {
		case first && strings.HasPrefix(string(line), identity):
			id, err := hex.DecodeString(string(line[len(identity):]))
			if err == nil && len(id) == len(found.Of) {
				copy(found.Of[:], id)
			}
		case fields[0] == "table" && len(fields) == 3:
			number, ok := numberFrom1(fields[1], mostTables)
			width, right := numberFrom1(fields[2], widestRow)
			if ok && right {
				found.Tables = append(found.Tables, Table{uint8(number), uint16(width)})
			}
		case fields[0] == "origin" && len(fields) == 3:
			before, ok := decimal(fields[1], 64)
			sessions, right := decimal(fields[2], 32)
			if ok && right {
				found.Origin = &Origin{before, uint32(sessions)}
			}
		case fields[0] == "row" && found.Origin != nil:
			return found
		}
	}
	return found
}

func min(a, b int) int {
	if a < b {
		return a
	}
	return b
}

// cut returns the first line, without its LF, and the rest.
func cut(text []byte) (line, rest []byte) {
	if at := bytes.IndexByte(text, '\n'); at >= 0 {
		return text[:at], text[at+1:]
	}
	return text, nil
}

// Identity returns the line that says of which database settings are, with its LF.
func Identity(of batch.ID) string { return identity + hex.EncodeToString(of[:]) + "\n" }

// Next returns the settings of the order that goes on where one with some settings has ended. The dump is what an engine
// printed there, without its last line.
func Next(of batch.ID, own, dump []byte, end *End) []byte {
	idle := map[string]bool{}
	if end.Idle {
		idle = requestsOf(own)
	}
	next := make([]byte, 0, len(dump)+256)
	next = append(next, Identity(of)...)
	tables := end.Tables
	for len(dump) > 0 {
		var line []byte
		line, dump = cut(dump)
		switch word := wordOf(line); {
		case word == "window" && end.Window > 0:
			line = []byte(fmt.Sprintf("window %d", end.Window))
		case word == "request" && idle[requestOf(line)]:
			continue
		case word != "window" && word != "table":
			for _, it := range tables { // behind those that were there
				next = append(append(next, it.line()...), '\n')
			}
			tables = nil
		}
		next = append(append(next, line...), '\n')
	}
	return next
}

func wordOf(line []byte) string {
	at := bytes.IndexByte(line, ' ')
	if at < 0 {
		at = len(line)
	}
	return string(line[:at])
}

// Lines hands over the lines of settings that begin with a word, without LF.
func Lines(text []byte, word string, take func(line []byte)) {
	for len(text) > 0 {
		var line []byte
		if line, text = cut(text); wordOf(line) == word {
			take(line)
		}
	}
}

// requestsOf returns session and sequence number of each `request` line of settings.
func requestsOf(text []byte) map[string]bool {
	found := map[string]bool{}
	Lines(text, "request", func(line []byte) { found[requestOf(line)] = true })
	return found
}

// requestOf returns the session and the sequence number of a `request` line.
func requestOf(line []byte) string {
	fields := strings.SplitN(string(line), " ", 4)
	if len(fields) < 4 {
		return ""
	}
	return fields[1] + " " + fields[2]
}
