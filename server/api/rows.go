package api

import (
	"bufio"
	"bytes"
	"encoding/hex"
	"encoding/json"
	"errors"
	"fmt"
	"io"
	"net/http"
	"strconv"
	"strings"

	"dsmdb/server/layout"
	"dsmdb/server/site"
	"dsmdb/server/wire"
)

const mostRows = 10_000 // of one answer

// rows answers GET /v1/tables/TABLE/rows and /v1/tables/TABLE/rows/KEY.
func (h *Handler) rows(w http.ResponseWriter, r *http.Request) {
	scan, one, err := h.scanOf(r)
	if err != nil {
		tell(w, problem{Status: http.StatusNotFound, Title: "no such rows", Detail: err.Error()})
		return
	}
	if !h.may(w, r, scan) {
		return
	}
	answer, is := h.ask(r, scan)
	if !is {
		return
	}
	if answer.Kind != site.Rows {
		if answer.Kind == site.Text && strings.HasPrefix(answer.Text, "refused P16") {
			answer = site.Answer{Kind: site.Refused, Text: "P16"}
		}
		h.tellAnswer(w, answer)
		return
	}
	defer answer.Lines.Close()
	if one && answer.Lines.Count == 0 {
		tell(w, problem{Status: http.StatusNotFound, Title: "there is no row of that key"})
		return
	}
	w.Header().Set("Content-Type", "application/json")
	h.writeRows(w, answer.Lines, one)
}

// scanOf reads which rows are asked for; one is whether by key.
func (h *Handler) scanOf(r *http.Request) (scan *wire.Scan, one bool, err error) {
	parts := strings.Split(strings.TrimPrefix(r.URL.Path, "/v1/tables/"), "/")
	if len(parts) < 2 || len(parts) > 3 || parts[1] != "rows" {
		return nil, false, errors.New("/v1/tables/TABLE/rows, or /v1/tables/TABLE/rows/KEY")
	}
	scan = &wire.Scan{Last: 1<<64 - 1, Most: 100}
	if scan.Table, err = h.tableOf(parts[0]); err != nil {
		return nil, false, err
	}
	if len(parts) == 3 {
		if err := word(parts[2]).number(1<<64-1, &scan.First); err != nil || parts[2] == "" {
			return nil, false, errors.New("a key is a number from 0 to 18446744073709551615")
		}
		scan.Last, scan.Most = scan.First, 1
		return scan, true, nil
	}
	query := r.URL.Query()
	limit := uint64(scan.Most)
	for name, it := range map[string]struct {
		most uint64
		to   *uint64
	}{"from": {1<<64 - 1, &scan.First}, "to": {1<<64 - 1, &scan.Last}, "limit": {mostRows, &limit}} {
		if err := word(query.Get(name)).number(it.most, it.to); err != nil {
			return nil, false, fmt.Errorf("%s: %w", name, err)
		}
	}
	if limit == 0 {
		return nil, false, fmt.Errorf("limit: a number from 1 to %d", mostRows)
	}
	scan.Most = uint32(limit)
	return scan, false, nil
}

// tableOf returns a table's number, which is given so or by the layout's name.
func (h *Handler) tableOf(name string) (uint8, error) {
	var value uint64
	if err := word(name).number(255, &value); err == nil && name != "" {
		return uint8(value), nil
	}
	if h.Layout != nil {
		for _, it := range h.Layout.Tables {
			if it.Name == name {
				return it.Number, nil
			}
		}
	}
	return 0, fmt.Errorf("no table %q: its number, or its name in the layout", name)
}

// row is a row as JSON.
type row struct {
	Key    string            `json:"key"`
	Row    string            `json:"row"` // in hex
	Fields map[string]string `json:"fields,omitempty"`
}

func (h *Handler) writeRows(w io.Writer, lines *site.Spool, one bool) {
	reader, err := lines.Reader()
	if err != nil {
		panic(http.ErrAbortHandler)
	}
	out := bufio.NewWriterSize(w, 1<<16)
	defer out.Flush()
	encoder := json.NewEncoder(out)
	if !one {
		fmt.Fprintf(out, `{"position":"%d","rows":[`, lines.Position)
	}
	scanner, first := bufio.NewScanner(reader), true
	for scanner.Scan() {
		found, is := h.rowOf(scanner.Bytes())
		if !is {
			break
		}
		if !first {
			out.WriteByte(',')
		}
		first = false
		encoder.Encode(found)
	}
	if scanner.Err() != nil {
		panic(http.ErrAbortHandler) // so that nobody takes a part for the whole
	}
	if !one {
		out.WriteString("]}\n")
	}
}

func (h *Handler) rowOf(line []byte) (row, bool) {
	fields := bytes.Fields(line)
	if len(fields) != 3 || line[0] != ' ' {
		return row{}, false
	}
	found := row{Key: string(fields[1]), Row: string(fields[2])}
	table, _ := strconv.ParseUint(string(fields[0]), 10, 8)
	if known := h.Layout.Table(uint8(table)); known != nil {
		if value, err := hex.DecodeString(found.Row); err == nil {
			found.Fields = fieldsOf(known, value)
		}
	}
	return found, true
}

func fieldsOf(known *layout.Table, value []byte) map[string]string {
	found := map[string]string{}
	for _, it := range known.Values(value) {
		found[it.Name] = it.Text
	}
	return found
}
