package api

import (
	"bytes"
	"encoding/json"
	"errors"
	"fmt"
	"net/http"
	"strconv"

	"dsmdb/server/site"
)

// word is a JSON number or string, as text. Numbers of 64 bits don't fit those of JavaScript, so they may be strings.
type word string

// UnmarshalJSON implements json.Unmarshaler.
func (w *word) UnmarshalJSON(text []byte) error {
	if len(text) > 0 && text[0] == '"' {
		var found string
		err := json.Unmarshal(text, &found)
		*w = word(found)
		return err
	}
	if len(text) == 0 || !(text[0] == '-' || text[0] >= '0' && text[0] <= '9') {
		return errors.New("a number or a string")
	}
	*w = word(text)
	return nil
}

// number reads a decimal number up to a most; what is empty is left as it was.
func (w word) number(most uint64, to *uint64) error {
	if w == "" {
		return nil
	}
	value, err := strconv.ParseUint(string(w), 10, 64)
	if err != nil || value > most || strconv.FormatUint(value, 10) != string(w) {
		return fmt.Errorf("a number from 0 to %d", most)
	}
	*to = value
	return nil
}

func number(value uint64) string { return strconv.FormatUint(value, 10) }

// problem is a document of RFC 9457 (before: RFC 7807).
type problem struct {
	Type   string `json:"type,omitempty"`
	Status int    `json:"status"`
	Title  string `json:"title"`
	Detail string `json:"detail,omitempty"`
	Rule   string `json:"rule,omitempty"`   // as P3
	Answer string `json:"answer,omitempty"` // the line of the answer
}

func tell(w http.ResponseWriter, it problem) {
	w.Header().Set("Content-Type", "application/problem+json")
	w.WriteHeader(it.Status)
	encode(w, it)
}

func write(w http.ResponseWriter, status int, it any) {
	w.Header().Set("Content-Type", "application/json")
	w.WriteHeader(status)
	encode(w, it)
}

func encode(w http.ResponseWriter, it any) {
	encoder := json.NewEncoder(w)
	encoder.SetEscapeHTML(false)
	encoder.Encode(it) // a client that has left is told nothing
}

// decode reads a body of JSON, and answers for itself where it is none.
func decode(w http.ResponseWriter, r *http.Request, to any) bool {
	decoder := json.NewDecoder(http.MaxBytesReader(w, r.Body, longestBody))
	decoder.DisallowUnknownFields()
	err := decoder.Decode(to)
	if err == nil && decoder.More() {
		err = errors.New("more than one value")
	}
	if err != nil {
		tell(w, problem{Status: http.StatusBadRequest, Title: "the body can't be read", Detail: err.Error()})
		return false
	}
	return true
}

// refusals say what those of calls and additions mean, and what to do.
var refusals = map[string][2]string{
	"P2":  {"there is no procedure of that name", "GET /v1/procedures lists them"},
	"P3":  {"the arguments have another length than the procedure's", "GET /v1/procedures has each length"},
	"P9":  {"the engine has no memory for the call", "ask again later, or give the server more memory"},
	"P11": {"the verifier refuses the program", "`dsmdb explain` has words for the rule behind P11"},
	"P12": {"the procedure's name or number is taken, or no name", "take another"},
	"P13": {"a call that writes needs a session and a sequence number", "POST /v1/sessions begins a session"},
	"P14": {"procedures can't be added to this database", "its settings lack the line additions"},
	"P15": {"the session is known no more, or has called with a higher number", "begin a new session"},
	"P16": {"there is no such table", "the settings have the tables"},
}

// tellAnswer writes an answer to a call, a session or an addition.
func (h *Handler) tellAnswer(w http.ResponseWriter, answer site.Answer) {
	line := string(answer.AppendLine(nil))
	switch answer.Kind {
	case site.Committed, site.Read:
		write(w, http.StatusOK, map[string]any{"answer": answer.Kind.String(), "position": number(answer.At), "reply": number(answer.Value)})
	case site.Cancelled:
		write(w, http.StatusOK, map[string]any{
			"answer": "cancelled", "position": number(answer.At), "code": number(answer.Value), "name": h.Layout.Code(answer.Value),
		})
	case site.Added:
		write(w, http.StatusOK, map[string]any{"answer": "added", "number": number(answer.At)})
	case site.Conflict:
		tell(w, problem{Status: 409, Title: "another call committed first", Detail: "call again: nothing was done", Answer: line})
	case site.Stale:
		tell(w, problem{Status: 409, Title: "the call fell too far behind", Detail: "call again: nothing was done", Answer: line})
	case site.Other:
		tell(w, problem{Status: 409, Title: "another call has this session and sequence number", Detail: "take the next sequence number", Answer: line})
	case site.Late:
		tell(w, problem{Status: 409, Title: "the server is behind upto already", Detail: "this try wasn't made: ask with a higher upto", Answer: line})
	case site.Full:
		tell(w, problem{Status: 507, Title: "the order can't grow now", Detail: "ask again with the same pair when there is room", Answer: line})
	case site.Refused, site.Taken:
		rule, _, _ := bytes.Cut([]byte(answer.Text), []byte(" "))
		known := refusals[string(rule)]
		if known[0] == "" {
			known = [2]string{"refused by rule " + answer.Text, "`dsmdb explain " + string(rule) + "` has words for the rule"}
		}
		tell(w, problem{Status: 422, Title: known[0], Detail: known[1], Rule: answer.Text, Answer: line})
	case site.Unknown:
		tell(w, problem{Status: 503, Title: "it isn't known whether the call was done", Detail: "ask again with the same pair: fresh, after the greatest upto that was given, with a greater upto", Answer: line})
	default:
		tell(w, problem{Status: 500, Title: "the engine answers otherwise than it may", Answer: line})
	}
}
