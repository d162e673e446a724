// Package layout gives the bytes of arguments and rows names and types, by a file that `sdk/c/build --layout` writes.
package layout

import (
	"bytes"
	"encoding/hex"
	"encoding/json"
	"errors"
	"fmt"
	"os"
	"strconv"
	"strings"

	"dsmdb/server/ends"
	"dsmdb/server/site"
)

// Layout says which fields the arguments of procedures have, and the rows of tables, and which names the codes.
type Layout struct {
	Form       int               `json:"form"` // 1
	Tables     []Table           `json:"tables"`
	Procedures []Procedure       `json:"procedures"`
	Codes      map[string]string `json:"codes"` // names by codes in decimal digits
}

// Table has the fields of a table's rows.
type Table struct {
	Number uint8   `json:"number"`
	Name   string  `json:"name"`
	Width  int     `json:"width"` // of a row in bytes
	Fields []Field `json:"fields"`
}

// Procedure has the fields of a procedure's arguments.
type Procedure struct {
	Number  uint16  `json:"number"`
	Name    string  `json:"name"`
	Length  int     `json:"length"` // of the arguments in bytes
	Program string  `json:"program_sha256"`
	Fields  []Field `json:"fields"`
}

// Field is a field of some bytes: u8, u16, u32, u64, i8, i16, i32, i64 with the least byte first, text:N or bytes:N.
type Field struct {
	Name string `json:"name"`
	Type string `json:"type"`
	At   int    `json:"at"` // its first byte

	form form
	size int
}

type form uint8

const (
	unsigned form = iota
	signed
	text
	raw
)

// Load reads a layout file.
func Load(path string) (*Layout, error) {
	found, err := os.ReadFile(path)
	if err != nil {
		return nil, fmt.Errorf("reading the layout: %w", err)
	}
	l, err := Parse(found)
	if err != nil {
		return nil, fmt.Errorf("layout %s: %w", path, err)
	}
	return l, nil
}

// Parse reads the text of a layout.
func Parse(text []byte) (*Layout, error) {
	l := &Layout{}
	decoder := json.NewDecoder(bytes.NewReader(text))
	decoder.DisallowUnknownFields()
	if err := decoder.Decode(l); err != nil {
		return nil, err
	}
	if l.Form != 1 {
		return nil, fmt.Errorf("it has form %d, and this program knows form 1", l.Form)
	}
	for at := range l.Tables {
		it := &l.Tables[at]
		if err := prepare(it.Fields, it.Width); err != nil {
			return nil, fmt.Errorf("table %s: %w", it.Name, err)
		}
	}
	for at := range l.Procedures {
		it := &l.Procedures[at]
		if err := prepare(it.Fields, it.Length); err != nil {
			return nil, fmt.Errorf("procedure %s: %w", it.Name, err)
		}
	}
	return l, nil
}

// prepare reads the types of fields, which have to lie within a width.
func prepare(fields []Field, width int) error {
	for at := range fields {
		it := &fields[at]
		if err := it.readType(); err != nil {
			return err
		}
		if it.At < 0 || it.size > width || it.At > width-it.size {
			return fmt.Errorf("field %s lies outside of %d bytes", it.Name, width)
		}
	}
	return nil
}

func (f *Field) readType() error {
	kind, size, isSized := strings.Cut(f.Type, ":")
	if isSized && (kind == "text" || kind == "bytes") {
		count, err := strconv.Atoi(size)
		if err != nil || count < 1 || count > 256 {
			return fmt.Errorf("field %s: no type %s", f.Name, f.Type)
		}
		f.size, f.form = count, text
		if kind == "bytes" {
			f.form = raw
		}
		return nil
	}
	sizes := map[string]int{"8": 1, "16": 2, "32": 4, "64": 8}
	if isSized || len(kind) < 2 || kind[0] != 'u' && kind[0] != 'i' || sizes[kind[1:]] == 0 {
		return fmt.Errorf("field %s: no type %s", f.Name, f.Type)
	}
	f.size = sizes[kind[1:]]
	if kind[0] == 'i' {
		f.form = signed
	}
	return nil
}

// String returns the layout as JSON in one line, of printable ASCII; "none" where there is none.
func (l *Layout) String() string {
	if l == nil {
		return "none"
	}
	found, err := json.Marshal(l)
	if err != nil {
		return "none"
	}
	return strconv.QuoteToASCII(string(found))
}

// FromString reads what String returned; nil where there was none.
func FromString(text string) (*Layout, error) {
	if text == "none" {
		return nil, nil
	}
	found, err := strconv.Unquote(text)
	if err != nil {
		return nil, fmt.Errorf("reading a layout: %w", err)
	}
	return Parse([]byte(found))
}

// Check returns why a layout isn't that of settings, of which each procedure has to have the program that the layout
// names.
func (l *Layout) Check(settings []byte) error {
	widths := map[int]int{}
	for _, it := range ends.Read(settings).Tables {
		widths[int(it.Number)] = int(it.Width)
	}
	for _, it := range l.Tables {
		if widths[int(it.Number)] != it.Width {
			return fmt.Errorf("the layout's table %s is number %d with rows of %d bytes, and the settings have no such table", it.Name, it.Number, it.Width)
		}
	}
	procedures := map[string]site.Procedure{}
	for _, it := range site.ProceduresOf(settings) {
		procedures[it.Name] = it
	}
	for _, it := range l.Procedures {
		found, is := procedures[it.Name]
		if !is {
			continue // it may be added later
		}
		if found.Number != uint32(it.Number) || found.ArgsLen != uint32(it.Length) || hex.EncodeToString(found.Program[:]) != it.Program {
			return fmt.Errorf("the layout's procedure %s isn't that of the settings: build both from one source", it.Name)
		}
	}
	return nil
}

// Procedure returns the layout of a procedure's arguments; nil where there is none.
func (l *Layout) Procedure(name string) *Procedure {
	if l == nil {
		return nil
	}
	for at := range l.Procedures {
		if l.Procedures[at].Name == name {
			return &l.Procedures[at]
		}
	}
	return nil
}

// Table returns the layout of a table's rows; nil where there is none.
func (l *Layout) Table(number uint8) *Table {
	if l == nil {
		return nil
	}
	for at := range l.Tables {
		if l.Tables[at].Number == number {
			return &l.Tables[at]
		}
	}
	return nil
}

// Code returns a code's name; the code in digits where it has none.
func (l *Layout) Code(code uint64) string {
	digits := strconv.FormatUint(code, 10)
	if l != nil && l.Codes[digits] != "" {
		return l.Codes[digits]
	}
	return digits
}

// Pack returns the bytes of arguments that are given by name: all fields, once each, and no others.
func (p *Procedure) Pack(values map[string]string) ([]byte, error) {
	packed := make([]byte, p.Length)
	for _, field := range p.Fields {
		word, is := values[field.Name]
		if !is {
			return nil, fmt.Errorf("%s takes %s", p.Name, p.names())
		}
		if err := field.put(packed, word); err != nil {
			return nil, fmt.Errorf("%s: %w", p.Name, err)
		}
	}
	if len(values) != len(p.Fields) {
		return nil, fmt.Errorf("%s takes %s", p.Name, p.names())
	}
	return packed, nil
}

func (p *Procedure) names() string {
	if len(p.Fields) == 0 {
		return "no arguments"
	}
	names := make([]string, len(p.Fields))
	for at, it := range p.Fields {
		names[at] = it.Name + "="
	}
	return strings.Join(names, " ")
}

// put writes a field's value, in digits, hex or text by its type. Text and bytes that are shorter are filled up with zeros.
func (f *Field) put(to []byte, word string) error {
	room := to[f.At : f.At+f.size]
	value := []byte(word)
	switch f.form {
	case text:
	case raw:
		var err error
		if value, err = hex.DecodeString(word); err != nil {
			return fmt.Errorf("%s=%s: an even number of hex digits", f.Name, word)
		}
	default:
		number, err := f.number(word)
		if err != nil {
			return fmt.Errorf("%s=%s: %w", f.Name, word, err)
		}
		for at := range room {
			room[at] = byte(number >> (8 * at))
		}
		return nil
	}
	if len(value) > len(room) {
		return fmt.Errorf("%s has %d bytes, and its value has %d", f.Name, len(room), len(value))
	}
	copy(room, value)
	return nil
}

func (f *Field) number(word string) (uint64, error) {
	digits := strings.TrimPrefix(word, "-")
	if len(digits) > 1 && digits[0] == '0' && digits[1] != 'x' || strings.ContainsAny(word, "_+") {
		return 0, errors.New("no number: decimal without leading zeros, or 0x..")
	}
	if f.form == signed {
		found, err := strconv.ParseInt(word, 0, 8*f.size)
		return uint64(found), why(err, f.size)
	}
	found, err := strconv.ParseUint(word, 0, 8*f.size)
	return found, why(err, f.size)
}

func why(err error, size int) error {
	switch {
	case err == nil:
		return nil
	case errors.Is(err, strconv.ErrRange):
		return fmt.Errorf("it doesn't fit its %d bytes", size)
	}
	return errors.New("no number: decimal without leading zeros, or 0x..")
}

// Value is a field's name and value as text.
type Value struct{ Name, Text string }

// Values returns the values of a row's fields in their order.
func (t *Table) Values(row []byte) []Value {
	found := make([]Value, 0, len(t.Fields))
	if len(row) != t.Width {
		return found
	}
	for _, it := range t.Fields {
		found = append(found, Value{it.Name, it.shown(row)})
	}
	return found
}

func (f *Field) shown(row []byte) string {
	value := row[f.At : f.At+f.size]
	switch f.form {
	case text:
		return strings.ToValidUTF8(strings.TrimRight(string(value), "\x00"), "\ufffd")
	case raw:
		return hex.EncodeToString(value)
	}
	number := uint64(0)
	for at, it := range value {
		number |= uint64(it) << (8 * at)
	}
	if f.form == signed {
		shift := 64 - 8*f.size
		return strconv.FormatInt(int64(number<<shift)>>shift, 10)
	}
	return strconv.FormatUint(number, 10)
}
