package wire

import (
	"fmt"
	"math"
)

// readRoll reads `roll ORDER`, behind which stand idle, window W, table T W and about HEX, in any order.
func readRoll(fields []string) (Ask, error) {
	if len(fields) == 0 {
		return nil, WrongCount
	}
	number, err := numberOf(fields[0], math.MaxUint64)
	if err != nil || number == 0 {
		return nil, WrongField
	}
	roll := &Roll{Order: number}
	for rest := fields[1:]; len(rest) > 0; {
		count, err := roll.readChange(rest[0], rest[1:])
		if err != nil {
			return nil, err
		}
		rest = rest[1+count:]
	}
	return roll, nil
}

// readChange reads one change, and returns how many fields behind its word it takes.
func (r *Roll) readChange(word string, fields []string) (int, error) {
	count, is := map[string]int{"idle": 0, "window": 1, "table": 2, "about": 1}[word]
	switch {
	case !is:
		return 0, WrongField
	case len(fields) < count:
		return 0, WrongCount
	}
	line := word
	for _, field := range fields[:count] {
		line += " " + field
	}
	if !r.End.Read(line) {
		return 0, WrongField
	}
	return count, nil
}

// String writes the asking for an order's end as a line that Read reads so.
func (r *Roll) String() string {
	text := fmt.Sprintf("roll %d", r.Order)
	for _, line := range r.End.Lines() {
		text += " " + line
	}
	return text
}

func readForget(fields []string) (Ask, error) {
	if len(fields) != 1 {
		return nil, WrongCount
	}
	below, err := numberOf(fields[0], math.MaxUint64)
	if err != nil || below == 0 {
		return nil, WrongField
	}
	return &Forget{below}, nil
}

// String writes the line that asks for the settings of a database that goes on.
func (Dump) String() string { return "dump" }

// String writes the asking to forget orders as a line that Read reads so.
func (f *Forget) String() string { return fmt.Sprintf("forget %d", f.Below) }
