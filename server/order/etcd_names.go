package order

import (
	"crypto/rand"
	"encoding/hex"
	"fmt"
	"strconv"
)

// window is how many batches a batch may be behind: with m batches counted, it counts where m - window <= its hint <= m.
const window = 4096

// A batch's key is PREFIX/K/HINT-RANDOM: K the order's number, HINT in ten digits how many batches its maker had
// counted, RANDOM 16 bytes of hex.
const (
	hintDigits = 10
	nameSize   = hintDigits + 1 + 32
	greatest   = 9_999_999_999 // of hints
)

// name is what a batch's key ends with.
type name struct {
	hint   uint64
	random [16]byte
}

// newName draws a name.
func newName(hint uint64) (name, error) {
	n := name{hint: hint}
	if hint > greatest {
		return n, fmt.Errorf("an order of %d batches", hint)
	}
	if _, err := rand.Read(n.random[:]); err != nil {
		return n, fmt.Errorf("drawing a batch's name: %w", err)
	}
	return n, nil
}

func (n name) String() string {
	return fmt.Sprintf("%0*d-%s", hintDigits, n.hint, hex.EncodeToString(n.random[:]))
}

// nameOf reads a name; false where the text isn't of that form.
func nameOf(text string) (name, bool) {
	var n name
	if len(text) != nameSize || text[hintDigits] != '-' {
		return n, false
	}
	hint, ok := hintOf(text)
	if !ok {
		return n, false
	}
	n.hint = hint
	if _, err := hex.Decode(n.random[:], []byte(text[hintDigits+1:])); err != nil {
		return n, false
	}
	return n, n.String() == text // capitals are another key
}

// hintOf reads the ten digits that a text begins with; false where there are none.
func hintOf(text string) (uint64, bool) {
	if len(text) < hintDigits {
		return 0, false
	}
	for _, it := range []byte(text[:hintDigits]) {
		if it < '0' || it > '9' {
			return 0, false
		}
	}
	hint, err := strconv.ParseUint(text[:hintDigits], 10, 64)
	return hint, err == nil
}

// keys are those of one order.
type keys struct {
	number uint64
	folder string // PREFIX/K/
}

func keysOf(prefix string, number uint64) keys {
	return keys{number, fmt.Sprintf("%s/%d/", prefix, number)}
}

// mark returns the key that is there once the order is forgotten: PREFIX/K.
func (k keys) mark() string { return k.folder[:len(k.folder)-1] }

// of returns the key of a name.
func (k keys) of(n name) string { return k.folder + n.String() }

// from returns the first key that a name of a hint can have.
func (k keys) from(hint uint64) string { return fmt.Sprintf("%s%0*d", k.folder, hintDigits, hint) }

// end returns the first key behind all of the order.
func (k keys) end() string { return k.mark() + string(rune('/'+1)) }

// floorOf returns the least hint that can count once so many batches have.
func floorOf(counted uint64) uint64 {
	if counted < window {
		return 0
	}
	return counted - window
}

// place is where a batch stands: batches are in the order of their creation, at one revision in that of their keys.
type place struct {
	revision int64
	key      string
}

func (p place) before(other place) bool {
	return p.revision < other.revision || p.revision == other.revision && p.key < other.key
}
