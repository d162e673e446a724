package order

import (
	"crypto/rand"
	"crypto/sha256"
	"fmt"
)

// Strings that servers make for themselves begin with 00, so that they are nothing to a site:
//
//	00 01  and the SHA-256 of the settings: the first of an order. 02 behind it says that the order opens sessions, and
//	       can end
//	00 02  and 16 random bytes: a session. Its number is the string's position, or what the engine says where the order
//	       opens sessions
//	00 03  and lines: the end of an order (package ends)
//	00     alone: what an order is made longer by

// Filling is a string by which an order is made longer.
var Filling = []byte{0}

// First returns the string that an order for these settings begins with.
func First(settings []byte, opensSessions bool) []byte {
	sum := sha256.Sum256(settings)
	first := append([]byte{0, 1}, sum[:]...)
	if opensSessions {
		first = append(first, 2)
	}
	return first
}

// NewSession returns a string that begins a session.
func NewSession() ([]byte, error) {
	drawn := make([]byte, 18)
	drawn[1] = 2
	if _, err := rand.Read(drawn[2:]); err != nil {
		return nil, fmt.Errorf("drawing a session: %w", err)
	}
	return drawn, nil
}

// IsOfServers returns whether a string has the form of one that servers make for themselves.
func IsOfServers(text []byte) bool {
	switch len(text) {
	case 34, 35:
		return text[0] == 0 && text[1] == 1 && (len(text) == 34 || text[34] == 2)
	case 18:
		return text[0] == 0 && text[1] == 2
	case 1:
		return text[0] == 0
	}
	return false
}
