// Package batch has the bytes of a batch: some byte strings of an order, which are appended together, behind a header
// that says who appends them and what he has come to so far.
package batch

import (
	"crypto/hmac"
	"crypto/sha256"
	"encoding/binary"
	"errors"
	"fmt"
)

// A batch is, numbers least byte first:
//
//	 0      4  form, 1
//	 4      1  length V of the version
//	 5      V  version of the program that made it
//	 5+V   16  identity of the database
//	21+V   16  maker
//	37+V    8  position P of the maker's vote
//	45+V   32  digest of the strings 1 to P
//	77+V   32  digest of the settings and the answers 1 to P
//	109+V      strings, each behind its length in 4 bytes
//
// Under a secret 32 bytes more follow, an HMAC-SHA-256 (RFC 2104).
const (
	form          = 1
	fixedSize     = 109 // of a header, besides the version
	signatureSize = sha256.Size
)

const (
	// LongestString is the most bytes of a string.
	LongestString = 262_144
	// Longest is the most bytes of a batch, with its header and its signature.
	Longest = 1_000_000
)

// ID is sixteen random bytes that tell a database or a maker from others.
type ID [16]byte

// Vote is what a maker's engine had come to: the digests at a position of the order.
type Vote struct {
	Position uint64
	Strings  Digest
	Answers  Digest
}

// Header says who made a batch.
type Header struct {
	Version  string // of the program, at most 255 bytes
	Database ID
	Maker    ID
	Vote     Vote
}

// Batch is a header with the strings behind it.
type Batch struct {
	Header
	Strings [][]byte
}

// Secret is what all servers of a database share, so that nobody else makes batches.
type Secret [32]byte

// FormError says that bytes have a form of batches that this program doesn't know.
type FormError struct{ Form uint32 }

func (e *FormError) Error() string {
	return fmt.Sprintf("a batch of form %d, and this program knows form %d", e.Form, form)
}

var (
	// ErrBroken says that bytes are no batch.
	ErrBroken = errors.New("no batch")
	// ErrUnsigned says that a batch doesn't carry the signature of the secret.
	ErrUnsigned = errors.New("a batch that the secret didn't sign")
)

// Append appends the bytes of a batch, which is of at most Longest bytes and has no longer strings than LongestString.
func (b *Batch) Append(to []byte) []byte {
	to = binary.LittleEndian.AppendUint32(to, form)
	to = append(to, byte(len(b.Version)))
	to = append(to, b.Version...)
	to = append(to, b.Database[:]...)
	to = append(to, b.Maker[:]...)
	to = binary.LittleEndian.AppendUint64(to, b.Vote.Position)
	to = append(to, b.Vote.Strings[:]...)
	to = append(to, b.Vote.Answers[:]...)
	for _, it := range b.Strings {
		to = binary.LittleEndian.AppendUint32(to, uint32(len(it)))
		to = append(to, it...)
	}
	return to
}

// SizeOf returns how many bytes of a batch a string takes.
func SizeOf(text []byte) int { return 4 + len(text) }

// HeaderSize returns how many bytes of a batch its header and its signature take at most.
func HeaderSize(version string) int { return fixedSize + len(version) + signatureSize }

// Read reads a batch. Its strings lie in the bytes that are given.
func Read(bytes []byte) (*Batch, error) {
	if len(bytes) > Longest || len(bytes) < 5 {
		return nil, ErrBroken
	}
	if found := binary.LittleEndian.Uint32(bytes); found != form {
		return nil, &FormError{found}
	}
	length := int(bytes[4])
	if len(bytes) < fixedSize+length {
		return nil, ErrBroken
	}
	b := &Batch{Header: Header{Version: string(bytes[5 : 5+length])}}
	rest := bytes[5+length:]
	rest = rest[copy(b.Database[:], rest):]
	rest = rest[copy(b.Maker[:], rest):]
	b.Vote.Position = binary.LittleEndian.Uint64(rest)
	rest = rest[8:]
	rest = rest[copy(b.Vote.Strings[:], rest):]
	rest = rest[copy(b.Vote.Answers[:], rest):]
	strings, err := stringsOf(rest)
	b.Strings = strings
	return b, err
}

func stringsOf(rest []byte) ([][]byte, error) {
	var strings [][]byte
	for len(rest) > 0 {
		if len(rest) < 4 {
			return nil, ErrBroken
		}
		length := binary.LittleEndian.Uint32(rest)
		rest = rest[4:]
		if length > LongestString || uint64(length) > uint64(len(rest)) {
			return nil, ErrBroken
		}
		strings = append(strings, rest[:length:length])
		rest = rest[length:]
	}
	return strings, nil
}

// Sign appends the signature of a batch's bytes under a key of the order.
func (s *Secret) Sign(key string, bytes []byte) []byte {
	return append(bytes, s.signature(key, bytes)...)
}

// Open returns the bytes before the signature, where that is the one of the secret and the key.
func (s *Secret) Open(key string, bytes []byte) ([]byte, error) {
	at := len(bytes) - signatureSize
	if at < 0 || !hmac.Equal(bytes[at:], s.signature(key, bytes[:at])) {
		return nil, ErrUnsigned
	}
	return bytes[:at:at], nil
}

// signature is over the key behind its length, and the bytes, so that no key's end passes for a batch's beginning.
func (s *Secret) signature(key string, bytes []byte) []byte {
	of := hmac.New(sha256.New, s[:])
	var length [4]byte
	binary.LittleEndian.PutUint32(length[:], uint32(len(key)))
	of.Write(length[:])
	of.Write([]byte(key))
	of.Write(bytes)
	return of.Sum(nil)
}
