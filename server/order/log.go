package order

import (
	"crypto/rand"
	"errors"
	"fmt"

	"dsmdb/server/batch"
	"dsmdb/server/durations"
	"dsmdb/server/segments"
)

// Magic is what the segments of an order's log begin with.
var Magic = segments.Magic{'d', 's', 'm', 'd', 'b', 'l', 'o', 'g'}

// Log is an order in the folder of one server, who alone appends to it. One goroutine has it.
type Log struct {
	log      *segments.Log
	maker    Maker
	database batch.ID
	begun    bool
	position uint64
	buffer   []byte
}

// Open opens the order in a folder, and hands over its batches, whose strings take may keep. How long it takes to force
// strings to the disk is counted in forces, where that isn't nil.
func Open(path string, maker Maker, forces *durations.Shared, take func(found *batch.Batch) error) (*Log, error) {
	l := &Log{maker: maker}
	log, err := segments.Open(path, segments.Options{Magic: Magic, Forces: forces}, func(kept []byte) error { return l.read(kept, take) })
	if err != nil {
		return nil, fmt.Errorf("the order in %s: %w", path, err)
	}
	l.log = log
	return l, nil
}

// read counts a batch that stands in the log, and hands it on.
func (l *Log) read(kept []byte, take func(found *batch.Batch) error) error {
	found, err := batch.Read(append([]byte(nil), kept...))
	if err != nil {
		return fmt.Errorf("behind position %d: %w", l.position, err)
	}
	if l.isOfAnother(found) {
		return fmt.Errorf("behind position %d: a batch of another database", l.position)
	}
	l.database, l.begun = found.Database, true
	l.position += uint64(len(found.Strings))
	return take(found)
}

// isOfAnother returns whether a batch that comes next is of another database than the order.
func (l *Log) isOfAnother(found *batch.Batch) bool {
	if l.begun {
		return found.Database != l.database
	}
	return l.maker.isKnown() && found.Database != l.maker.Database
}

// Position returns how many strings the order has.
func (l *Log) Position() uint64 { return l.position }

// Database returns the identity of the database, as the first batch has it; false where there is no batch yet.
func (l *Log) Database() (batch.ID, bool) { return l.database, l.begun }

// Room returns how many bytes the strings of one batch may take, each by batch.SizeOf.
func (l *Log) Room() int { return batch.Longest - batch.HeaderSize(l.maker.Version) }

// Append appends strings, one behind the other, with what their maker's engine has come to, and returns their batch,
// which stands at the order's end. They take at most Room bytes. After ErrFull the order is as it was; after any other
// error it is over.
func (l *Log) Append(strings [][]byte, vote batch.Vote) (*batch.Batch, error) {
	size := 0
	for _, it := range strings {
		if len(it) > batch.LongestString {
			return nil, fmt.Errorf("a string of %d bytes", len(it))
		}
		size += batch.SizeOf(it)
	}
	if size > l.Room() {
		return nil, fmt.Errorf("strings of %d bytes in one batch", size)
	}
	database, err := l.identity()
	if err != nil {
		return nil, err
	}
	header := batch.Header{Version: l.maker.Version, Database: database, Maker: l.maker.ID, Vote: vote}
	made := &batch.Batch{Header: header, Strings: strings}
	l.buffer = made.Append(l.buffer[:0])
	if _, err := l.log.Append(l.buffer); errors.Is(err, segments.ErrFull) {
		return nil, ErrFull
	} else if err != nil {
		return nil, fmt.Errorf("appending to the order: %w", err)
	}
	l.database, l.begun = database, true
	l.position += uint64(len(strings))
	return made, nil
}

// identity returns the database's identity, drawn where the order has no batch yet and nobody knows it.
func (l *Log) identity() (batch.ID, error) {
	switch {
	case l.begun:
		return l.database, nil
	case l.maker.isKnown():
		return l.maker.Database, nil
	}
	var drawn batch.ID
	if _, err := rand.Read(drawn[:]); err != nil {
		return drawn, fmt.Errorf("drawing the database's identity: %w", err)
	}
	return drawn, nil
}

// Close gives the order up. All that was appended is on the disk.
func (l *Log) Close() error { return l.log.Close() }
