// Package segments keeps records in the files of one folder, one behind the other, each forced to the disk before it
// counts. Every record carries its number, the CRC of the record before and a CRC of its own, so damage to what was
// forced is told from a write that power cut short.
package segments

import (
	"errors"
	"fmt"
	"time"

	"dsmdb/server/durations"
)

// ErrFull says that there is no room for another segment. Nothing was written, and a later append may find room.
var ErrFull = errors.New("no room for another segment")

// Damage says where a log isn't as it was written.
type Damage struct {
	Segment string // the file's name
	Record  uint64 // the number of the first record that isn't there as it was; 0 where the file is none of the log
	Why     string
}

func (d *Damage) Error() string {
	if d.Record == 0 {
		return fmt.Sprintf("%s: %s", d.Segment, d.Why)
	}
	return fmt.Sprintf("%s: record %d: %s", d.Segment, d.Record, d.Why)
}

// Options say which log is opened, and how.
type Options struct {
	Magic Magic
	// CutDamage cuts a log off at the first record that isn't as it was written, in place of refusing it: for a copy
	// of what stands elsewhere too.
	CutDamage bool
	// Forces counts how long it takes to force records to the disk. Nil stands for nobody who asks.
	Forces *durations.Shared
}

// Log is a log that is open for appending. One goroutine has it.
type Log struct {
	disk    disk
	magic   Magic
	forces  *durations.Shared
	size    int64 // of a segment
	segment uint32
	file    file // the last segment
	at      int64
	last    link
	buffer  []byte
	spare   *spare
	broken  error
}

// Open reads the log in a folder, which has to be there and to hold nothing else, and opens it for appending. What each
// record keeps is handed to take, which may not keep the slice. A log that isn't as it was written is refused with a
// *Damage, and left as it was.
//
// What was not whole when power went is dropped: bytes behind the last record in which no record can be read. The last
// segment is written anew and forced, so that no record counts that only a cache held.
func Open(path string, options Options, take func(kept []byte) error) (*Log, error) {
	return open(folder(path), DefaultSize, options, take)
}

func open(disk disk, size int64, options Options, take func(kept []byte) error) (*Log, error) {
	l := &Log{disk: disk, magic: options.Magic, forces: options.Forces, size: size}
	count, err := l.count()
	if err != nil {
		return nil, err
	}
	if count == 0 {
		if err := l.begin(); err != nil {
			return nil, err
		}
		return l, nil
	}
	whole, damage, err := l.read(count, take)
	if err != nil {
		return nil, err
	}
	if damage != nil && !options.CutDamage {
		return nil, damage
	}
	if err := l.renew(whole); err != nil {
		return nil, err
	}
	for left := count; left > l.segment; left-- {
		if err := disk.remove(nameOf(left)); err != nil {
			return nil, fmt.Errorf("removing a segment behind the damage: %w", err)
		}
	}
	return l, nil
}

// Records returns how many records the log has.
func (l *Log) Records() uint64 { return l.last.number }

// Append writes a record of 1 to Longest bytes and forces it, and returns its number. After ErrFull the log is as it was.
// After any other error nothing of the record counts, and the log takes no more.
func (l *Log) Append(kept []byte) (uint64, error) {
	if l.broken != nil {
		return 0, l.broken
	}
	if len(kept) == 0 || len(kept) > Longest || headSize+room(len(kept)) > l.size {
		return 0, fmt.Errorf("a record of %d bytes", len(kept))
	}
	if l.at+room(len(kept)) > l.size {
		if err := l.roll(); err != nil {
			return 0, err
		}
	}
	written, made := appendRecord(l.buffer[:0], l.last, kept)
	l.buffer = written
	if err := l.write(written); err != nil {
		l.broken = fmt.Errorf("writing record %d of %s: %w", made.number, nameOf(l.segment), err)
		return 0, l.broken
	}
	l.at += int64(len(written))
	l.last = made
	if l.spare == nil && l.at > l.size/2 {
		l.spare = makeSpare(l.disk, l.size)
	}
	return made.number, nil
}

func (l *Log) write(bytes []byte) error {
	if _, err := l.file.WriteAt(bytes, l.at); err != nil {
		return err
	}
	begun := time.Now()
	err := l.file.force()
	if l.forces != nil {
		l.forces.Add(time.Since(begun))
	}
	return err
}

// Close gives the log up. All that counts has been forced before.
func (l *Log) Close() error {
	if l.spare != nil {
		if made, err := l.spare.wait(); err == nil {
			made.Close()
		}
	}
	l.broken = errors.New("the log is closed")
	return l.file.Close()
}

// count returns how many segments there are. What an interrupted start or roll has left is removed.
func (l *Log) count() (uint32, error) {
	names, err := l.disk.names()
	if err != nil {
		return 0, err
	}
	count := uint32(0)
	for _, name := range names {
		if name == spareName || name == renewedName {
			if err := l.disk.remove(name); err != nil {
				return 0, err
			}
			continue
		}
		number, ok := numberOf(name)
		if !ok {
			return 0, &Damage{Segment: name, Why: "it is no segment of a log"}
		}
		if number != count+1 {
			return 0, &Damage{Segment: nameOf(count + 1), Why: "it isn't there"}
		}
		count = number
	}
	return count, nil
}

// begin makes the first segment.
func (l *Log) begin() error {
	l.spare = makeSpare(l.disk, l.size)
	return l.roll()
}

// roll goes on in a new segment.
func (l *Log) roll() error {
	if l.spare == nil {
		l.spare = makeSpare(l.disk, l.size)
	}
	made, err := l.spare.wait()
	l.spare = nil
	if err != nil {
		if IsFull(err) {
			return ErrFull
		}
		return fmt.Errorf("making a segment: %w", err)
	}
	next := l.segment + 1
	if err := l.enter(made, next); err != nil {
		made.Close()
		l.broken = fmt.Errorf("beginning %s: %w", nameOf(next), err)
		return l.broken
	}
	if l.file != nil {
		l.file.Close() // all of it was forced
	}
	l.file, l.segment, l.at = made, next, headSize
	return nil
}

// enter gives a spare file its head and its name.
func (l *Log) enter(made file, segment uint32) error {
	if _, err := made.WriteAt(headOf(l.magic, segment, l.last), 0); err != nil {
		return err
	}
	if err := made.force(); err != nil {
		return err
	}
	if err := l.disk.rename(spareName, nameOf(segment)); err != nil {
		return err
	}
	return l.disk.force()
}
