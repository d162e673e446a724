package segments

import (
	"bytes"
	"encoding/binary"
	"fmt"
	"hash/crc32"
)

// read hands over all records of the segments 1 to count, and leaves the log at the last good one. It returns the bytes
// of the segment in which that stands, up to its end, and the damage where there is some.
func (l *Log) read(count uint32, take func(kept []byte) error) ([]byte, *Damage, error) {
	segment, before := make([]byte, l.size), []byte(nil)
	for number := uint32(1); number <= count; number++ {
		damage, err := l.load(number, segment)
		if err != nil {
			return nil, nil, err
		}
		if damage != nil && damage.Record == 0 {
			return nil, nil, damage // the file is somebody else's
		}
		if damage != nil {
			// the segment before is whole, and the log goes on there
			return before, damage, nil
		}
		l.segment, l.at = number, headSize
		if damage, err = l.records(segment, number == count, take); err != nil || damage != nil {
			return segment[:l.at], damage, err
		}
		if number == count {
			return segment[:l.at], nil, nil
		}
		before = append(before[:0], segment[:l.at]...)
	}
	panic("unreachable: there is a last segment")
}

// load reads a segment, and compares its head with what came before.
func (l *Log) load(number uint32, segment []byte) (*Damage, error) {
	opened, err := l.disk.open(nameOf(number))
	if err != nil {
		return nil, err
	}
	defer opened.Close()
	size, err := opened.size()
	if err != nil {
		return nil, err
	}
	foreign := &Damage{Segment: nameOf(number), Why: "it is no segment of this log"}
	if size != int64(len(segment)) {
		return foreign, nil
	}
	if _, err := opened.ReadAt(segment, 0); err != nil {
		return nil, fmt.Errorf("reading %s: %w", nameOf(number), err)
	}
	if number == 1 && !bytes.Equal(segment[:8], l.magic[:]) {
		return foreign, nil
	}
	if !bytes.Equal(segment[:headSize], headOf(l.magic, number, l.last)) {
		return &Damage{Segment: nameOf(number), Record: l.last.number + 1, Why: whyNoHead(segment)}, nil
	}
	return nil, nil
}

// whyNoHead says what is wrong with a head that isn't the one that was wanted.
func whyNoHead(segment []byte) string {
	if crc32.Checksum(segment[:28], castagnoli) != binary.LittleEndian.Uint32(segment[28:]) {
		return "its segment's head is damaged"
	}
	if found := binary.LittleEndian.Uint32(segment[8:]); found != form {
		return fmt.Sprintf("its segment has form %d, and this program knows form %d", found, form)
	}
	return "its segment doesn't go on where the one before ends"
}

// records hands over the records of a segment. In the last one what is behind the last record may be torn.
func (l *Log) records(segment []byte, last bool, take func(kept []byte) error) (*Damage, error) {
	for l.at < l.size {
		found, ok := recordAt(segment, l.at)
		if !ok {
			break
		}
		if found.number != l.last.number+1 || found.before != l.last.sum {
			return l.damaged("it isn't the one that comes next"), nil
		}
		if err := take(found.kept); err != nil {
			return nil, err
		}
		l.last, l.at = found.link, l.at+room(len(found.kept))
	}
	if last {
		if behind, ok := l.behind(segment); ok {
			return l.damaged(fmt.Sprintf("it can't be read, and record %d behind it can", behind)), nil
		}
	} else if at := firstOther(segment[l.at:]); at >= 0 {
		return l.damaged("it can't be read, and another segment follows"), nil
	}
	return nil, nil
}

func (l *Log) damaged(why string) *Damage {
	return &Damage{Segment: nameOf(l.segment), Record: l.last.number + 1, Why: why}
}

// behind returns the number of a record that stands behind bytes that are none.
func (l *Log) behind(segment []byte) (uint64, bool) {
	for at := l.at + alignment; at < l.size; at += alignment {
		found, ok := recordAt(segment, at)
		if ok && found.number > l.last.number {
			return found.number, true
		}
	}
	return 0, false
}

// firstOther returns the place of the first byte that isn't zero, or -1.
func firstOther(rest []byte) int {
	for at, it := range rest {
		if it != 0 {
			return at
		}
	}
	return -1
}

// renew writes the last segment anew, with the bytes that are whole, and opens it for appending.
func (l *Log) renew(whole []byte) error {
	if whole == nil {
		return l.begin() // nothing of the first segment is whole
	}
	made, err := zeros(l.disk, renewedName, l.size)
	if err != nil {
		return fmt.Errorf("writing %s anew: %w", nameOf(l.segment), err)
	}
	if err := l.replace(made, whole); err != nil {
		made.Close()
		return fmt.Errorf("writing %s anew: %w", nameOf(l.segment), err)
	}
	l.file = made
	return nil
}

func (l *Log) replace(made file, whole []byte) error {
	if _, err := made.WriteAt(whole, 0); err != nil {
		return err
	}
	if err := made.force(); err != nil {
		return err
	}
	if err := l.disk.rename(renewedName, nameOf(l.segment)); err != nil {
		return err
	}
	return l.disk.force()
}
