package segments

import "fmt"

// Reread hands over the records up to a number once more, as they stand on the disk, while the log goes on. What a record
// keeps is handed to take, which may not keep the slice. It may be called from any goroutine, for records that count.
func (l *Log) Reread(upto uint64, take func(kept []byte) error) error {
	return reread(&Log{disk: l.disk, magic: l.magic, size: l.size}, upto, take)
}

// Reread hands over the records of the log in a folder up to a number, which was read before, as Log.Reread does: also while
// the log is being opened.
func Reread(path string, magic Magic, upto uint64, take func(kept []byte) error) error {
	return reread(&Log{disk: folder(path), magic: magic, size: DefaultSize}, upto, take)
}

func reread(from *Log, upto uint64, take func(kept []byte) error) error {
	segment := make([]byte, from.size)
	for number := uint32(1); from.last.number < upto; number++ {
		damage, err := from.load(number, segment)
		if err != nil {
			return fmt.Errorf("reading the log again: %w", err)
		}
		if damage != nil {
			return damage
		}
		from.segment, from.at = number, headSize
		before := from.last.number
		if err := from.upTo(upto, segment, take); err != nil {
			return err
		}
		if from.last.number == before {
			return from.damaged("it can't be read any more")
		}
	}
	return nil
}

// upTo hands over the records of a segment up to a number.
func (l *Log) upTo(upto uint64, segment []byte, take func(kept []byte) error) error {
	for l.last.number < upto && l.at < l.size {
		found, ok := recordAt(segment, l.at)
		if !ok {
			return nil // the segment's end, or damage that the next one shows
		}
		if found.number != l.last.number+1 || found.before != l.last.sum {
			return l.damaged("it isn't the one that comes next")
		}
		if err := take(found.kept); err != nil {
			return err
		}
		l.last, l.at = found.link, l.at+room(len(found.kept))
	}
	return nil
}
