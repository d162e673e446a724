package segments

import "fmt"

// AppendAll appends records as Append does, and forces them together. It returns how many of them count, which is all of
// them unless there is an error. Where power goes meanwhile some may stand in the log without those before them: AppendAll
// is for logs that are opened with CutDamage.
func (l *Log) AppendAll(kept [][]byte) (count int, err error) {
	for count < len(kept) {
		some, err := l.together(kept[count:])
		if err != nil {
			return count, err
		}
		count += some
	}
	return count, nil
}

// together appends the first records, as many as the segment has room for.
func (l *Log) together(kept [][]byte) (int, error) {
	if len(kept) == 1 || l.broken != nil || l.at+room(len(kept[0])) > l.size {
		_, err := l.Append(kept[0]) // which goes on in a new segment
		return 1, err
	}
	written, last, count := l.buffer[:0], l.last, 0
	for _, it := range kept {
		if len(it) == 0 || len(it) > Longest {
			return 0, fmt.Errorf("a record of %d bytes", len(it))
		}
		if l.at+int64(len(written))+room(len(it)) > l.size {
			break
		}
		written, last = appendRecord(written, last, it)
		count++
	}
	l.buffer = written
	if err := l.write(written); err != nil {
		l.broken = fmt.Errorf("writing records from %d on of %s: %w", l.last.number+1, nameOf(l.segment), err)
		return 0, l.broken
	}
	l.at += int64(len(written))
	l.last = last
	if l.spare == nil && l.at > l.size/2 {
		l.spare = makeSpare(l.disk, l.size)
	}
	return count, nil
}
