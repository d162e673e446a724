package lineserver

import (
	"bufio"
	"io"

	"dsmdb/server/site"
)

// output is what a connection has to write.
type output struct {
	pieces []piece
	size   int    // in bytes
	spare  []byte // room of a piece that was written
}

// piece is a part of an output: bytes, or the lines of rows with a tag before each.
type piece struct {
	bytes []byte
	sent  int // of the bytes
	lines *site.Spool
	tag   string
}

func (o *output) isEmpty() bool { return len(o.pieces) == 0 }

// lastBytes returns the piece to which lines are added. A long one gets no more: what was sent of it is kept up to its end.
func (o *output) lastBytes() *piece {
	if count := len(o.pieces); count > 0 {
		if last := &o.pieces[count-1]; last.lines == nil && len(last.bytes) < keptRoom {
			return last
		}
	}
	o.pieces = append(o.pieces, piece{bytes: o.spare})
	o.spare = nil
	return &o.pieces[len(o.pieces)-1]
}

func (o *output) putAnswer(tag string, answer *site.Answer) {
	last := o.lastBytes()
	before := len(last.bytes)
	last.bytes = append(answer.AppendLine(append(last.bytes, tag...)), '\n')
	o.size += len(last.bytes) - before
}

func (o *output) putText(tag, text string) {
	last := o.lastBytes()
	last.bytes = append(append(append(last.bytes, tag...), text...), '\n')
	o.size += len(tag) + len(text) + 1
}

func (o *output) putLines(lines *site.Spool, tag string) {
	o.pieces = append(o.pieces, piece{lines: lines, tag: tag})
	o.size += int(lines.Size())
}

// takeAll takes all pieces away. They count in the size until they are written.
func (o *output) takeAll(spare []piece) []piece {
	some := o.pieces
	o.pieces = spare
	return some
}

// shift drops the first piece, which is written.
func (o *output) shift() {
	if first := &o.pieces[0]; first.lines == nil && cap(first.bytes) <= firstRoom {
		o.spare = first.bytes[:0]
	}
	count := copy(o.pieces, o.pieces[1:])
	o.pieces[count] = piece{}
	o.pieces = o.pieces[:count]
}

// drop gives up what isn't written.
func (o *output) drop() {
	for at := range o.pieces {
		o.pieces[at].close()
	}
	o.pieces, o.size = nil, 0
}

// sizeOf returns what a piece counts in the output's size.
func (p *piece) sizeOf() int {
	if p.lines != nil {
		return int(p.lines.Size())
	}
	return len(p.bytes)
}

func (p *piece) close() {
	if p.lines != nil {
		p.lines.Close()
	}
	*p = piece{}
}

// reader returns a piece of lines as what is written.
func (p *piece) reader() (io.Reader, error) {
	lines, err := p.lines.Reader()
	if err != nil || p.tag == "" {
		return lines, err
	}
	return &tagged{lines: bufio.NewReader(lines), tag: p.tag}, nil
}

// tagged reads lines with a tag before each.
type tagged struct {
	lines  *bufio.Reader
	tag    string
	inside bool   // whether the next bytes go on a line
	part   []byte // of a line, with its tag
	given  int    // of the part
}

// Read implements io.Reader.
func (t *tagged) Read(into []byte) (int, error) {
	count := 0
	for count < len(into) {
		if t.given == len(t.part) {
			if err := t.next(); err != nil {
				if count > 0 {
					return count, nil
				}
				return 0, err
			}
		}
		copied := copy(into[count:], t.part[t.given:])
		t.given += copied
		count += copied
	}
	return count, nil
}

// next reads the next line, or a part of a long one.
func (t *tagged) next() error {
	read, err := t.lines.ReadSlice('\n')
	if err != nil && err != bufio.ErrBufferFull {
		return err
	}
	t.part, t.given = t.part[:0], 0
	if !t.inside {
		t.part = append(t.part, t.tag...)
	}
	t.part = append(t.part, read...)
	t.inside = err == bufio.ErrBufferFull
	return nil
}
