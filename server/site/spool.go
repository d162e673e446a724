package site

import (
	"bytes"
	"fmt"
	"io"
	"os"
)

// inMemory is how many bytes a spool has before it goes to a file.
const inMemory = 1 << 20

// Spool has lines that are read once they are whole: in memory while they are few, else in a file without a name.
type Spool struct {
	few    []byte
	file   *os.File
	size   int64
	failed error
	// Position is the one after which the rows are, and Count how many lines there are before that of the position.
	Position, Count uint64
}

// write adds bytes.
func (s *Spool) write(more []byte) {
	if s.failed != nil {
		return
	}
	s.size += int64(len(more))
	s.few = append(s.few, more...)
	if len(s.few) > inMemory {
		s.failed = s.spill()
	}
}

func (s *Spool) spill() error {
	if s.file == nil {
		made, err := os.CreateTemp("", "dsmdb-rows-")
		if err != nil {
			return fmt.Errorf("keeping rows: %w", err)
		}
		s.file = made
		if err := os.Remove(made.Name()); err != nil {
			return fmt.Errorf("keeping rows: %w", err)
		}
	}
	_, err := s.file.Write(s.few)
	s.few = s.few[:0]
	if err != nil {
		return fmt.Errorf("keeping rows: %w", err)
	}
	return nil
}

// readLast reads the line of the position that ends the lines, and returns what they are called there.
func (s *Spool) readLast(line []byte) (what string, err error) {
	_, err = fmt.Sscanf(string(line), "position %d %s %d", &s.Position, &what, &s.Count)
	return what, err
}

// Size returns how many bytes the lines have.
func (s *Spool) Size() int64 { return s.size }

// Reader returns what reads all lines, from the first one on. Of one spool there is one reader at a time.
func (s *Spool) Reader() (io.Reader, error) {
	if s.failed != nil {
		return nil, s.failed
	}
	if s.file == nil {
		return bytes.NewReader(s.few), nil
	}
	if err := s.spill(); err != nil {
		return nil, err
	}
	if _, err := s.file.Seek(0, io.SeekStart); err != nil {
		return nil, fmt.Errorf("reading kept rows: %w", err)
	}
	return s.file, nil
}

// whole returns all lines.
func (s *Spool) whole() ([]byte, error) {
	reader, err := s.Reader()
	if err != nil {
		return nil, err
	}
	text := make([]byte, s.size)
	_, err = io.ReadFull(reader, text)
	return text, err
}

// Close gives the lines up.
func (s *Spool) Close() error {
	s.few = nil
	if s.file == nil {
		return nil
	}
	return s.file.Close()
}
