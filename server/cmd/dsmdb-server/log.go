package main

import (
	"bytes"
	"fmt"
	"io"
	"strings"
	"sync"
	"time"
)

// logger writes a line an event, with the time. What can't be written is dropped: a server goes on without its log.
type logger struct {
	lines chan logLine
	mutex sync.Mutex
	lost  int
}

// logLine is a line that is to be written, and who waits until it is; nil for nobody.
type logLine struct {
	text    string
	written chan struct{}
}

func newLogger(to io.Writer) *logger {
	l := &logger{lines: make(chan logLine, 1024)}
	go func() {
		for line := range l.lines {
			io.WriteString(to, line.text)
			if line.written != nil {
				close(line.written)
			}
		}
	}()
	return l
}

// Write has lines of etcd be written as events. After one that is fatal etcd ends the process, so it is waited for.
func (l *logger) Write(text []byte) (int, error) {
	l.warn("%s", strings.TrimSpace(string(text)))
	if bytes.Contains(text, []byte(`"level":"fatal"`)) {
		l.flush(time.Second)
	}
	return len(text), nil
}

// flush waits for some time until all lines are written.
func (l *logger) flush(most time.Duration) {
	late, last := time.After(most), logLine{written: make(chan struct{})}
	select {
	case l.lines <- last:
	case <-late:
		return
	}
	select {
	case <-last.written:
	case <-late:
	}
}

// say writes an event. It never waits.
func (l *logger) say(format string, values ...any) { l.write("info", format, values...) }

// warn writes an event that an operator should look at. It never waits.
func (l *logger) warn(format string, values ...any) { l.write("warn", format, values...) }

func (l *logger) write(level, format string, values ...any) {
	l.mutex.Lock()
	defer l.mutex.Unlock()
	text := fmt.Sprintf(format, values...)
	if l.lost > 0 {
		text = fmt.Sprintf("%s (%d lines before were lost)", text, l.lost)
	}
	select {
	case l.lines <- logLine{text: time.Now().UTC().Format("2006-01-02T15:04:05.000Z") + " " + level + " " + text + "\n"}:
		l.lost = 0
	default:
		l.lost++
	}
}
