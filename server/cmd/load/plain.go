package main

import (
	"bufio"
	"bytes"
	"errors"
	"fmt"
	"net"
	"strconv"
	"strings"
	"syscall"
	"time"

	"golang.org/x/sys/unix"
)

// threads is how many goroutines share clients of plain connections.
const threads = 4

// caller is one client on a connection of its own, who waits for each answer.
type caller struct {
	net      net.Conn
	fd       int
	line     []byte // what is asked, up to the sequence number
	sequence int
	asked    time.Time
	read     []byte
}

// arePlain returns whether one goroutine can have the clients of all these places: those without TLS and HTTP.
func arePlain(places []string) bool {
	for _, it := range places {
		if strings.Contains(it, "://") && !strings.HasPrefix(it, "tcp://") {
			return false
		}
	}
	return true
}

// newCallers reaches servers, and begins a session for each client.
func newCallers(places []string, count int) ([]*caller, error) {
	callers := make([]*caller, count)
	for at := range callers {
		var err error
		if callers[at], err = newCaller(places[at%len(places)], at); err != nil {
			return nil, err
		}
	}
	return callers, nil
}

// overPlain has each fourth client from the first on call from one goroutine, so that clients take little of the
// processors that servers need.
func overPlain(all []*caller, first int, until time.Time, found *counted) error {
	poll, err := unix.EpollCreate1(unix.EPOLL_CLOEXEC)
	if err != nil {
		return err
	}
	defer unix.Close(poll)
	var callers []*caller
	for at := first; at < len(all); at += threads {
		event := unix.EpollEvent{Events: unix.EPOLLIN, Fd: int32(len(callers))}
		if err := unix.EpollCtl(poll, unix.EPOLL_CTL_ADD, all[at].fd, &event); err != nil {
			return err
		}
		callers = append(callers, all[at])
	}
	for _, it := range callers {
		if err := it.ask(); err != nil {
			return err
		}
	}
	events := make([]unix.EpollEvent, 64)
	for left := len(callers); left > 0; {
		some, err := unix.EpollWait(poll, events, -1)
		if err != nil && err != unix.EINTR {
			return err
		}
		for at := 0; at < some; at++ {
			it := callers[events[at].Fd]
			word, err := it.hear()
			if err != nil {
				return err
			}
			if word == "" {
				continue
			}
			found.add(word, time.Since(it.asked))
			if time.Now().After(until) {
				left--
			} else if err := it.ask(); err != nil {
				return err
			}
		}
	}
	return nil
}

// newCaller reaches a server and begins a session.
func newCaller(place string, key int) (*caller, error) {
	reached, err := dial(place)
	if err != nil {
		return nil, err
	}
	sessions, err := begin(reached, bufio.NewReader(reached), 1)
	if err != nil {
		return nil, err
	}
	raw, err := reached.(syscall.Conn).SyscallConn()
	if err != nil {
		return nil, err
	}
	it := &caller{net: reached, line: []byte(fmt.Sprintf("call %s %s %s ", *procedure, args(key), sessions[0]))}
	return it, raw.Control(func(fd uintptr) { it.fd = int(fd) })
}

// ask asks the next call.
func (c *caller) ask() error {
	c.sequence++
	line := append(strconv.AppendInt(c.line[:len(c.line):cap(c.line)], int64(c.sequence), 10), '\n')
	c.asked = time.Now()
	count, err := unix.Write(c.fd, line)
	if err == nil && count < len(line) {
		err = errors.New("a line was sent in part")
	}
	return err
}

// hear reads the answer, and returns its first word; nothing where a part has come.
func (c *caller) hear() (string, error) {
	var room [512]byte
	count, err := unix.Read(c.fd, room[:])
	if err == unix.EAGAIN || err == unix.EINTR {
		return "", nil
	}
	if err != nil || count == 0 {
		return "", fmt.Errorf("a server has left: %v", err)
	}
	c.read = append(c.read, room[:count]...)
	if c.read[len(c.read)-1] != '\n' {
		return "", nil
	}
	word := string(c.read[:bytes.IndexAny(c.read, " \n")])
	c.read = c.read[:0]
	return word, nil
}
