package lineserver

import (
	"io"
	"sync/atomic"
	"time"

	"dsmdb/server/access"
	"dsmdb/server/site"
	"golang.org/x/sys/unix"
)

const (
	// leaving are the events by which the kernel says that a client has left, wholly or for writing.
	leaving   = unix.EPOLLRDHUP | unix.EPOLLHUP | unix.EPOLLERR
	rowsRoom  = 1 << 14 // bytes of rows that one connection writes before it is another's turn
	firstAsks = unix.EPOLLIN | unix.EPOLLRDHUP
)

// polled is a connection over a Unix socket, or over TCP without TLS. The poller's goroutine reads. Who has answers
// writes as much as the kernel takes at once, and the poller's goroutine writes the rest, and all rows.
type polled struct {
	conn
	poller *poller
	number int32       // that tells the connection from others of the same descriptor
	left   atomic.Bool // whether the client has left, or was given up

	// the poller's goroutine alone has these
	lines io.Reader // of the first piece, where those are read; nil where none are
	room  []byte    // for a chunk of those lines
	chunk []byte    // of the room, which isn't written; empty behind the last line

	// the mutex guards these
	fd        int       // below zero once closed
	interest  uint32    // the events that the kernel tells of
	waits     bool      // whether a line that was read waits for room, so that nothing is read
	finishing bool      // whether nothing more is read
	stalled   bool      // whether the poller writes, once the kernel takes more
	stalledAt time.Time // since when the kernel takes nothing; zero where it does
}

func newPolled(s *Server, p *poller, fd int, who *access.Who) *polled {
	c := &polled{poller: p, fd: fd, interest: firstAsks}
	c.init(s, c, who)
	return c
}

func (c *polled) resume() { c.poller.tell(c) }

func (c *polled) gone() bool { return c.left.Load() || c.poller.hasLeft(c) }

func (c *polled) finish() {
	c.mutex.Lock()
	c.finishing = true
	c.mutex.Unlock()
	c.poller.tell(c)
	time.AfterFunc(finishIn, func() {
		c.mutex.Lock()
		defer c.mutex.Unlock()
		c.fail()
	})
}

// asksWhetherLeft asks the kernel for this connection alone.
func (c *polled) asksWhetherLeft() bool {
	c.mutex.Lock()
	defer c.mutex.Unlock()
	return c.fd < 0 || hasLeft(c.fd)
}

// ---- what the poller's goroutine does

// happened takes in what the kernel tells of, and adds to some what is asked.
func (c *polled) happened(events uint32, some *[]*site.Request, now time.Time) {
	if events&leaving != 0 {
		c.left.Store(true)
	}
	if events&unix.EPOLLOUT != 0 {
		c.writeOn()
	}
	if events&^unix.EPOLLOUT != 0 && c.mayRead() {
		c.read(some, now)
	}
	c.mutex.Lock()
	if events&(unix.EPOLLHUP|unix.EPOLLERR) != 0 && (c.waits || c.ended) {
		c.fail() // nobody is there to read answers
	}
	c.mutex.Unlock()
	c.settle()
}

// goOn takes lines that waited for room, writes what the kernel takes, and ends the connection where all is done.
func (c *polled) goOn(some *[]*site.Request) {
	c.mutex.Lock()
	waited := c.waits && !c.broken
	c.mutex.Unlock()
	if waited {
		c.input.heardAt = time.Now()
		c.take(some)
	}
	c.settle()
}

// settle ends the connection where all is read and answered, and else asks for what it waits for.
func (c *polled) settle() {
	c.mutex.Lock()
	defer c.mutex.Unlock()
	if c.finishing && !c.waits {
		c.ended = true
	}
	if c.broken {
		c.out.drop()
		c.lines, c.room, c.chunk = nil, nil, nil
	}
	if c.isOver() {
		c.poller.close(c)
	} else {
		c.ask()
	}
}

func (c *polled) mayRead() bool {
	c.mutex.Lock()
	defer c.mutex.Unlock()
	return !c.waits && !c.ended && !c.finishing
}

// read reads once what is there.
func (c *polled) read(some *[]*site.Request, now time.Time) {
	for {
		count, err := unix.Read(c.fd, c.input.room())
		switch {
		case err == unix.EINTR:
			continue
		case err == unix.EAGAIN:
		case err != nil || count <= 0:
			c.end()
		default:
			c.input.heard(count, now)
			c.take(some)
		}
		return
	}
}

// take takes lines that were read.
func (c *polled) take(some *[]*site.Request) {
	how := c.takeLines(some)
	c.mutex.Lock()
	defer c.mutex.Unlock()
	c.waits = how == lineWaits
	c.ended = c.ended || how == noMore
}

func (c *polled) end() {
	c.mutex.Lock()
	defer c.mutex.Unlock()
	c.ended = true
}

// expire ends the connection of a client who was silent for too long, or who doesn't read.
func (c *polled) expire(now time.Time) {
	c.mutex.Lock()
	if !c.stalledAt.IsZero() && now.Sub(c.stalledAt) > c.server.Limits.Send {
		c.fail()
	}
	if !c.waits && now.After(c.input.until(&c.server.Limits)) {
		c.ended = true
	}
	c.mutex.Unlock()
	c.settle()
}

// writeOn writes what waited for the kernel, and of rows one chunk.
func (c *polled) writeOn() {
	c.readRows()
	c.mutex.Lock()
	c.stalled = false
	resumes := c.write(true)
	c.mutex.Unlock()
	if resumes {
		c.resume()
	}
}

// readRows reads the next chunk of rows, where rows are what is written next. It has no lock meanwhile, since a disk may
// be slow.
func (c *polled) readRows() {
	c.mutex.Lock()
	if len(c.chunk) > 0 || c.broken || c.out.isEmpty() || c.out.pieces[0].lines == nil {
		c.mutex.Unlock()
		return
	}
	first := c.out.pieces[0] // which nobody else drops
	c.mutex.Unlock()
	err := c.nextChunk(&first)
	if err == nil || err == io.EOF || err == io.ErrUnexpectedEOF {
		return
	}
	c.mutex.Lock()
	defer c.mutex.Unlock()
	c.fail()
}

func (c *polled) nextChunk(of *piece) (err error) {
	if c.lines == nil {
		if c.lines, err = of.reader(); err != nil {
			return err
		}
		c.room = make([]byte, rowsRoom)
	}
	count, err := io.ReadFull(c.lines, c.room)
	c.chunk = c.room[:count]
	return err
}

// ---- what is written, under the mutex

func (c *polled) flush() {
	c.mutex.Lock()
	resumes := false
	if !c.stalled {
		resumes = c.write(false)
	}
	if c.stalled {
		c.ask()
	}
	tells := resumes || c.broken || c.isOver()
	c.mutex.Unlock()
	if tells {
		c.poller.tell(c)
	}
}

// write writes what the kernel takes at once, and of rows the chunk that was read where it may: others wait too. It
// returns whether a line waits that has room now. Its caller has the lock.
func (c *polled) write(rows bool) bool {
	written := 0
	for !c.stalled && !c.broken && !c.out.isEmpty() {
		first := &c.out.pieces[0]
		switch {
		case first.lines == nil:
			count := c.send(first.bytes[first.sent:])
			written += count
			if first.sent += count; first.sent == len(first.bytes) {
				c.out.shift()
			}
		case rows && c.lines != nil:
			rows = false
			written += c.writeRows(first)
		default:
			c.stalled = true // up to the poller's next turn
		}
	}
	if c.broken {
		return false
	}
	return c.wrote(written)
}

// writeRows writes the chunk that was read, and returns the size of the rows' piece where nothing is left of it.
func (c *polled) writeRows(of *piece) int {
	if len(c.chunk) > 0 {
		count := c.send(c.chunk)
		c.chunk = c.chunk[count:]
		return 0
	}
	size := of.sizeOf()
	c.lines, c.room = nil, nil
	of.close()
	c.out.shift()
	return size
}

// send hands bytes to the kernel, and returns how many it takes.
func (c *polled) send(bytes []byte) int {
	sent := 0
	for sent < len(bytes) {
		count, err := unix.Write(c.fd, bytes[sent:])
		switch {
		case err == unix.EINTR:
			continue
		case err == unix.EAGAIN:
			if c.stalled = true; sent > 0 || c.stalledAt.IsZero() {
				c.stalledAt = time.Now()
			}
			return sent
		case err != nil:
			c.fail()
			return sent
		}
		sent += count
	}
	c.stalledAt = time.Time{}
	return sent
}

// fail gives up a client that nothing can be written to. Its caller has the lock.
func (c *polled) fail() {
	if c.fd < 0 {
		return
	}
	c.broken, c.ended, c.stalled, c.stalledAt = true, true, false, time.Time{}
	c.left.Store(true)
	unix.Shutdown(c.fd, unix.SHUT_RDWR)
	c.poller.tell(c)
}

// ask has the kernel tell of what the connection waits for. Its caller has the lock.
func (c *polled) ask() {
	interest := uint32(0)
	if !c.left.Load() {
		interest = unix.EPOLLRDHUP
	}
	if !c.waits && !c.ended && !c.finishing {
		interest |= unix.EPOLLIN
	}
	if c.stalled {
		interest |= unix.EPOLLOUT
	}
	if c.fd < 0 || interest == c.interest && !c.broken {
		return
	}
	c.interest = interest
	if !c.poller.watch(c) {
		c.fail()
	}
}
