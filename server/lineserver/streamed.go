package lineserver

import (
	"io"
	"net"
	"sync"
	"sync/atomic"
	"time"

	"dsmdb/server/access"
	"dsmdb/server/site"
)

// streamed is a connection that one goroutine reads and another one writes: one over TLS.
type streamed struct {
	conn
	net    net.Conn
	isGone func() bool
	there  atomic.Int64 // when the kernel last said that the client is there, since began
	more   sync.Cond    // there is something to write, or the end
	less   sync.Cond    // a line that waits has room, or nothing can be written any more
}

func newStreamed(s *Server, accepted net.Conn, who *access.Who) *streamed {
	c := &streamed{net: accepted, isGone: GoneOf(accepted)}
	c.init(s, c, who)
	c.more.L, c.less.L = &c.mutex, &c.mutex
	return c
}

// run goes on until the connection is over.
func (c *streamed) run() {
	var writing sync.WaitGroup
	writing.Add(1)
	go func() {
		defer writing.Done()
		c.write()
	}()
	c.read()
	c.mutex.Lock()
	c.ended = true
	c.mutex.Unlock()
	c.more.Signal()
	writing.Wait()
	c.net.Close()
}

func (c *streamed) flush()  { c.more.Signal() }
func (c *streamed) resume() { c.less.Signal() }

// gone implements carrier. Calls that are asked for together share an answer of the kernel's.
func (c *streamed) gone() bool {
	now := time.Since(began)
	if now-time.Duration(c.there.Load()) < alike {
		return false
	}
	if c.isGone() {
		return true
	}
	c.there.Store(int64(now))
	return false
}

func (c *streamed) finish() {
	c.net.SetReadDeadline(time.Unix(1, 0))
	time.AfterFunc(finishIn, func() { c.net.Close() })
}

// read reads lines until the client's end.
func (c *streamed) read() {
	in := &c.input
	for {
		c.net.SetReadDeadline(in.until(&c.server.Limits))
		if c.server.isClosed() {
			return
		}
		count, err := c.net.Read(in.room())
		in.heard(count, time.Now())
		if !c.take() || err != nil {
			return
		}
	}
}

// take asks what was read, and waits for room where there is none; false where the connection is over.
func (c *streamed) take() bool {
	for {
		var some []*site.Request
		how := c.takeLines(&some)
		if len(some) > 0 {
			c.server.Site.Ask(some...)
		}
		if how != lineWaits {
			return how == allTaken
		}
		c.mutex.Lock()
		for c.paused && !c.broken {
			c.less.Wait()
		}
		broken := c.broken
		c.mutex.Unlock()
		if broken {
			return false
		}
		c.input.heardAt = time.Now()
	}
}

// write writes answers until all requests are answered behind the client's end, or the client doesn't read.
func (c *streamed) write() {
	var spare []piece
	for {
		c.mutex.Lock()
		for c.out.isEmpty() && !c.isOver() {
			c.more.Wait()
		}
		some := c.out.takeAll(spare)
		c.mutex.Unlock()
		if len(some) == 0 {
			return
		}
		written := 0
		for at := range some {
			written += some[at].sizeOf()
			c.writePiece(&some[at])
			some[at].close()
		}
		spare = some[:0]
		c.mutex.Lock()
		resumes := c.wrote(written)
		c.mutex.Unlock()
		if resumes {
			c.resume()
		}
	}
}

func (c *streamed) writePiece(it *piece) {
	c.mutex.Lock()
	broken := c.broken
	c.mutex.Unlock()
	if broken {
		return
	}
	var err error
	if it.lines == nil {
		_, err = slow{c}.Write(it.bytes)
	} else {
		var lines io.Reader
		if lines, err = it.reader(); err == nil {
			_, err = io.CopyBuffer(slow{c}, lines, make([]byte, keptRoom))
		}
	}
	if err != nil {
		c.fail()
	}
}

// fail gives a client up that can't be written to.
func (c *streamed) fail() {
	c.mutex.Lock()
	c.broken = true
	c.mutex.Unlock()
	c.less.Signal()
	c.net.Close()
}

// slow gives a client time for each part of a long answer.
type slow struct{ of *streamed }

func (s slow) Write(part []byte) (int, error) {
	s.of.net.SetWriteDeadline(time.Now().Add(s.of.server.Limits.Send))
	return s.of.net.Write(part)
}
