package lineserver

import (
	"errors"
	"fmt"
	"net"
	"os"
	"sync"
	"sync/atomic"
	"syscall"
	"time"

	"dsmdb/server/site"
	"golang.org/x/sys/unix"
)

const (
	eventsAtOnce = 256
	askedAtOnce  = 8           // requests at least, where many ask: the site begins with them while others are read
	expireEvery  = time.Second // who is silent, or doesn't read
)

// began is what times are counted from that several goroutines compare.
var began = time.Now().Add(-time.Hour)

// poller waits for the kernel's word on many connections (epoll(7)) in one goroutine, so that what comes together is
// asked together.
type poller struct {
	server   *Server
	fd       int
	bell     int // an eventfd(2), by which the poller is told of something
	ready    syscall.RawConn
	file     *os.File     // of fd
	lookedAt atomic.Int64 // when it was last looked who has left, since began
	turning  []*polled    // room for the connections of a turn's events

	mutex    sync.Mutex
	conns    map[int32]*polled // by descriptor
	made     int32             // connections so far
	told     []*polled         // that the goroutine looks after in its next turn
	looking  []unix.EpollEvent // room for who has left
	closing  bool              // no more connections are taken
	released bool              // none is left
}

func newPoller(s *Server) (*poller, error) {
	p := &poller{server: s, fd: -1, bell: -1, conns: map[int32]*polled{}, turning: make([]*polled, eventsAtOnce)}
	if err := p.open(); err != nil {
		unix.Close(p.bell)
		unix.Close(p.fd)
		return nil, fmt.Errorf("waiting for connections: %w", err)
	}
	p.file = os.NewFile(uintptr(p.fd), "epoll")
	var err error
	if p.ready, err = p.file.SyscallConn(); err != nil {
		p.release()
		return nil, fmt.Errorf("waiting for connections: %w", err)
	}
	return p, nil
}

func (p *poller) open() (err error) {
	if p.fd, err = unix.EpollCreate1(unix.EPOLL_CLOEXEC); err != nil {
		return err
	}
	if err = unix.SetNonblock(p.fd, true); err != nil { // so that Go's own poller takes it
		return err
	}
	if p.bell, err = unix.Eventfd(0, unix.EFD_CLOEXEC|unix.EFD_NONBLOCK); err != nil {
		return err
	}
	return unix.EpollCtl(p.fd, unix.EPOLL_CTL_ADD, p.bell, &unix.EpollEvent{Events: unix.EPOLLIN, Fd: int32(p.bell)})
}

// ---- connections

// add takes a connection over, of which the poller has a descriptor of its own.
func (p *poller) add(c *polled) error {
	p.mutex.Lock()
	defer p.mutex.Unlock()
	if p.closing {
		return net.ErrClosed
	}
	p.made++
	c.number = p.made
	event := unix.EpollEvent{Events: firstAsks, Fd: int32(c.fd), Pad: c.number}
	if err := unix.EpollCtl(p.fd, unix.EPOLL_CTL_ADD, c.fd, &event); err != nil {
		return fmt.Errorf("waiting for a connection: %w", err)
	}
	p.conns[int32(c.fd)] = c
	return nil
}

// watch has the kernel tell of a connection's events, and of one that is broken of none; false where that fails. Its
// caller has the connection's lock.
func (p *poller) watch(c *polled) bool {
	if c.broken {
		unix.EpollCtl(p.fd, unix.EPOLL_CTL_DEL, c.fd, nil)
		return true
	}
	return unix.EpollCtl(p.fd, unix.EPOLL_CTL_MOD, c.fd, &unix.EpollEvent{Events: c.interest, Fd: int32(c.fd), Pad: c.number}) == nil
}

// close closes a connection. Its caller has the connection's lock.
func (p *poller) close(c *polled) {
	if c.fd < 0 {
		return
	}
	p.mutex.Lock()
	delete(p.conns, int32(c.fd))
	p.mutex.Unlock()
	unix.Close(c.fd)
	c.fd = -1
	c.left.Store(true)
	c.out.drop()
	p.server.leave()
	p.server.all.Done()
}

// finish has each connection end, and takes no more.
func (p *poller) finish() {
	p.mutex.Lock()
	p.closing = true
	p.ring()
	p.mutex.Unlock()
	for _, it := range p.all() {
		it.finish()
	}
}

// tell has the poller's goroutine look after a connection. It never waits.
func (p *poller) tell(c *polled) {
	p.mutex.Lock()
	defer p.mutex.Unlock()
	if p.released {
		return
	}
	p.told = append(p.told, c)
	if len(p.told) == 1 {
		p.ring()
	}
}

// ring wakes the poller's goroutine. Its caller has the lock.
func (p *poller) ring() {
	if !p.released {
		unix.Write(p.bell, []byte{1, 0, 0, 0, 0, 0, 0, 0})
	}
}

// hasLeft returns whether a connection's client has left. The kernel is asked for all connections at once.
func (p *poller) hasLeft(c *polled) bool {
	if time.Since(began)-time.Duration(p.lookedAt.Load()) < alike {
		return c.left.Load()
	}
	p.mutex.Lock()
	all := p.released || time.Since(began)-time.Duration(p.lookedAt.Load()) < alike || p.look()
	p.mutex.Unlock()
	if !all && !c.left.Load() && c.asksWhetherLeft() {
		c.left.Store(true)
	}
	return c.left.Load()
}

// look notes who has left; false where there may be others. Its caller has the lock.
func (p *poller) look() bool {
	now := time.Since(began)
	if most := len(p.conns) + 2; len(p.looking) < most { // the bell is one, and one is never there
		p.looking = make([]unix.EpollEvent, 2*most)
	}
	count, err := unix.EpollWait(p.fd, p.looking, 0)
	if err != nil || count == len(p.looking) {
		return false
	}
	for _, it := range p.looking[:count] {
		if of := p.conns[it.Fd]; of != nil && of.number == it.Pad && it.Events&leaving != 0 {
			of.left.Store(true)
		}
	}
	p.lookedAt.Store(int64(now))
	return true
}

// ---- the goroutine

// run goes on until the poller takes no more connections and all have ended.
func (p *poller) run() {
	defer p.release()
	events := make([]unix.EpollEvent, eventsAtOnce)
	var some []*site.Request
	expired := time.Now()
	p.file.SetReadDeadline(expired.Add(expireEvery))
	for !p.isDone() {
		count, err := p.wait(events)
		if err != nil && !errors.Is(err, os.ErrDeadlineExceeded) {
			p.server.Warn("waiting for connections: %v", err)
			time.Sleep(expireEvery)
		}
		now := time.Now()
		some = p.turn(events[:count], some, now)
		if now.Sub(expired) < expireEvery {
			continue
		}
		expired = now
		p.file.SetReadDeadline(expired.Add(expireEvery))
		for _, it := range p.all() {
			it.expire(now)
		}
	}
}

// wait waits for events.
func (p *poller) wait(events []unix.EpollEvent) (count int, err error) {
	fault := p.ready.Read(func(fd uintptr) bool {
		if count, err = unix.EpollWait(int(fd), events, 0); err == unix.EINTR {
			count, err = 0, nil
		}
		return count > 0 || err != nil
	})
	if err == nil {
		err = fault
	}
	if err != nil {
		count = 0
	}
	return count, err
}

// turn takes in events, and asks what comes of them together. It returns some, which is empty, for the next turn.
func (p *poller) turn(events []unix.EpollEvent, some []*site.Request, now time.Time) []*site.Request {
	for at, it := range p.connsOf(events) {
		if it != nil {
			it.happened(events[at].Events, &some, now)
		}
		if len(some) >= askedAtOnce {
			some = p.ask(some)
		}
	}
	for _, it := range p.takeTold() {
		it.goOn(&some)
	}
	return p.ask(some)
}

func (p *poller) ask(some []*site.Request) []*site.Request {
	if len(some) > 0 {
		p.server.Site.Ask(some...)
	}
	for at := range some {
		some[at] = nil
	}
	return some[:0]
}

// connsOf returns the connection of each event; nil where there is none any more, or the bell rang.
func (p *poller) connsOf(events []unix.EpollEvent) []*polled {
	p.mutex.Lock()
	defer p.mutex.Unlock()
	conns := p.turning[:len(events)]
	for at, it := range events {
		if conns[at] = p.conns[it.Fd]; conns[at] != nil && conns[at].number != it.Pad {
			conns[at] = nil
		}
		if int(it.Fd) == p.bell {
			unix.Read(p.bell, make([]byte, 8))
		}
	}
	return conns
}

func (p *poller) takeTold() []*polled {
	p.mutex.Lock()
	defer p.mutex.Unlock()
	told := p.told
	p.told = nil
	return told
}

func (p *poller) all() []*polled {
	p.mutex.Lock()
	defer p.mutex.Unlock()
	all := make([]*polled, 0, len(p.conns))
	for _, it := range p.conns {
		all = append(all, it)
	}
	return all
}

func (p *poller) isDone() bool {
	p.mutex.Lock()
	defer p.mutex.Unlock()
	return p.closing && len(p.conns) == 0
}

// release gives up what the poller has of the kernel.
func (p *poller) release() {
	p.mutex.Lock()
	defer p.mutex.Unlock()
	p.released, p.told = true, nil
	p.file.Close()
	unix.Close(p.bell)
}
