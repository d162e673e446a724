// Package lineserver answers lines of clients over connections: a Unix socket, TCP or TLS.
package lineserver

import (
	"context"
	"crypto/tls"
	"errors"
	"net"
	"sync"
	"sync/atomic"
	"syscall"
	"time"

	"dsmdb/server/access"
	"dsmdb/server/layout"
	"dsmdb/server/site"
	"golang.org/x/sys/unix"
)

// Limits are of the connections of a server.
type Limits struct {
	Connections int           // at once; over them a connection is closed at once
	Requests    int           // under way on one connection before more are read
	Bytes       int           // of answers that a client hasn't read, before more of its requests are read
	Idle        time.Duration // of a connection on which nothing is asked
	Line        time.Duration // in which a line has to come whole
	Send        time.Duration // for which a client may read nothing of what is sent
}

// DefaultLimits are those of a server that isn't told others.
var DefaultLimits = Limits{Connections: 20_000, Requests: 1_024, Bytes: 4 << 20, Idle: 30 * time.Minute, Line: time.Minute, Send: time.Minute}

// Server answers lines by a site.
type Server struct {
	Site   *site.Database
	Policy *access.Policy
	Layout *layout.Layout // nil for none
	Limits Limits
	// Invite takes a new member into the cluster, and returns all members; nil where there is no cluster.
	Invite func(ctx context.Context, name, place string) (members string, err error)
	// Forget deletes all orders below a number, and returns the numbers of those that it deleted.
	Forget func(ctx context.Context, below uint64) (deleted []uint64, err error)
	// Warn is told of connections that can't be taken. It never waits.
	Warn func(format string, values ...any)

	draining atomic.Bool

	open    atomic.Int64
	refused atomic.Uint64
	mutex   sync.Mutex
	conns   map[*streamed]struct{}
	poller  *poller // of connections without TLS; nil before the first
	closed  bool
	all     sync.WaitGroup
}

// Open returns how many connections there are, those of Limited listeners among them, and how many were refused for their number.
func (s *Server) Open() (open int64, refused uint64) { return s.open.Load(), s.refused.Load() }

// Serve takes connections until the context ends.
func (s *Server) Serve(ctx context.Context, listener net.Listener) error {
	stop := make(chan struct{})
	defer close(stop)
	go func() {
		select {
		case <-ctx.Done():
			listener.Close()
		case <-stop:
		}
	}()
	for {
		accepted, err := listener.Accept()
		switch {
		case err == nil:
		case ctx.Err() != nil || errors.Is(err, net.ErrClosed):
			return nil
		default:
			s.pause(err)
			continue
		}
		if !s.enter() || !s.begin() {
			accepted.Close()
			continue
		}
		if secured, is := accepted.(*tls.Conn); is {
			go s.stream(secured)
			continue
		}
		if err := s.poll(accepted); err != nil {
			s.leave()
			s.all.Done()
			if !errors.Is(err, net.ErrClosed) {
				s.pause(err)
			}
		}
	}
}

// pause waits before another connection is taken, as where there are too many files.
func (s *Server) pause(why error) {
	s.Warn("taking a connection: %v", why)
	time.Sleep(100 * time.Millisecond)
}

// enter counts a connection; false where there are too many.
func (s *Server) enter() bool {
	if s.open.Add(1) <= int64(s.Limits.Connections) {
		return true
	}
	s.leave()
	s.refused.Add(1)
	return false
}

func (s *Server) leave() { s.open.Add(-1) }

// begin counts a connection among those that Close waits for; false where the server ends.
func (s *Server) begin() bool {
	s.mutex.Lock()
	defer s.mutex.Unlock()
	if s.closed {
		s.leave()
		return false
	}
	s.all.Add(1)
	return true
}

// Drain has requests that need rows or the order be answered by "unknown stopping" from now on.
func (s *Server) Drain() { s.draining.Store(true) }

// Close has each connection send what it has, and end. New ones are closed at once.
func (s *Server) Close() {
	s.mutex.Lock()
	s.closed = true
	for it := range s.conns {
		it.finish()
	}
	if s.poller != nil {
		s.poller.finish()
	}
	s.mutex.Unlock()
	s.all.Wait()
}

func (s *Server) isClosed() bool {
	s.mutex.Lock()
	defer s.mutex.Unlock()
	return s.closed
}

// poll hands a connection without TLS to the poller.
func (s *Server) poll(accepted net.Conn) error {
	who := s.Policy.Local()
	if _, isUnix := accepted.(*net.UnixConn); !isUnix {
		who = s.Policy.Remote(nil)
	}
	fd, err := takeOver(accepted)
	if err != nil {
		return err
	}
	p, err := s.startPoller()
	if err == nil {
		err = p.add(newPolled(s, p, fd, who))
	}
	if err != nil {
		unix.Close(fd)
	}
	return err
}

// startPoller returns the poller, which is started by the first connection.
func (s *Server) startPoller() (*poller, error) {
	s.mutex.Lock()
	defer s.mutex.Unlock()
	if s.closed {
		return nil, net.ErrClosed
	}
	if s.poller != nil {
		return s.poller, nil
	}
	p, err := newPoller(s)
	if err != nil {
		return nil, err
	}
	s.poller = p
	go p.run()
	return p, nil
}

// takeOver returns a connection's descriptor as one that Go's own poller doesn't know, and closes the connection.
func takeOver(accepted net.Conn) (int, error) {
	defer accepted.Close()
	raw, err := accepted.(syscall.Conn).SyscallConn()
	if err != nil {
		return 0, err
	}
	own, fault := -1, error(nil)
	err = raw.Control(func(fd uintptr) { own, fault = unix.FcntlInt(fd, unix.F_DUPFD_CLOEXEC, 0) })
	if err == nil {
		err = fault
	}
	return own, err
}

// stream answers a connection over TLS.
func (s *Server) stream(accepted *tls.Conn) {
	defer s.all.Done()
	defer s.leave()
	accepted.SetDeadline(time.Now().Add(10 * time.Second))
	if err := accepted.Handshake(); err != nil {
		accepted.Close()
		return
	}
	accepted.SetDeadline(time.Time{})
	state := accepted.ConnectionState()
	s.runStreamed(newStreamed(s, accepted, s.Policy.Remote(&state)))
}

func (s *Server) runStreamed(c *streamed) {
	s.mutex.Lock()
	if s.closed {
		s.mutex.Unlock()
		c.net.Close()
		return
	}
	if s.conns == nil {
		s.conns = map[*streamed]struct{}{}
	}
	s.conns[c] = struct{}{}
	s.mutex.Unlock()
	c.run()
	s.mutex.Lock()
	delete(s.conns, c)
	s.mutex.Unlock()
}
