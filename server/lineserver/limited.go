package lineserver

import (
	"net"
	"sync"
	"time"
)

// Limited returns a listener whose connections count among the server's, over whose number they are closed at once. A
// client that doesn't read for Limits.Send loses the connection.
func (s *Server) Limited(of net.Listener) net.Listener { return limited{of, s} }

type limited struct {
	net.Listener
	server *Server
}

// Accept implements net.Listener.
func (l limited) Accept() (net.Conn, error) {
	for {
		accepted, err := l.Listener.Accept()
		if err != nil {
			return nil, err
		}
		if l.server.enter() {
			return &limitedConn{Conn: accepted, server: l.server}, nil
		}
		accepted.Close()
	}
}

type limitedConn struct {
	net.Conn
	server *Server
	once   sync.Once
}

// NetConn returns the connection itself.
func (c *limitedConn) NetConn() net.Conn { return c.Conn }

// Write implements net.Conn.
func (c *limitedConn) Write(part []byte) (int, error) {
	c.Conn.SetWriteDeadline(time.Now().Add(c.server.Limits.Send))
	return c.Conn.Write(part)
}

// Close implements net.Conn.
func (c *limitedConn) Close() error {
	c.once.Do(c.server.leave)
	return c.Conn.Close()
}
