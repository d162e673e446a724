package lineserver

import (
	"net"
	"syscall"

	"golang.org/x/sys/unix"
)

// GoneOf returns a question whether the other end of a connection is closed, wholly or for writing, which the kernel is
// asked. Data that wasn't read yet don't count as being there.
func GoneOf(connection net.Conn) func() bool {
	for {
		above, is := connection.(interface{ NetConn() net.Conn }) // of TLS, or limited
		if !is {
			break
		}
		connection = above.NetConn()
	}
	system, is := connection.(syscall.Conn)
	if !is {
		return func() bool { return true }
	}
	raw, err := system.SyscallConn()
	if err != nil {
		return func() bool { return true }
	}
	return func() bool {
		closed := true
		raw.Control(func(fd uintptr) { closed = hasLeft(int(fd)) })
		return closed
	}
}

// hasLeft asks the kernel whether the other end of a descriptor is closed, wholly or for writing.
func hasLeft(fd int) bool {
	asked := [1]unix.PollFd{{Fd: int32(fd), Events: unix.POLLRDHUP}}
	for {
		_, err := unix.Poll(asked[:], 0)
		if err == unix.EINTR {
			continue
		}
		return err != nil || asked[0].Revents&(unix.POLLRDHUP|unix.POLLHUP|unix.POLLERR|unix.POLLNVAL) != 0
	}
}
