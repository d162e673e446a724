package lineserver

import (
	"context"
	"errors"
	"fmt"
	"net"
	"os"
	"path/filepath"
	"syscall"
	"time"

	"golang.org/x/sys/unix"
)

// ListenUnix makes a Unix socket that only this user can connect to. A socket at which nobody answers is replaced;
// anything else of that name is left as it is.
func ListenUnix(path string) (net.Listener, error) {
	folder, err := os.Open(filepath.Dir(path))
	if err != nil {
		return nil, err
	}
	defer folder.Close()
	// of two processes that would make a socket in a folder one waits for the other
	if err := unix.Flock(int(folder.Fd()), unix.LOCK_EX); err != nil {
		return nil, fmt.Errorf("locking %s: %w", filepath.Dir(path), err)
	}
	if err := removeDead(path); err != nil {
		return nil, err
	}
	private := net.ListenConfig{Control: makePrivate}
	listener, err := private.Listen(context.Background(), "unix", path)
	if err != nil {
		return nil, err
	}
	listener.(*net.UnixListener).SetUnlinkOnClose(false)
	return listener, nil
}

// makePrivate gives a socket that has no name yet the mode with which its name is made (unix(7)).
func makePrivate(_, _ string, socket syscall.RawConn) error {
	var fault error
	if err := socket.Control(func(fd uintptr) { fault = unix.Fchmod(int(fd), 0o600) }); err != nil {
		return err
	}
	return fault
}

// removeDead removes a socket at which nobody answers.
func removeDead(path string) error {
	found, err := os.Lstat(path)
	if errors.Is(err, os.ErrNotExist) {
		return nil
	}
	if err != nil {
		return err
	}
	if found.Mode()&os.ModeSocket == 0 {
		return errors.New("it is there, and is no socket")
	}
	asking, err := net.DialTimeout("unix", path, 5*time.Second)
	if err == nil {
		asking.Close()
		return errors.New("another process answers there")
	}
	if !errors.Is(err, syscall.ECONNREFUSED) {
		return fmt.Errorf("another process may answer there: %w", err)
	}
	return os.Remove(path)
}
