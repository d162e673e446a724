package lineserver

import (
	"errors"
	"net"
	"os"
	"path/filepath"
	"strings"
	"testing"
	"time"
)

func TestASocketIsThisUsersAlone(t *testing.T) {
	path := filepath.Join(t.TempDir(), "socket")
	listener, err := ListenUnix(path)
	if err != nil {
		t.Fatal(err)
	}
	if found, err := os.Stat(path); err != nil || found.Mode().Perm() != 0o600 || found.Mode()&os.ModeSocket == 0 {
		t.Errorf("%v, %v", found.Mode(), err)
	}
	if _, err := ListenUnix(path); err == nil || !strings.Contains(err.Error(), "another process answers there") {
		t.Error(err)
	}
	listener.Close()
	// nobody answers there any more
	again, err := ListenUnix(path)
	if err != nil {
		t.Fatal(err)
	}
	again.Close()
}

func TestWhatIsNoSocketStays(t *testing.T) {
	path := filepath.Join(t.TempDir(), "order")
	if err := os.WriteFile(path, []byte("mine"), 0o600); err != nil {
		t.Fatal(err)
	}
	if _, err := ListenUnix(path); err == nil || !strings.Contains(err.Error(), "no socket") {
		t.Error(err)
	}
	if found, err := os.ReadFile(path); string(found) != "mine" || err != nil {
		t.Errorf("%q, %v", found, err)
	}
	if _, err := ListenUnix(filepath.Join(t.TempDir(), "none", "socket")); !errors.Is(err, os.ErrNotExist) {
		t.Error(err)
	}
}

func TestWhoIsGone(t *testing.T) {
	for _, kind := range []string{"unix", "tcp"} {
		address := "127.0.0.1:0"
		if kind == "unix" {
			address = filepath.Join(t.TempDir(), "socket")
		}
		listener, err := net.Listen(kind, address)
		if err != nil {
			t.Fatal(err)
		}
		for name, leave := range map[string]func(net.Conn){
			"closes":               func(c net.Conn) { c.Close() },
			"shuts its own half":   func(c net.Conn) { c.(interface{ CloseWrite() error }).CloseWrite() },
			"leaves behind a line": func(c net.Conn) { c.Write([]byte("position\n")); c.Close() },
		} {
			client, err := net.Dial(kind, listener.Addr().String())
			if err != nil {
				t.Fatal(err)
			}
			accepted, err := listener.Accept()
			if err != nil {
				t.Fatal(err)
			}
			gone := GoneOf(accepted)
			if gone() {
				t.Errorf("%s, who %s: gone before", kind, name)
			}
			leave(client)
			for end := time.Now().Add(10 * time.Second); !gone(); time.Sleep(time.Millisecond) {
				if time.Now().After(end) {
					t.Fatalf("%s, who %s: still there", kind, name)
				}
			}
			client.Close()
			accepted.Close()
		}
		listener.Close()
	}
	one, other := net.Pipe()
	if !GoneOf(one)() {
		t.Error("what is no file of the kernel's can't be asked")
	}
	one.Close()
	other.Close()
}
