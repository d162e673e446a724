package ports

import (
	"fmt"
	"net"
	"testing"
)

func TestPortsAreFreeAndGivenOnce(t *testing.T) {
	given := map[int]bool{}
	for number := 0; number < 100; number++ {
		port, err := Free()
		if err != nil {
			t.Fatal(err)
		}
		if given[port] {
			t.Fatalf("%d is given twice", port)
		}
		given[port] = true
		listener, err := net.Listen("tcp", fmt.Sprintf("127.0.0.1:%d", port))
		if err != nil {
			t.Fatal(err)
		}
		defer listener.Close()
	}
}

func TestATakenPortIsPassedOver(t *testing.T) {
	port, err := Free()
	if err != nil {
		t.Fatal(err)
	}
	listener, err := net.Listen("tcp", fmt.Sprintf("127.0.0.1:%d", port))
	if err != nil {
		t.Fatal(err)
	}
	defer listener.Close()
	if held, ok := claims.LoadAndDelete(port); ok {
		held.(net.Listener).Close()
	}
	taken.Add(^uint32(0)) // one back
	if again, err := Free(); err != nil || again == port {
		t.Errorf("%d again, %v", again, err)
	}
}

func TestAPortOfAnotherProcessIsPassedOver(t *testing.T) {
	port, err := Free()
	if err != nil {
		t.Fatal(err)
	}
	others, err := net.Listen("unix", fmt.Sprintf("@dsmdb-port-%d", port+1))
	if err != nil {
		t.Fatal(err)
	}
	defer others.Close()
	if next, err := Free(); err != nil || next == port+1 {
		t.Errorf("%d, %v: another process has that port", next, err)
	}
}
