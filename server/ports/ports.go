// Package ports finds TCP ports of the loopback address for programs that are started next.
package ports

import (
	"fmt"
	"net"
	"os"
	"sync"
	"sync/atomic"
)

// The ports lie below those that Linux gives to connections (32768 and up): a connection would take a port
// before its program does. Each process begins at ports of its own.
const (
	lowest     = 10000
	count      = 20000
	perProcess = 400
)

var (
	taken  atomic.Uint32
	claims sync.Map // from each port of this process to its claim
)

// claim takes a port for this process until it ends. A port has one claim on the machine: an abstract socket of its
// name, which no other process can have meanwhile.
func claim(port int) bool {
	held, err := net.Listen("unix", fmt.Sprintf("@dsmdb-port-%d", port))
	if err != nil {
		return false
	}
	claims.Store(port, held)
	return true
}

// Free returns a port that nobody listened at a moment ago, and that no process was given that still runs.
func Free() (int, error) {
	for tried := 0; tried < count; tried++ {
		port := lowest + (os.Getpid()*perProcess+int(taken.Add(1)))%count
		if !claim(port) {
			continue
		}
		listener, err := net.Listen("tcp", fmt.Sprintf("127.0.0.1:%d", port))
		if err == nil {
			return port, listener.Close()
		}
	}
	return 0, fmt.Errorf("no port of 127.0.0.1 from %d to %d is free", lowest, lowest+count-1)
}
