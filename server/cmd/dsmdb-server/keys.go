package main

import (
	"fmt"
	"os"

	"golang.org/x/sys/unix"
)

// readKeys returns the keys that are pressed, each at once, where standard input is a terminal; restore gives the terminal
// back.
func readKeys(wanted bool) (keys <-chan byte, restore func()) {
	none := func() {}
	if !wanted {
		return nil, none
	}
	before, err := unix.IoctlGetTermios(0, unix.TCGETS)
	if err != nil {
		return nil, none
	}
	now := *before
	now.Lflag &^= unix.ICANON | unix.ECHO
	now.Cc[unix.VMIN], now.Cc[unix.VTIME] = 1, 0
	if unix.IoctlSetTermios(0, unix.TCSETS, &now) != nil {
		return nil, none
	}
	fmt.Println("k kills a server, q ends the demonstration")
	pressed := make(chan byte)
	go func() {
		var one [1]byte
		for {
			if count, err := os.Stdin.Read(one[:]); err != nil || count == 0 {
				return
			}
			pressed <- one[0]
		}
	}()
	return pressed, func() { unix.IoctlSetTermios(0, unix.TCSETS, before) }
}
