package main

import (
	"context"
	"errors"
	"net"
	"os"
	"strconv"
	"time"

	"dsmdb/server/site"
)

// notify tells systemd of a state, where it has asked for that (sd_notify(3)).
func notify(state string) {
	path := os.Getenv("NOTIFY_SOCKET")
	if path == "" {
		return
	}
	if path[0] == '@' {
		path = "\x00" + path[1:]
	}
	reached, err := net.DialUnix("unixgram", nil, &net.UnixAddr{Name: path, Net: "unixgram"})
	if err != nil {
		return
	}
	defer reached.Close()
	reached.Write([]byte(state))
}

// tellSystem says when the server has caught up, and then that it lives.
func (s *server) tellSystem(ctx context.Context) {
	pause := 100 * time.Millisecond
	ticker := time.NewTicker(pause)
	defer ticker.Stop()
	ready := false
	for {
		select {
		case <-ctx.Done():
			return
		case <-ticker.C:
		}
		found, err := s.database.Look(time.Second)
		if errors.Is(err, site.ErrEnded) {
			return
		}
		if !ready && found.CaughtUp {
			ready = true
			s.log.say("answers from position %d on, after %v", found.Position, time.Since(s.began).Round(time.Millisecond))
			notify("READY=1")
			ticker.Reset(watchdogPause())
		}
		notify("WATCHDOG=1")
	}
}

// watchdogPause returns how often systemd wants to hear that the server lives.
func watchdogPause() time.Duration {
	micros, err := strconv.ParseInt(os.Getenv("WATCHDOG_USEC"), 10, 64)
	if err != nil || micros <= 0 {
		return 10 * time.Second
	}
	return time.Duration(micros) * time.Microsecond / 3
}
