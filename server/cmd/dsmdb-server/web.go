package main

import (
	"context"
	"crypto/tls"
	"errors"
	"fmt"
	"io"
	"log"
	"net"
	"net/http"
	"path/filepath"
	"time"

	"dsmdb/server/api"
	"dsmdb/server/console"
	"dsmdb/server/metrics"
)

// listenHTTP answers HTTP/1.1: in HTTP/2 a client gives a request up without the kernel's knowledge.
func (s *server) listenHTTP(ctx context.Context) error {
	s.handler = api.New(api.Options{
		Site: s.database, Policy: s.policy, Layout: s.layout, Hosts: s.served, Name: filepath.Base(filepath.Clean(s.data)),
		Metrics: metrics.New(s.database, s.lines), Console: console.Handler(), Pages: console.Paths(),
	})
	s.web = &http.Server{
		Handler: s.handler, ReadHeaderTimeout: 10 * time.Second, ReadTimeout: time.Minute, IdleTimeout: 5 * time.Minute,
		MaxHeaderBytes: 1 << 16, ConnContext: api.ConnContext, ErrorLog: log.New(io.Discard, "", 0),
		TLSNextProto: map[string]func(*http.Server, *tls.Conn, http.Handler){},
	}
	listener, err := net.Listen("tcp", s.http)
	if err != nil {
		return fmt.Errorf("listening at %s: %w", s.http, err)
	}
	listener = s.lines.Limited(listener)
	scheme := "http"
	if s.cert != "" {
		config, err := s.tlsConfig()
		if err != nil {
			return err
		}
		config.NextProtos = []string{"http/1.1"}
		listener, scheme = tls.NewListener(listener, config), "https"
	}
	s.log.say("HTTP is answered at %s://%s", scheme, listener.Addr())
	go func() {
		if err := s.web.Serve(listener); err != nil && !errors.Is(err, http.ErrServerClosed) && ctx.Err() == nil {
			s.failures <- fmt.Errorf("answering HTTP: %w", err)
		}
	}()
	return nil
}
