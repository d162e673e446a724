package main

import (
	"net/http"
	"net/http/pprof"
)

// profile gives Go's profiles at an address of loopback.
func profile(address string) {
	mux := http.NewServeMux()
	mux.HandleFunc("/debug/pprof/", pprof.Index)
	mux.HandleFunc("/debug/pprof/profile", pprof.Profile)
	mux.HandleFunc("/debug/pprof/trace", pprof.Trace)
	go http.ListenAndServe(address, mux)
}
