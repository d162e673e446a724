package api

import (
	"bytes"
	"net/http"
	"net/http/httptest"
	"testing"

	"dsmdb/server/access"
	"dsmdb/server/wire"
)

func handler() *Handler {
	return New(Options{Policy: access.Without(false), Hosts: []string{"db.example"}})
}

func TestWhoIsServed(t *testing.T) {
	for host, want := range map[string]bool{
		"localhost": true, "localhost:80": true, "127.0.0.1:8080": true, "[::1]:80": true, "db.example": true, "DB.example.:443": true,
		"stranger.example": false, "10.0.0.1": false, "db.example.stranger": false, "": false, "127.0.0.1.example": false,
	} {
		if found := handler().isServed(host); found != want {
			t.Errorf("%s: %v", host, found)
		}
	}
}

func TestWhatIsRefusedBeforeAnybodyIsAsked(t *testing.T) {
	for _, it := range []struct {
		method, path, kind, body string
		want                     int
	}{
		{"GET", "/v1/call/add", "", "", 405},
		{"POST", "/v1/call/add", "text/plain", "{}", 415},
		{"POST", "/v1/call/add", "application/json", "{", 400},
		{"POST", "/v1/call/add", "application/json", "{} {}", 400},
		{"POST", "/v1/call/add", "application/json", `{"args": "0"}`, 400},
		{"POST", "/v1/call/add", "application/json", `{"args": {"key": 1}}`, 400},
		{"POST", "/v1/call/add", "application/json", `{"session": 4294967296}`, 400},
		{"POST", "/v1/call/add", "application/json", `{"session": "01"}`, 400},
		{"POST", "/v1/call/a%0Arows", "application/json", `{}`, 400},
		{"POST", "/v1/call/", "application/json", `{}`, 403},
		{"POST", "/v1/call/add", "application/json", `{}`, 403},
		{"POST", "/v1/sessions", "application/json", `{}`, 403},
		{"GET", "/v1/tables/1/rows", "", "", 403},
		{"GET", "/v1/tables/300/rows", "", "", 404},
		{"GET", "/v1/tables/1/rows?limit=0", "", "", 404},
		{"GET", "/v1/tables/1/rows/x", "", "", 404},
		{"GET", "/v1/nothing", "", "", 404},
		{"GET", "/v1/layout", "", "", 404},
		{"GET", "/healthz", "", "", 200},
	} {
		r := httptest.NewRequest(it.method, it.path, bytes.NewBufferString(it.body))
		r.Host = "localhost"
		if it.kind != "" {
			r.Header.Set("Content-Type", it.kind)
		}
		w := httptest.NewRecorder()
		handler().ServeHTTP(w, r)
		if w.Code != it.want {
			t.Errorf("%s %s %s: %d %s", it.method, it.path, it.body, w.Code, w.Body)
		}
	}
}

// Whatever a body says, the call's line is read as one call with the same fields.
func FuzzCall(f *testing.F) {
	f.Add("add", []byte(`{"args": "00", "session": "5", "sequence": 1, "upto": 9, "within": 3}`), "")
	f.Add("a b", []byte(`{"args": {"key": "1\nrows"}}`), "5-1")
	f.Fuzz(func(t *testing.T, name string, body []byte, key string) {
		r := httptest.NewRequest(http.MethodPost, "/", bytes.NewReader(body))
		var found callBody
		if !decode(httptest.NewRecorder(), r, &found) {
			return
		}
		call, err := handler().callOf(name, &found, key)
		if err != nil {
			return
		}
		line, err := wire.Read(call.String())
		again, is := line.Ask.(*wire.Call)
		if err != nil || !is || again.Name != call.Name || !bytes.Equal(again.Args, call.Args) || again.Session != call.Session || again.Upto != call.Upto {
			t.Errorf("%q: %v", call.String(), err)
		}
	})
}
