// Package console has a page for people: how the server is, its rows, a form for each procedure, and what happens now.
package console

import (
	"embed"
	"net/http"
)

//go:embed index.html console.js console.css
var files embed.FS

var kinds = map[string]string{
	"/": "text/html; charset=utf-8", "/console.js": "text/javascript; charset=utf-8", "/console.css": "text/css; charset=utf-8",
}

// Paths returns what Handler answers.
func Paths() []string {
	var all []string
	for path := range kinds {
		all = append(all, path)
	}
	return all
}

// Handler answers Paths: the page, and the files that the page asks for.
func Handler() http.Handler {
	return http.HandlerFunc(func(w http.ResponseWriter, r *http.Request) {
		kind, is := kinds[r.URL.Path]
		if !is {
			http.NotFound(w, r)
			return
		}
		name := r.URL.Path[1:]
		if name == "" {
			name = "index.html"
		}
		found, err := files.ReadFile(name)
		if err != nil {
			http.Error(w, err.Error(), http.StatusInternalServerError)
			return
		}
		header := w.Header()
		header.Set("Content-Type", kind)
		header.Set("Content-Security-Policy", "default-src 'none'; style-src 'self'; script-src 'self'; connect-src 'self'; frame-ancestors 'none'")
		header.Set("Referrer-Policy", "no-referrer")
		header.Set("Cache-Control", "no-cache")
		w.Write(found)
	})
}
