// Package api answers HTTP: calls, additions, rows and the state of a server as JSON.
package api

import (
	"context"
	"crypto/tls"
	"encoding/hex"
	"encoding/json"
	"errors"
	"fmt"
	"io"
	"net"
	"net/http"
	"strconv"
	"strings"
	"sync/atomic"
	"time"

	"dsmdb/server/access"
	"dsmdb/server/layout"
	"dsmdb/server/lineserver"
	"dsmdb/server/site"
	"dsmdb/server/wire"
)

const (
	longestBody = 1 << 20         // bytes of a request
	patience    = 2 * time.Second // for which a server is waited for that is asked of itself
)

// Options are what a handler is made of.
type Options struct {
	Site    *site.Database
	Policy  *access.Policy
	Layout  *layout.Layout // nil for none
	Hosts   []string       // names under which the server is reached, besides loopback addresses
	Metrics http.Handler   // answers /metrics; nil for none
	Console http.Handler   // answers Pages
	Pages   []string
	// Name is the server's, for the console.
	Name string
}

// Handler answers requests.
type Handler struct {
	Options
	routes   *http.ServeMux
	draining atomic.Bool
}

// Drain has requests that change something be refused from now on. It does nothing to none.
func (h *Handler) Drain() {
	if h != nil {
		h.draining.Store(true)
	}
}

// New makes a handler.
func New(o Options) *Handler {
	h := &Handler{Options: o, routes: http.NewServeMux()}
	h.routes.HandleFunc("/v1/sessions", h.only(http.MethodPost, h.session))
	h.routes.HandleFunc("/v1/call/", h.only(http.MethodPost, h.call))
	h.routes.HandleFunc("/v1/procedures", h.procedures)
	h.routes.HandleFunc("/v1/tables/", h.only(http.MethodGet, h.rows))
	h.routes.HandleFunc("/v1/status", h.only(http.MethodGet, h.status))
	h.routes.HandleFunc("/v1/layout", h.only(http.MethodGet, h.layout))
	h.routes.HandleFunc("/healthz", h.only(http.MethodGet, func(w http.ResponseWriter, _ *http.Request) { io.WriteString(w, "ok\n") }))
	h.routes.HandleFunc("/readyz", h.only(http.MethodGet, h.ready))
	if o.Metrics != nil {
		h.routes.Handle("/metrics", o.Metrics)
	}
	for _, path := range o.Pages {
		h.routes.Handle(path, o.Console)
	}
	return h
}

type connKey struct{}

// ConnContext keeps a request's connection, so that it can be asked whether its client is there. It is for http.Server.
func ConnContext(ctx context.Context, c net.Conn) context.Context {
	return context.WithValue(ctx, connKey{}, lineserver.GoneOf(c))
}

// ServeHTTP implements http.Handler.
func (h *Handler) ServeHTTP(w http.ResponseWriter, r *http.Request) {
	if !h.isServed(r.Host) {
		tell(w, problem{Status: http.StatusMisdirectedRequest, Title: "the host isn't served here", Detail: "--served NAME names the hosts of a server"})
		return
	}
	if origin := r.Header.Get("Origin"); origin != "" && !h.isServed(hostOf(origin)) {
		tell(w, problem{Status: http.StatusForbidden, Title: "a page of another host asks"})
		return
	}
	w.Header().Set("X-Content-Type-Options", "nosniff")
	if h.draining.Load() && r.Method == http.MethodPost {
		tell(w, problem{Status: http.StatusServiceUnavailable, Title: "the server is ending", Detail: "ask another server"})
		return
	}
	if _, path := h.routes.Handler(r); path == "" || path == "/" && r.URL.Path != "/" {
		tell(w, problem{Status: http.StatusNotFound, Title: "there is nothing at this path", Detail: "paths of calls and rows begin with /v1/"})
		return
	}
	h.routes.ServeHTTP(w, r)
}

func hostOf(origin string) string {
	_, host, _ := strings.Cut(origin, "://")
	return host
}

// isServed returns whether a host, maybe with a port, is one of this server's names. So no page can have a browser ask
// under a name of its own.
func (h *Handler) isServed(host string) bool {
	name := host
	if found, _, err := net.SplitHostPort(host); err == nil {
		name = found
	}
	name = strings.TrimSuffix(strings.ToLower(strings.Trim(name, "[]")), ".")
	if ip := net.ParseIP(name); name == "localhost" || ip != nil && ip.IsLoopback() {
		return true
	}
	for _, it := range h.Hosts {
		if strings.EqualFold(it, name) {
			return true
		}
	}
	return false
}

// only answers one method alone. A POST has to be of JSON, so that a page of a stranger's can't send one unasked.
func (h *Handler) only(method string, do http.HandlerFunc) http.HandlerFunc {
	return func(w http.ResponseWriter, r *http.Request) {
		if r.Method != method && !(method == http.MethodGet && r.Method == http.MethodHead) {
			w.Header().Set("Allow", method)
			tell(w, problem{Status: http.StatusMethodNotAllowed, Title: "this path takes " + method})
			return
		}
		if method == http.MethodPost && !isJSON(r) {
			tell(w, problem{Status: http.StatusUnsupportedMediaType, Title: "Content-Type: application/json is asked for"})
			return
		}
		do(w, r)
	}
}

func isJSON(r *http.Request) bool {
	kind, _, _ := strings.Cut(r.Header.Get("Content-Type"), ";")
	return strings.EqualFold(strings.TrimSpace(kind), "application/json")
}

// who returns who asks: by the connection's certificate, or by a token.
func (h *Handler) who(r *http.Request) (*access.Who, error) {
	var state *tls.ConnectionState
	if r.TLS != nil {
		state = r.TLS
	}
	who := h.Policy.Remote(state)
	header := r.Header.Get("Authorization")
	if header == "" {
		return who, nil
	}
	kind, word, _ := strings.Cut(header, " ")
	if !strings.EqualFold(kind, "Bearer") {
		return nil, access.ErrNoToken
	}
	return who.WithToken(strings.TrimSpace(word))
}

// may answers for itself where somebody may not ask.
func (h *Handler) may(w http.ResponseWriter, r *http.Request, ask wire.Ask) bool {
	who, err := h.who(r)
	if err == nil {
		err = who.May(ask, time.Now())
	}
	switch {
	case err == nil:
		return true
	case errors.Is(err, access.ErrNoToken):
		w.Header().Set("WWW-Authenticate", "Bearer")
		tell(w, problem{Status: http.StatusUnauthorized, Title: "the token is nobody's"})
	case errors.Is(err, access.TooMany):
		w.Header().Set("Retry-After", "1")
		tell(w, problem{Status: http.StatusTooManyRequests, Title: "the role has used up its calls of this second"})
	default:
		tell(w, problem{Status: http.StatusForbidden, Title: "who asks may not do this", Detail: "--roles FILE says who may; a certificate or a token says who asks"})
	}
	return false
}

// asker is one request over HTTP.
type asker struct {
	answers chan site.Answer
	gone    func() bool
	over    <-chan struct{}
}

// Answer implements site.Asker.
func (a *asker) Answer(_ *site.Request, answer site.Answer) { a.answers <- answer }

// Flush implements site.Asker.
func (a *asker) Flush() {}

// Gone implements site.Asker.
func (a *asker) Gone() bool {
	select {
	case <-a.over:
		return true
	default:
		return a.gone()
	}
}

// ask asks the site, and waits for the answer; false where the client has left.
func (h *Handler) ask(r *http.Request, ask wire.Ask) (site.Answer, bool) {
	gone, _ := r.Context().Value(connKey{}).(func() bool)
	if gone == nil {
		gone = func() bool { return false }
	}
	a := &asker{answers: make(chan site.Answer, 1), gone: gone, over: r.Context().Done()}
	h.Site.Ask(&site.Request{Ask: ask, Asker: a})
	select {
	case answer := <-a.answers:
		return answer, true
	case <-a.over:
		go func() {
			if answer := <-a.answers; answer.Lines != nil {
				answer.Lines.Close()
			}
		}()
		return site.Answer{}, false
	}
}

func (h *Handler) session(w http.ResponseWriter, r *http.Request) {
	if !h.may(w, r, wire.NewSession{}) {
		return
	}
	answer, is := h.ask(r, wire.NewSession{})
	if !is {
		return
	}
	if answer.Kind != site.Session {
		h.tellAnswer(w, answer)
		return
	}
	found, _ := h.Site.Snapshot()
	write(w, http.StatusCreated, map[string]any{
		"session": number(answer.At), "database": hex.EncodeToString(found.Database[:]), "order": number(found.Order),
		"position": number(found.Position), "ahead": number(found.Ahead),
	})
}

// callBody is the body of a call.
type callBody struct {
	Args     json.RawMessage `json:"args"`
	Session  word            `json:"session"`
	Sequence word            `json:"sequence"`
	After    word            `json:"after"`
	Upto     word            `json:"upto"`
	Fresh    bool            `json:"fresh"`
	Within   word            `json:"within"`
	Database string          `json:"database"`
}

func (h *Handler) call(w http.ResponseWriter, r *http.Request) {
	name := strings.TrimPrefix(r.URL.Path, "/v1/call/")
	var body callBody
	if !decode(w, r, &body) {
		return
	}
	call, err := h.callOf(name, &body, r.Header.Get("Idempotency-Key"))
	if err != nil {
		tell(w, problem{Status: http.StatusBadRequest, Title: "the call can't be read", Detail: err.Error()})
		return
	}
	if !h.may(w, r, call) {
		return
	}
	if body.Database != "" && !h.isOf(w, body.Database) {
		return
	}
	if answer, is := h.ask(r, call); is {
		h.tellAnswer(w, answer)
	}
}

// isOf returns whether this is the database that a call is for; it answers for itself where not.
func (h *Handler) isOf(w http.ResponseWriter, database string) bool {
	found, is := h.Site.Snapshot()
	if !is || found.End == 0 {
		tell(w, problem{Status: http.StatusServiceUnavailable, Title: "it isn't known yet which database this is", Detail: "ask again"})
		return false
	}
	if database != hex.EncodeToString(found.Database[:]) {
		tell(w, problem{Status: http.StatusConflict, Title: "this is another database than the one that the call is for"})
		return false
	}
	return true
}

// callOf returns the record of a call. Nothing of the body becomes part of a line before wire.Call writes it.
func (h *Handler) callOf(name string, body *callBody, key string) (*wire.Call, error) {
	args, err := h.args(name, body.Args)
	if err != nil {
		return nil, err
	}
	if key != "" {
		session, sequence, is := strings.Cut(key, "-")
		if !is || body.Session != "" || body.Sequence != "" {
			return nil, errors.New("Idempotency-Key: SESSION-SEQUENCE, and then neither in the body")
		}
		body.Session, body.Sequence = word(session), word(sequence)
	}
	call := &wire.Call{Name: name, Args: args, Fresh: body.Fresh}
	var within uint64
	session, sequence := uint64(0), uint64(0)
	for _, it := range []struct {
		name string
		from word
		most uint64
		to   *uint64
	}{
		{"session", body.Session, 1<<32 - 1, &session}, {"sequence", body.Sequence, 1<<32 - 1, &sequence},
		{"after", body.After, 1<<64 - 1, &call.After}, {"upto", body.Upto, 1<<64 - 1, &call.Upto}, {"within", body.Within, 86_400, &within},
	} {
		if err := it.from.number(it.most, it.to); err != nil {
			return nil, fmt.Errorf("%s: %w", it.name, err)
		}
	}
	call.Session, call.Sequence, call.Within = uint32(session), uint32(sequence), time.Duration(within)*time.Second
	if line, err := wire.Read(call.String()); err != nil || line.Ask == nil {
		return nil, fmt.Errorf("%q is no procedure's name", name)
	}
	return call, nil
}

// args returns the bytes of arguments, which are hex digits, or an object of fields.
func (h *Handler) args(name string, given json.RawMessage) ([]byte, error) {
	var digits string
	if len(given) == 0 {
		return nil, nil
	}
	if json.Unmarshal(given, &digits) == nil {
		found, err := hex.DecodeString(digits)
		if err != nil {
			return nil, errors.New("args: an even number of hex digits, or an object of fields")
		}
		return found, nil
	}
	var fields map[string]word
	if err := json.Unmarshal(given, &fields); err != nil {
		return nil, errors.New("args: hex digits, or an object whose values are numbers or strings")
	}
	known := h.Layout.Procedure(name)
	if known == nil {
		return nil, fmt.Errorf("the server has no layout of %s: give args as hex digits", name)
	}
	values := make(map[string]string, len(fields))
	for field, value := range fields {
		values[field] = string(value)
	}
	return known.Pack(values)
}

// procedures lists procedures, or adds one.
func (h *Handler) procedures(w http.ResponseWriter, r *http.Request) {
	if r.Method == http.MethodGet {
		h.listProcedures(w)
		return
	}
	h.only(http.MethodPost, h.add)(w, r)
}

func (h *Handler) listProcedures(w http.ResponseWriter) {
	found, _ := h.Site.Snapshot()
	all := []map[string]any{}
	for _, it := range found.Procedures {
		one := map[string]any{"name": it.Name, "number": it.Number, "length": it.ArgsLen, "program_sha256": hex.EncodeToString(it.Program[:])}
		if known := h.Layout.Procedure(it.Name); known != nil {
			one["fields"] = known.Fields
		}
		all = append(all, one)
	}
	write(w, http.StatusOK, map[string]any{"procedures": all})
}

func (h *Handler) add(w http.ResponseWriter, r *http.Request) {
	var body struct {
		Name    string `json:"name"`
		Number  uint16 `json:"number"`
		Length  uint16 `json:"length"`
		Program string `json:"program"`
	}
	if !decode(w, r, &body) {
		return
	}
	program, err := hex.DecodeString(body.Program)
	add := &wire.Add{Name: body.Name, Number: uint32(body.Number), ArgsLen: uint32(body.Length), Program: program}
	if line, fault := wire.Read(add.String()); err != nil || fault != nil || line.Ask == nil {
		tell(w, problem{Status: http.StatusBadRequest, Title: "the procedure can't be read", Detail: "name, number, length up to 256, and program as hex digits"})
		return
	}
	if !h.may(w, r, add) {
		return
	}
	if answer, is := h.ask(r, add); is {
		h.tellAnswer(w, answer)
	}
}

func (h *Handler) layout(w http.ResponseWriter, _ *http.Request) {
	if h.Layout == nil {
		tell(w, problem{Status: http.StatusNotFound, Title: "the server has no layout", Detail: "--layout FILE, by `sdk/c/build --layout`"})
		return
	}
	write(w, http.StatusOK, h.Layout)
}

func (h *Handler) ready(w http.ResponseWriter, _ *http.Request) {
	found, err := h.Site.Look(patience)
	why := ""
	switch {
	case err != nil:
		why = err.Error()
	case found.Silent:
		why = fmt.Sprintf("other servers came to other answers from position %d on", found.DivergedSince)
	case !found.CaughtUp:
		why = fmt.Sprintf("catching up: position %d of %d", found.Position, found.Beginning)
	case found.Restarting:
		why = "the engine is started again"
	case found.Away != "":
		why = "the order can't be reached: " + found.Away
	}
	if why != "" {
		tell(w, problem{Status: http.StatusServiceUnavailable, Title: "the server doesn't answer calls now", Detail: why})
		return
	}
	io.WriteString(w, "ok\n")
}

// orders tells of the orders that are known, and where each ended whose next one is known.
func (h *Handler) orders() []map[string]string {
	all, last := []map[string]string{}, uint64(0)
	for _, it := range h.Site.Spans() {
		if len(all) > 0 && it.Number == last+1 {
			all[len(all)-1]["end"] = number(it.Before)
		}
		all, last = append(all, map[string]string{"order": number(it.Number), "before": number(it.Before)}), it.Number
	}
	return all
}

func (h *Handler) status(w http.ResponseWriter, _ *http.Request) {
	found, err := h.Site.Look(patience)
	if err != nil {
		tell(w, problem{Status: http.StatusServiceUnavailable, Title: err.Error(), Detail: "ask again, or another server"})
		return
	}
	it := map[string]any{
		"server": h.Name, "database": hex.EncodeToString(found.Database[:]), "order": number(found.Order), "before": number(found.Before),
		"orders": h.orders(), "position": number(found.Position), "end": number(found.End),
		"ahead": number(found.Ahead), "digest": hex.EncodeToString(found.Digest[:]),
		"committed": number(found.Counts.Committed), "refused": number(found.Counts.Refused), "nothing": number(found.Counts.Nothing),
		"untrue": number(found.Counts.Untrue), "caught_up": found.CaughtUp, "order_reached": found.Away == "",
		"diverged": found.Diverged, "silent": found.Silent, "waiting": strconv.Itoa(found.Waiting),
		"engine_restarts": number(found.EngineRestarts),
	}
	if found.Away != "" {
		it["order_away"], it["order_away_since"] = found.Away, found.AwaySince.UTC().Format(time.RFC3339)
	}
	write(w, http.StatusOK, it)
}
