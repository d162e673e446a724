package site

import (
	"context"
	"errors"
	"fmt"
	"runtime/debug"
	"sync"
	"sync/atomic"
	"time"

	"dsmdb/server/batch"
	"dsmdb/server/order"
)

// Database is a replica over orders that follow one another: a site for each, one after the other. Requests that one site
// hasn't answered at its order's end go to the next.
type Database struct {
	DatabaseOptions
	site  atomic.Pointer[Site] // nil before the first
	order atomic.Pointer[order.Order]

	mutex   sync.Mutex
	changed sync.Cond // the site is another one, or the last one has ended
	waiting []*Request
	spans   []Span
	ended   bool
}

// DatabaseOptions are what a database is made of.
type DatabaseOptions struct {
	// Site has what all sites are made of. Settings and Number are of the order that is gone on with; its Order isn't used.
	Site Options
	// Open opens the order of a number. Of is the identity of its database, zeros where that isn't known. Vote returns what
	// the server's engine has come to.
	Open func(number uint64, of batch.ID, vote func() batch.Vote) (order.Order, error)
	// Start starts an engine over the settings of an order.
	Start func(ctx context.Context, number uint64, settings []byte) (Engine, error)
	// Earlier are the orders before that are known, the first one first.
	Earlier []Span
}

// Span says where an order of a database lies among the positions of all.
type Span struct {
	Number uint64
	Before uint64 // positions before its first string
}

// NewDatabase makes a database, which Run runs.
func NewDatabase(o DatabaseOptions) *Database {
	d := &Database{DatabaseOptions: o, spans: append([]Span(nil), o.Earlier...)}
	d.changed.L = &d.mutex
	return d
}

// Ask hands over requests, each of which is answered once. It never waits, and may be called from any goroutine.
func (d *Database) Ask(requests ...*Request) {
	for {
		found := d.site.Load()
		if found != nil && found.Ask(requests...) || d.hold(found, requests) {
			return
		}
	}
}

// hold keeps requests for the site behind one that has ended; false where that is there already. Where there will be none
// it answers them.
func (d *Database) hold(after *Site, requests []*Request) bool {
	d.mutex.Lock()
	defer d.mutex.Unlock()
	switch {
	case d.ended:
		stopping(requests)
	case d.site.Load() != after:
		return false
	default:
		d.waiting = append(d.waiting, requests...)
	}
	return true
}

// Snapshot returns what is known of the site of the present order; false where the last one has ended.
func (d *Database) Snapshot() (Snapshot, bool) {
	for {
		found := d.site.Load()
		if found != nil {
			if it, is := found.Snapshot(); is {
				return it, true
			}
		}
		if !d.another(found) {
			return Snapshot{}, false
		}
	}
}

var (
	// ErrEnded says that the last site has ended.
	ErrEnded = errors.New("the server is ending")
	// ErrBusy says that a site doesn't answer for now, as where an order ends and the rows are many.
	ErrBusy = errors.New("the server goes on to another order")
)

// Look returns what is known of the site of the present order, or why that isn't known in time.
func (d *Database) Look(within time.Duration) (Snapshot, error) {
	type seen struct {
		found Snapshot
		is    bool
	}
	looked := make(chan seen, 1)
	go func() {
		found, is := d.Snapshot()
		looked <- seen{found, is}
	}()
	select {
	case it := <-looked:
		if !it.is {
			return it.found, ErrEnded
		}
		return it.found, nil
	case <-time.After(within):
		return Snapshot{}, ErrBusy
	}
}

// another waits until the site is another one; false where there will be none.
func (d *Database) another(than *Site) bool {
	d.mutex.Lock()
	defer d.mutex.Unlock()
	for !d.ended && d.site.Load() == than {
		d.changed.Wait()
	}
	return !d.ended
}

// Order returns the present order; nil before the first is open.
func (d *Database) Order() order.Order {
	if found := d.order.Load(); found != nil {
		return *found
	}
	return nil
}

// Spans returns the orders that are known, the present one last.
func (d *Database) Spans() []Span {
	d.mutex.Lock()
	defer d.mutex.Unlock()
	return append([]Span(nil), d.spans...)
}

// Run goes on from order to order until the context ends, where it returns nil, or an error says why it can't. All requests
// are answered.
func (d *Database) Run(ctx context.Context) error {
	options := d.Site
	d.Site.Settings = nil // which may be long
	var requests []*Request
	for {
		run, err := d.open(options)
		if err != nil {
			d.end(requests)
			return err
		}
		d.begin(run, requests)
		if err = run.Run(ctx); err == nil {
			options.Settings, requests = run.Next()
		}
		fault := run.order.Close()
		if err != nil || options.Settings == nil {
			d.end(nil)
			return err
		}
		if fault != nil {
			run.warn("closing order %d: %v", run.number, fault)
		}
		options.Number, options.Past = run.number+1, run.Past()
		options.Rolls.Began, options.Overrule, options.Joins = time.Now(), false, false
		debug.FreeOSMemory() // the settings were there several times
	}
}

// open opens an order, and makes its site.
func (d *Database) open(options Options) (*Site, error) {
	number, settings := options.Number, options.Settings
	options.Start = func(ctx context.Context) (Engine, error) { return d.Start(ctx, number, settings) }
	made := New(options)
	opened, err := d.Open(options.Number, made.database, made.Vote)
	if err != nil {
		return nil, fmt.Errorf("opening order %d: %w", options.Number, err)
	}
	made.order = opened
	d.order.Store(&opened)
	if options.Past != nil {
		made.say("order %d goes on behind position %d", made.number, made.before)
		made.rolls.step(StepOpened)
	}
	return made, nil
}

// begin has requests go to another site from now on, first those that were handed over.
func (d *Database) begin(made *Site, requests []*Request) {
	d.mutex.Lock()
	made.Ask(append(requests, d.waiting...)...)
	d.waiting = nil
	d.spans = append(d.spans, Span{made.number, made.before})
	d.site.Store(made)
	d.mutex.Unlock()
	d.changed.Broadcast()
}

// end answers what waits for a site: there will be none any more.
func (d *Database) end(requests []*Request) {
	d.mutex.Lock()
	requests = append(requests, d.waiting...)
	d.waiting, d.ended = nil, true
	d.mutex.Unlock()
	d.changed.Broadcast()
	stopping(requests)
}

// stopping tells requests that no site will answer them.
func stopping(requests []*Request) {
	for _, r := range requests {
		r.Asker.Answer(r, Answer{Kind: Unknown, Text: IsStopping})
		r.Asker.Flush()
	}
}
