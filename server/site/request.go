package site

import (
	"sync/atomic"
	"time"

	"dsmdb/server/order"
	"dsmdb/server/wire"
)

// Asker is who asks: a connection, or one request over HTTP.
type Asker interface {
	// Answer tells the answer to a request of the asker's. It is called once for each, and never waits.
	Answer(of *Request, answer Answer)
	// Flush says that no more answers come for now. It never waits.
	Flush()
	// Gone returns whether the asker has left, as the kernel knows. It may be called from any goroutine.
	Gone() bool
}

// Request is something that is asked of a site.
type Request struct {
	Ask   wire.Ask
	Asker Asker
	Tag   string // of the asker's own

	began    time.Time
	deadline time.Time
	done     atomic.Bool
	after    uint64 // the call begins where the engine has this many strings
	fresh    bool   // whether the call's answer is of rows of the order's end
	question uint64 // of the order's end, which is waited for; 0 for none
	tries    int
	last     Answer       // of a try after which the call is tried again
	held     Answer       // which isn't told while votes disagree
	first    order.String // that was handed to the order
	handed   time.Time    // when a string of the request's was last handed to the order
	out      bool         // whether a string of its may be in the order, or come to be, whose outcome isn't known
	padding  time.Time    // when the order is filled up to after; zero for never

	before, behind *Request // among those that aren't answered
}

// Wants implements order.Wanter.
func (r *Request) Wants() bool { return !r.done.Load() && !r.Asker.Gone() }

// call returns what a request for a call asks; nil for another.
func (r *Request) call() *wire.Call {
	found, _ := r.Ask.(*wire.Call)
	return found
}

// outstanding are the requests that aren't answered, in the order in which they came.
type outstanding struct {
	first, last *Request
	count       int
}

func (o *outstanding) add(r *Request) {
	r.before, r.behind = o.last, nil
	if o.last == nil {
		o.first = r
	} else {
		o.last.behind = r
	}
	o.last = r
	o.count++
}

func (o *outstanding) remove(r *Request) {
	if r.before == nil {
		o.first = r.behind
	} else {
		r.before.behind = r.behind
	}
	if r.behind == nil {
		o.last = r.before
	} else {
		r.behind.before = r.before
	}
	r.before, r.behind = nil, nil
	o.count--
}

// waiting are requests that wait for something that rises, the least first.
type waiting []waiter

type waiter struct {
	for_ uint64
	of   *Request
}

func (w waiting) Len() int           { return len(w) }
func (w waiting) Less(i, j int) bool { return w[i].for_ < w[j].for_ }
func (w waiting) Swap(i, j int)      { w[i], w[j] = w[j], w[i] }
func (w *waiting) Push(it any)       { *w = append(*w, it.(waiter)) }
func (w *waiting) Pop() any {
	old := *w
	it := old[len(old)-1]
	old[len(old)-1] = waiter{}
	*w = old[:len(old)-1]
	return it
}
