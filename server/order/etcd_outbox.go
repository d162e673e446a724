package order

import (
	"context"
	"sync"
)

// mostWaiting is how many bytes of strings wait for who takes events, before no more batches are read.
const mostWaiting = 16 << 20

// outbox hands events on, so that nobody but the reader waits for who takes them.
type outbox struct {
	events    chan []Event
	abandoned chan struct{}

	mutex     sync.Mutex
	more      sync.Cond
	waiting   []Event
	size      int
	sending   bool // whether some that were taken from what waits aren't handed on yet
	finished  bool
	isIgnored bool
}

func newOutbox() *outbox {
	o := &outbox{events: make(chan []Event), abandoned: make(chan struct{})}
	o.more.L = &o.mutex
	go o.run()
	return o
}

// post hands on events, whose strings have so many bytes: at once where somebody waits for them.
func (o *outbox) post(size int, events ...Event) {
	if len(events) == 0 {
		return
	}
	o.mutex.Lock()
	defer o.mutex.Unlock()
	if o.isIgnored {
		return // the channel may be closed
	}
	if len(o.waiting) == 0 && !o.sending {
		select {
		case o.events <- events:
			return
		default:
		}
	}
	o.waiting = append(o.waiting, events...)
	o.size += size
	o.more.Broadcast()
}

// room waits until few events wait; false where the context is over.
func (o *outbox) room(ctx context.Context) bool {
	o.mutex.Lock()
	defer o.mutex.Unlock()
	for o.size > mostWaiting && ctx.Err() == nil {
		o.more.Wait()
	}
	return ctx.Err() == nil
}

func (o *outbox) wake() {
	o.mutex.Lock()
	defer o.mutex.Unlock()
	o.more.Broadcast()
}

// finish has the channel be closed once all events are taken.
func (o *outbox) finish() {
	o.mutex.Lock()
	defer o.mutex.Unlock()
	o.finished = true
	o.more.Broadcast()
}

// abandon says that nobody takes events any more.
func (o *outbox) abandon() {
	o.mutex.Lock()
	defer o.mutex.Unlock()
	if !o.isIgnored {
		o.isIgnored = true
		close(o.abandoned)
	}
}

func (o *outbox) run() {
	defer close(o.events)
	for {
		some := o.next()
		if some == nil {
			return
		}
		select {
		case o.events <- some:
		case <-o.abandoned:
			return
		}
	}
}

// next waits for events, and returns some of them; nil at the end.
func (o *outbox) next() []Event {
	o.mutex.Lock()
	defer o.mutex.Unlock()
	for o.sending = false; len(o.waiting) == 0 && !o.finished && !o.isIgnored; {
		o.more.Wait()
	}
	if len(o.waiting) == 0 || o.isIgnored {
		return nil
	}
	some := o.waiting
	o.waiting, o.size, o.sending = nil, 0, true
	o.more.Broadcast()
	return some
}
