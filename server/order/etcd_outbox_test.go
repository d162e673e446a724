package order

import (
	"context"
	"sync"
	"testing"
)

// Events come in the order in which they were posted, whether somebody waits for them or not; none is posted to a channel
// that is closed.
func TestEventsComeInTheirOrder(t *testing.T) {
	for round := 0; round < 50; round++ {
		o := newOutbox()
		ctx, cancel := context.WithCancel(context.Background())
		var all sync.WaitGroup
		all.Add(2)
		const count = 200
		go func() {
			defer all.Done()
			for at := uint64(1); at <= count; at++ {
				if o.room(ctx) {
					o.post(mostWaiting/50, Begun{at})
				}
			}
			if round%2 == 0 {
				o.finish()
			}
		}()
		go func() {
			defer all.Done()
			next := uint64(1)
			for some := range o.events {
				for _, it := range some {
					if it != (Begun{next}) {
						t.Errorf("%v in place of %d", it, next)
					}
					next++
				}
				if round%2 == 1 && next > count/2 {
					o.abandon()
					cancel()
					o.wake()
				}
			}
			if round%2 == 0 && next != count+1 {
				t.Errorf("%d events", next-1)
			}
		}()
		all.Wait()
		cancel()
	}
}
