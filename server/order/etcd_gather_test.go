package order

import (
	"testing"
	"time"
)

func TestWhenStringsArePut(t *testing.T) {
	start := time.Now()
	after := func(some time.Duration) time.Time { return start.Add(some) }
	var g gathering
	wants := func(when string, waiting int, at, wanted time.Duration) {
		t.Helper()
		if found := g.wait(waiting, after(at)); found != wanted {
			t.Errorf("%s: %d strings wait for %v, not %v", when, waiting, found, wanted)
		}
	}
	wants("at first", 1, 0, 0)
	g.begin(1, after(0))
	wants("beside one on its way", 3, 0, 0)
	wants("many beside one on its way", 4, 0, longPut)
	g.end(1, 0, after(2*time.Millisecond))
	g.begin(10, after(2*time.Millisecond))
	wants("beside many", 1, 3*time.Millisecond, 4*time.Millisecond)
	wants("beside many that take long", 1, 7*time.Millisecond, 0)
	g.end(10, 6, after(8*time.Millisecond))
	wants("behind many", 6, 8*time.Millisecond, gatherFor)
	wants("behind many, later", 15, 8*time.Millisecond+gatherFor/2, gatherFor/2)
	wants("when all have asked again", 16, 8*time.Millisecond, 0)
	wants("when some haven't", 7, 8*time.Millisecond+gatherFor, 0)
	g.begin(2, after(9*time.Millisecond))
	wants("beside few", 2, 9*time.Millisecond, 0)
}
