// Package durations counts how long things took.
package durations

import (
	"math/bits"
	"sync"
	"time"
)

// Histogram is how long things took: Counts by the length of their nanoseconds in bits.
type Histogram struct {
	Counts [48]uint64
	Sum    time.Duration
}

// Add counts one thing.
func (h *Histogram) Add(took time.Duration) {
	if took < 0 {
		took = 0
	}
	at := bits.Len64(uint64(took))
	if at >= len(h.Counts) {
		at = len(h.Counts) - 1
	}
	h.Counts[at]++
	h.Sum += took
}

// Shared is a histogram that several goroutines have.
type Shared struct {
	mutex sync.Mutex
	held  Histogram
}

// Add counts one thing.
func (s *Shared) Add(took time.Duration) {
	s.mutex.Lock()
	defer s.mutex.Unlock()
	s.held.Add(took)
}

// Histogram returns what was counted.
func (s *Shared) Histogram() Histogram {
	s.mutex.Lock()
	defer s.mutex.Unlock()
	return s.held
}
