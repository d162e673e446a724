package durations

import (
	"testing"
	"time"
)

func TestAdd(t *testing.T) {
	var all Shared
	for _, took := range []time.Duration{-1, 0, 1, 2, 3, 4, 1 << 46, 1 << 62} {
		all.Add(took)
	}
	found := all.Histogram()
	if want := [48]uint64{0: 2, 1: 1, 2: 2, 3: 1, 47: 2}; found.Counts != want {
		t.Errorf("counts are %v, not %v", found.Counts, want)
	}
	if found.Sum != 10+1<<46+1<<62 {
		t.Errorf("the sum is %d", found.Sum)
	}
}
