package order

import "time"

const (
	mostPuts  = 3                    // batches that are on their way to etcd at once
	fewAtOnce = 4                    // strings, below which a batch is put at once
	longPut   = 5 * time.Millisecond // after which a batch on its way holds up no other
	gatherFor = time.Millisecond     // for which strings wait behind a batch, at most
)

// gathering says when strings are put into etcd. A batch costs etcd nearly the same, whatever stands in it. So
// behind a batch of many, who was answered has a moment to ask again, and goes into the next one with those who wait.
type gathering struct {
	puts   int       // batches on their way
	last   int       // strings of the last one
	begun  time.Time // when that one was put
	ended  time.Time // when a batch was last answered
	enough int       // strings, where all who asked before have asked again
}

// begin notes that a batch is put.
func (g *gathering) begin(strings int, now time.Time) {
	g.puts++
	g.last, g.begun = strings, now
}

// end notes that a batch of so many strings was answered, while others wait.
func (g *gathering) end(strings, waiting int, now time.Time) {
	g.puts--
	g.ended, g.enough = now, waiting+strings
}

// wait returns for how long so many strings wait for others; 0 where they are put now.
func (g *gathering) wait(waiting int, now time.Time) time.Duration {
	if waiting < fewAtOnce && g.last < fewAtOnce || g.puts == 0 && waiting >= g.enough {
		return 0
	}
	until := g.ended.Add(gatherFor)
	if g.puts > 0 {
		until = g.begun.Add(longPut)
	}
	if left := until.Sub(now); left > 0 {
		return left
	}
	return 0
}
