package site

import (
	"context"
	"strings"
	"testing"
	"time"

	"dsmdb/server/batch"
)

// changed is an engine whose answers are changed.
type changed struct {
	Engine
	answers chan []byte
}

func (c *changed) Answers() <-chan []byte { return c.answers }

// changing returns a start of engines whose lines are changed, each engine by its number from 1.
func changing(o *Options, change func(engine int, line string) string) {
	start, count := o.Start, 0
	o.Start = func(ctx context.Context) (Engine, error) {
		started, err := start(ctx)
		if err != nil {
			return nil, err
		}
		count++
		number := count
		return changedBy(started, func(line string) string { return change(number, line) }), nil
	}
}

// changedBy returns an engine whose lines are changed.
func changedBy(started Engine, change func(line string) string) Engine {
	c := &changed{Engine: started, answers: make(chan []byte)}
	go func() {
		defer close(c.answers)
		for lines := range started.Answers() {
			var all strings.Builder
			for _, line := range strings.SplitAfter(string(lines), "\n") {
				if line != "" {
					all.WriteString(change(strings.TrimSuffix(line, "\n")) + "\n")
				}
			}
			c.answers <- []byte(all.String())
		}
	}()
	return c
}

func TestAnEngineThatEndsIsStartedAgain(t *testing.T) {
	of := newShared()
	r := run(t, of, 1, nil)
	s := r.session()
	r.want("call add "+words_(5, 10)+" "+s+" 1", "committed 3 reply 10")
	for sequence := 2; sequence <= 3; sequence++ {
		r.pid.Load().(func())()
		found := r.ask("call add " + words_(5, 10) + " " + s + " " + string(rune('0'+sequence)))
		if want := map[int]string{2: "committed 4 reply 20", 3: "committed 5 reply 30"}[sequence]; found != want {
			t.Errorf("%s, and not %s", found, want)
		}
	}
	if found, _ := r.site.Snapshot(); found.EngineRestarts != 2 {
		t.Errorf("%d restarts", found.EngineRestarts)
	}
	r.want("rows", " 1                    5 1e00000000000000\nposition 5 rows 1\n")
}

func TestAnEngineThatAnswersOtherwiseAfterItsStart(t *testing.T) {
	r := run(t, newShared(), 1, func(o *Options) {
		changing(o, func(engine int, line string) string {
			if engine == 2 && strings.HasPrefix(line, "entry 3 ") {
				return strings.Replace(line, "reply 10", "reply 11", 1)
			}
			return line
		})
	})
	s := r.session()
	r.want("call add "+words_(5, 10)+" "+s+" 1", "committed 3 reply 10")
	r.pid.Load().(func())()
	r.ends("answers otherwise than before")
}

func TestASiteWhoseOwnStringIsNothingEnds(t *testing.T) {
	for _, asked := range []string{"call add " + words_(5, 1) + " 2 1", "add one 9 0 " + one} {
		r := run(t, newShared(), 1, func(o *Options) {
			changing(o, func(_ int, line string) string {
				if strings.HasPrefix(line, "entry 3 ") {
					return "entry 3 nothing E5"
				}
				return line
			})
		})
		r.session()
		r.want(asked, "unknown stopping")
		r.ends("what it had submitted itself")
	}
}

func TestASiteThatOthersDisagreeWithAnswersNobody(t *testing.T) {
	of := newShared()
	wrong := func(o *Options) {
		changing(o, func(_ int, line string) string {
			return strings.Replace(line, "entry 4 commit reply 10", "entry 4 commit reply 11", 1)
		})
	}
	liar, one, two := run(t, of, 1, wrong).caughtUp(), run(t, of, 2, nil).caughtUp(), run(t, of, 3, nil).caughtUp()
	s, other := liar.session(), one.session()
	if other != "3" {
		t.Fatal(other)
	}
	liar.want("call add "+words_(5, 10)+" "+s+" 1", "committed 4 reply 11")
	// each of the others appends once more, and so votes
	two.want("call add "+words_(6, 1)+" "+other+" 1", "committed 5 reply 1")
	one.want("call add "+words_(7, 1)+" "+other+" 2", "committed 6 reply 1")
	until(t, func() bool { found, _ := liar.site.Snapshot(); return found.Silent })
	liar.want("call claim "+words_(5)+" 0 0 within 1", "unknown divergence")
	for _, honest := range []*rig{one, two} {
		until(t, func() bool { found, _ := honest.site.Snapshot(); return found.Diverged && found.DivergedSince >= 4 })
		honest.want("call claim "+words_(5)+" 0 0", "cancelled 6 code 1")
		if found, _ := honest.site.Snapshot(); found.Silent {
			t.Error("an honest one is silent")
		}
	}
}

func TestOfTwoThatDisagreeNoneAnswers(t *testing.T) {
	of := newShared()
	one := run(t, of, 1, nil)
	s := one.session()
	one.want("call add "+words_(5, 10)+" "+s+" 1", "committed 3 reply 10")
	// a vote that was given after all strings, with other digests
	of.insert(batch.ID{2}, batch.Vote{Position: 3, Answers: batch.Digest{1}})
	until(t, func() bool { found, _ := one.site.Snapshot(); return found.Silent })
	held := one.asks("call claim " + words_(5) + " 0 0")
	time.Sleep(50 * time.Millisecond)
	if len(held.found) > 0 {
		t.Error("it answers")
	}
	// two others that agree
	vote := one.site.Vote()
	of.insert(batch.ID{3}, vote)
	of.insert(batch.ID{4}, vote)
	if found := one.answer(held); found != "cancelled 3 code 1" {
		t.Error(found)
	}
}

func TestOverruled(t *testing.T) {
	of := newShared()
	one := run(t, of, 1, nil)
	s := one.session()
	one.want("call add "+words_(5, 10)+" "+s+" 1", "committed 3 reply 10")
	for name := byte(2); name <= 3; name++ {
		of.insert(batch.ID{name}, batch.Vote{Position: 3, Answers: batch.Digest{1}})
	}
	silent := run(t, of, 5, nil)
	until(t, func() bool { found, _ := silent.site.Snapshot(); return found.Silent })
	speaks := run(t, of, 6, func(o *Options) { o.Overrule = true })
	speaks.want("call claim "+words_(5)+" 0 0", "cancelled 3 code 1")
}

func TestAtItsEndAllAreAnswered(t *testing.T) {
	r := serve(t, newOrders(), 1, nil)
	r.session()
	asked := r.asks("call add " + words_(5, 10) + " 1 1 after 1000000")
	until(t, func() bool { found, _ := r.database.Snapshot(); return found.Waiting == 1 })
	r.stop()
	if found := r.answer(asked); found != "unknown stopping" {
		t.Error(found)
	}
	if err := <-r.ended; err != nil {
		t.Error(err)
	}
	r.want("position", "unknown stopping")
}

func TestManyRowsAreSpooled(t *testing.T) {
	wide := []byte(strings.Replace(settings, "window 4\n", "window 4096\n", 1))
	r := run(t, newShared(), 1, func(o *Options) { o.Settings = wide })
	s := r.session()
	var asked []*asker
	const rows = 40_000
	for key := uint64(1); key <= rows; key++ {
		asked = append(asked, r.asks("call add "+words_(key, key)+" "+s+" "+decimal(key)))
		if len(asked) < 1000 {
			continue
		}
		for _, it := range asked {
			if found := r.answer(it); !strings.HasPrefix(found, "committed") {
				t.Fatal(found)
			}
		}
		asked = nil
	}
	found := r.ask("rows")
	if strings.Count(found, "\n") != rows+1 || !strings.HasSuffix(found, "rows 40000\n") {
		t.Errorf("%d lines, %q", strings.Count(found, "\n"), found[len(found)-40:])
	}
}
