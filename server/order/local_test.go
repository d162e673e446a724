package order

import (
	"context"
	"errors"
	"os"
	"path/filepath"
	"testing"
	"time"

	"dsmdb/server/batch"
)

// next returns the next event of an order.
func next(t *testing.T, l *Local, left *[]Event) Event {
	t.Helper()
	for len(*left) == 0 {
		select {
		case some, is := <-l.Events():
			if !is {
				t.Fatalf("the order ended: %v", l.Err())
			}
			*left = some
		case <-time.After(30 * time.Second):
			t.Fatal("nothing comes")
		}
	}
	found := (*left)[0]
	*left = (*left)[1:]
	return found
}

// wanted has strings appended as long as it says.
type wanted func() bool

func (w wanted) Wants() bool { return w() }

func stringsOf(texts ...string) []*String {
	var all []*String
	for _, it := range texts {
		all = append(all, &String{Text: []byte(it)})
	}
	return all
}

func TestAnOrderInAFolderTellsWhatBecameOfStrings(t *testing.T) {
	path := t.TempDir()
	vote := batch.Vote{Position: 7}
	l := OpenLocal(path, Maker{ID: batch.ID{1}, Version: "0.1", Vote: func() batch.Vote { return vote }})
	var left []Event
	if it, is := next(t, l, &left).(Begun); !is || it.Position != 0 {
		t.Fatalf("%+v", it)
	}
	some := stringsOf("one", "two", "three")
	some[1].For = wanted(func() bool { return false })
	l.Append(some)
	if it, is := next(t, l, &left).(*Dropped); !is || len(it.Of) != 1 || it.Of[0] != some[1] {
		t.Errorf("%+v", it)
	}
	it, is := next(t, l, &left).(*Counted)
	if !is || it.First != 1 || len(it.Strings) != 2 || it.Own[1] != some[2] || !it.Made || it.Header.Vote != vote {
		t.Errorf("%+v", it)
	}
	question := l.AskEnd()
	if it, is := next(t, l, &left).(End); !is || it.Question != question || it.Position != 2 {
		t.Errorf("%+v", it)
	}
	l.Append(nil) // a vote
	if it, is := next(t, l, &left).(*Counted); !is || it.First != 3 || len(it.Strings) != 0 || !it.Made {
		t.Errorf("%+v", it)
	}
	l.Append(stringsOf("four"))
	if it, is := next(t, l, &left).(*Counted); !is || it.First != 3 {
		t.Errorf("%+v", it)
	}
	l.Close()
	if err := l.Err(); err != nil {
		t.Error(err)
	}

	l = OpenLocal(path, Maker{ID: batch.ID{1}, Version: "0.1"})
	defer l.Close()
	left = nil
	for _, want := range []uint64{1, 3, 3} {
		if it, is := next(t, l, &left).(*Counted); !is || it.First != want || it.Made || it.Own != nil {
			t.Errorf("%+v", it)
		}
	}
	if it, is := next(t, l, &left).(Begun); !is || it.Position != 3 {
		t.Errorf("%+v", it)
	}
	for upto, want := range map[uint64]int{0: 0, 1: 1, 2: 1, 3: 3} {
		count := 0
		if err := l.Reread(context.Background(), upto, func(*batch.Batch) error { count++; return nil }); err != nil || count != want {
			t.Errorf("up to %d: %d batches, %v", upto, count, err)
		}
	}
	ended, cancel := context.WithCancel(context.Background())
	cancel()
	if err := l.Reread(ended, 3, func(*batch.Batch) error { return nil }); !errors.Is(err, context.Canceled) {
		t.Error(err)
	}
}

// An engine that ends while an order is read is given again what was read so far, though nobody takes more.
func TestAnOrderIsReadAgainWhileItIsOpened(t *testing.T) {
	path := t.TempDir()
	l := OpenLocal(path, Maker{Version: "0.1"})
	var left []Event
	next(t, l, &left)
	for turn := 0; turn < 2*eventsAtOnce+10; turn++ {
		l.Append(stringsOf("text"))
		next(t, l, &left)
	}
	l.Close()
	l = OpenLocal(path, Maker{Version: "0.1"})
	defer l.Close()
	some := <-l.Events() // and no more
	last := some[len(some)-1].(*Counted)
	count := uint64(0)
	err := l.Reread(context.Background(), last.First, func(found *batch.Batch) error { count += uint64(len(found.Strings)); return nil })
	if err != nil || count != last.First {
		t.Errorf("%d strings, %v", count, err)
	}
}

func TestAFolderThatIsNoOrdersIsTold(t *testing.T) {
	path := t.TempDir()
	os.WriteFile(filepath.Join(path, "notes"), nil, 0o600)
	l := OpenLocal(path, Maker{Version: "0.1"})
	if some, is := <-l.Events(); is {
		t.Errorf("%+v", some)
	}
	if err := l.Err(); err == nil {
		t.Error("no error")
	}
	l.Close()
}
