package order

import (
	"fmt"
	"reflect"
	"strings"
	"sync"
	"testing"
	"time"

	"dsmdb/server/batch"
)

// watched is an order, and what its events have told.
type watched struct {
	*Etcd
	t       *testing.T
	mutex   sync.Mutex
	strings []string
	headers []batch.Header
	own     map[*String]uint64 // positions
	latest  uint64             // the greatest of them
	made    int
	refused map[*String]error
	dropped map[*String]bool
	begun   int
	end     End
	wrong   []string // what mustn't be
	closed  bool
	said    []string // log
	slow    time.Duration
}

func newWatched(t *testing.T) *watched {
	return &watched{t: t, own: map[*String]uint64{}, refused: map[*String]error{}, dropped: map[*String]bool{}}
}

// hear notes what the log says.
func (w *watched) hear(format string, args ...any) {
	w.mutex.Lock()
	defer w.mutex.Unlock()
	w.said = append(w.said, fmt.Sprintf(format, args...))
}

// opened opens an order over etcd, and takes its events.
func (c *etcds) opened(change func(*EtcdOptions)) *watched {
	c.t.Helper()
	options := EtcdOptions{Endpoints: c.endpoints(), Prefix: "dsmdb", Number: 1, Maker: maker, Journal: c.t.TempDir()}
	w := newWatched(c.t)
	options.Log = w.hear
	if change != nil {
		change(&options)
	}
	opened, err := OpenEtcd(options)
	if err != nil {
		c.t.Fatal(err)
	}
	w.follow(opened)
	return w
}

func (w *watched) follow(opened *Etcd) {
	w.Etcd = opened
	w.t.Cleanup(func() { opened.Close() })
	go func() {
		for some := range opened.Events() {
			w.mutex.Lock()
			for _, it := range some {
				w.take(it)
			}
			slow := w.slow
			w.mutex.Unlock()
			time.Sleep(slow)
		}
		w.mutex.Lock()
		w.closed = true
		w.mutex.Unlock()
	}()
}

func (w *watched) take(event Event) {
	switch it := event.(type) {
	case *Counted:
		if it.First != uint64(len(w.strings))+1 {
			w.wrong = append(w.wrong, fmt.Sprintf("a batch at %d behind %d strings", it.First, len(w.strings)))
		}
		if it.Own != nil && len(it.Own) != len(it.Strings) {
			w.wrong = append(w.wrong, fmt.Sprintf("%d own strings of %d", len(it.Own), len(it.Strings)))
		}
		if it.Made {
			w.made++
		}
		for at, text := range it.Strings {
			w.strings = append(w.strings, string(text))
			if it.Own != nil {
				if string(it.Own[at].Text) != string(text) {
					w.wrong = append(w.wrong, "an own string isn't the one that stands there")
				}
				w.tell(it.Own[at])
				w.own[it.Own[at]] = uint64(len(w.strings))
				w.latest = uint64(len(w.strings))
			}
		}
		w.headers = append(w.headers, it.Header)
	case *Refused:
		for _, of := range it.Of {
			w.tell(of)
			w.refused[of] = it.Why
		}
	case *Dropped:
		for _, of := range it.Of {
			w.tell(of)
			w.dropped[of] = true
		}
	case Begun:
		w.begun++
		if it.Position != uint64(len(w.strings)) {
			w.wrong = append(w.wrong, fmt.Sprintf("begun at %d behind %d strings", it.Position, len(w.strings)))
		}
	case End:
		if it.Position != uint64(len(w.strings)) || it.Question <= w.end.Question {
			w.wrong = append(w.wrong, fmt.Sprintf("end %v at %d strings", it, len(w.strings)))
		}
		w.end = it
	}
}

// tell notes that the fate of a string is told, once.
func (w *watched) tell(of *String) {
	if _, ok := w.own[of]; ok || w.refused[of] != nil || w.dropped[of] {
		w.wrong = append(w.wrong, fmt.Sprintf("the fate of %q is told twice", of.Text))
	}
}

// until waits for something to hold.
func (w *watched) until(what string, holds func() bool) {
	w.t.Helper()
	for end := time.Now().Add(time.Minute); ; time.Sleep(2 * time.Millisecond) {
		w.mutex.Lock()
		ok, told := holds(), fmt.Sprint(len(w.strings), " strings, ", w.said)
		w.mutex.Unlock()
		if ok {
			return
		}
		if time.Now().After(end) {
			w.t.Fatalf("not in time: %s (%s)", what, told)
		}
	}
}

func (w *watched) untilBegun() {
	w.t.Helper()
	w.until("begun", func() bool { return w.begun == 1 || w.closed })
}

// untilEnded waits for the order to end, and returns why.
func (w *watched) untilEnded() string {
	w.t.Helper()
	w.until("ended", func() bool { return w.closed })
	if w.Err() == nil {
		return ""
	}
	return w.Err().Error()
}

// told returns whether the log says something. The mutex is held.
func (w *watched) told(text string) bool {
	for _, it := range w.said {
		if strings.Contains(it, text) {
			return true
		}
	}
	return false
}

// append1 appends one string, and returns it.
func (w *watched) append1(text string) *String {
	it := &String{Text: []byte(text)}
	w.Append([]*String{it})
	return it
}

// appended appends strings one behind the other, each once the one before counts.
func (w *watched) appended(texts ...string) {
	w.t.Helper()
	for _, text := range texts {
		it := w.append1(text)
		w.until("appended "+text, func() bool { return w.own[it] > 0 })
	}
}

// untilEnd asks for the order's end, and waits for the answer.
func (w *watched) untilEnd() uint64 {
	w.t.Helper()
	question := w.AskEnd()
	w.until("end", func() bool { return w.end.Question >= question || w.closed })
	if w.closed {
		w.t.Fatalf("the order has ended: %v", w.Err())
	}
	w.mutex.Lock()
	defer w.mutex.Unlock()
	return w.end.Position
}

func (w *watched) read() []string {
	w.mutex.Lock()
	defer w.mutex.Unlock()
	return append([]string(nil), w.strings...)
}

// sound fails where events said what they mustn't.
func (w *watched) sound() {
	w.t.Helper()
	w.mutex.Lock()
	defer w.mutex.Unlock()
	if len(w.wrong) > 0 {
		w.t.Errorf("%s", strings.Join(w.wrong, "\n"))
	}
}

// alike fails where orders aren't read alike, up to their ends.
func alike(all ...*watched) {
	all[0].t.Helper()
	var first []string
	for at, it := range all {
		it.untilEnd()
		it.sound()
		if at == 0 {
			first = it.read()
		} else if found := it.read(); !reflect.DeepEqual(found, first) {
			it.t.Errorf("an order of %d strings is read as one of %d, or as another", len(first), len(found))
		}
	}
}
