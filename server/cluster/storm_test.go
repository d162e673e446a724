package cluster

import (
	"fmt"
	"math/rand"
	"os"
	"reflect"
	"sync"
	"testing"
	"time"
)

// Members stop and start again, one at a time, while all servers append: nothing is lost, and nothing is twice.
func TestServersThatComeAndGoKeepOneOrder(t *testing.T) {
	if os.Getenv("DSMDB_LONG") == "" {
		t.Skip("DSMDB_LONG isn't set")
	}
	seed := time.Now().UnixNano()
	t.Logf("seed %d", seed)
	random := rand.New(rand.NewSource(seed))
	all := secured(t, "a", "b", "c")
	var busy [3]sync.Mutex // held while a server appends, or is away
	until := time.Now().Add(time.Minute)
	var callers sync.WaitGroup
	var mutex sync.Mutex
	texts := map[string]bool{}
	for at, s := range all {
		callers.Add(1)
		go func(at int, s *server) {
			defer callers.Done()
			for number := 0; time.Now().Before(until); number++ {
				busy[at].Lock()
				text := fmt.Sprint(s.options.Name, number)
				s.append(text)
				busy[at].Unlock()
				mutex.Lock()
				texts[text] = true
				mutex.Unlock()
			}
		}(at, s)
	}
	stops := 0
	for ; time.Now().Before(until); stops++ {
		at := random.Intn(len(all))
		busy[at].Lock()
		all[at].stop()
		time.Sleep(time.Duration(random.Intn(2000)) * time.Millisecond)
		all[at].start()
		all[at].open()
		busy[at].Unlock()
		time.Sleep(time.Duration(random.Intn(1000)) * time.Millisecond)
	}
	callers.Wait()
	for _, s := range all {
		s.until("all strings", func() bool { return len(s.strings) >= len(texts) })
		if !reflect.DeepEqual(s.strings, all[0].strings) || len(s.strings) != len(texts) {
			t.Errorf("%s has %d strings of %d, or in another order", s.options.Name, len(s.strings), len(texts))
		}
	}
	for _, it := range all[0].strings {
		if !texts[it] {
			t.Errorf("%s is there twice", it)
		}
		delete(texts, it)
	}
	t.Logf("%d strings, %d stops", len(all[0].strings), stops)
}
