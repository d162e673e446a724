package order

import (
	"fmt"
	"math/rand"
	"os"
	"strings"
	"sync"
	"sync/atomic"
	"syscall"
	"testing"
	"time"

	pb "go.etcd.io/etcd/etcdserver/etcdserverpb"
)

// storm is three servers over three members, each by relays of its own, and what goes wrong between them.
type storm struct {
	t       *testing.T
	etcd    *etcds
	relays  []*relay
	servers []*watched
	faults  [6]atomic.Int64
	calm    atomic.Bool
}

// stormy has a relay lose answers and requests, and end watches.
func (s *storm) stormy(r *relay, seed int64) {
	random, mutex := rand.New(rand.NewSource(seed)), sync.Mutex{}
	happens := func(fault, of int) bool {
		mutex.Lock()
		defer mutex.Unlock()
		if s.calm.Load() || random.Intn(of) != 0 {
			return false
		}
		s.faults[fault].Add(1)
		return true
	}
	r.does(func() {
		r.txn = func(*pb.TxnRequest, *pb.TxnResponse) error {
			if happens(0, 15) {
				return errAway
			}
			return nil
		}
		r.before = func(*pb.TxnRequest) error {
			if happens(1, 30) {
				return errAway
			}
			if happens(2, 60) { // it comes late
				time.Sleep(200 * time.Millisecond)
			}
			return nil
		}
		r.told = func(answer *pb.WatchResponse) ([]*pb.WatchResponse, error) {
			if happens(3, 200) {
				return nil, errAway
			}
			if happens(4, 400) { // what it had to say is left out, and no more is said
				return nil, nil
			}
			return []*pb.WatchResponse{answer}, nil
		}
	})
}

// members stops and kills members, one at a time, until the context is over.
func (s *storm) members(random *rand.Rand, until time.Time) {
	for time.Now().Before(until) {
		at := random.Intn(len(s.etcd.all))
		if random.Intn(2) == 0 {
			s.etcd.signal(at, syscall.SIGSTOP)
			time.Sleep(time.Duration(random.Intn(2500)) * time.Millisecond)
			s.etcd.signal(at, syscall.SIGCONT)
		} else {
			s.etcd.kill(at)
			time.Sleep(time.Duration(random.Intn(1000)) * time.Millisecond)
			s.etcd.start(at)
		}
		s.faults[5].Add(1)
		time.Sleep(time.Duration(500+random.Intn(1000)) * time.Millisecond)
	}
}

// callers have each server append strings until a time, and return them.
func (s *storm) callers(until time.Time) map[string]*String {
	var all sync.WaitGroup
	var mutex sync.Mutex
	handed := map[string]*String{}
	for caller := 0; caller < 12; caller++ {
		all.Add(1)
		go func(caller int) {
			defer all.Done()
			w := s.servers[caller%len(s.servers)]
			for at := 0; time.Now().Before(until); at++ {
				text := fmt.Sprintf("%d.%d", caller, at)
				it := w.append1(text)
				mutex.Lock()
				handed[text] = it
				mutex.Unlock()
				w.until("appended "+text, func() bool { return w.own[it] > 0 || w.closed })
			}
		}(caller)
	}
	all.Wait()
	return handed
}

// fresh asks one server after the other for the order's end, until a time: what another server was told of before has to
// stand before the end. It returns how many were asked.
func (s *storm) fresh(until time.Time) (asked int) {
	for ; time.Now().Before(until); asked++ {
		told := uint64(0)
		for _, w := range s.servers {
			w.mutex.Lock()
			if w.latest > told {
				told = w.latest
			}
			w.mutex.Unlock()
		}
		if end := s.servers[asked%len(s.servers)].untilEnd(); end < told {
			s.t.Errorf("the end is at %d, and a string was at %d before", end, told)
		}
	}
	return asked
}

// Each string stands in the order once, where its server was told, whatever goes wrong between servers and members.
func TestNothingIsLostAndNothingIsTwice(t *testing.T) {
	t.Parallel()
	lasts, seed := 8*time.Second, time.Now().UnixNano()
	if os.Getenv("DSMDB_LONG") != "" {
		lasts = 2 * time.Minute
	}
	t.Logf("seed %d", seed)
	s := &storm{t: t, etcd: runEtcd(t, 3, "--snapshot-count", "200", "--max-wals", "2", "--heartbeat-interval", "50",
		"--election-timeout", "500")}
	for server := 0; server < 3; server++ {
		var urls []string
		for member := range s.etcd.all {
			it := s.etcd.relayed((server + member) % 3)
			s.stormy(it, seed+int64(3*server+member))
			urls = append(urls, it.url)
		}
		s.servers = append(s.servers, s.etcd.opened(func(o *EtcdOptions) { o.Endpoints = urls }))
	}
	until := time.Now().Add(lasts)
	go s.members(rand.New(rand.NewSource(seed)), until.Add(-time.Second))
	ends := make(chan int, 1)
	go func() {
		defer close(ends) // where an answer doesn't come in time, too
		ends <- s.fresh(until)
	}()
	handed := s.callers(until)
	asked := <-ends
	s.calm.Store(true)
	fresh := s.etcd.opened(nil)
	alike(append(s.servers, fresh)...)
	for _, w := range s.servers {
		for it, position := range w.own {
			if fresh.strings[position-1] != string(it.Text) || handed[string(it.Text)] != it {
				t.Errorf("%s isn't at %d", it.Text, position)
			}
		}
	}
	for _, text := range fresh.read() {
		if handed[text] == nil {
			t.Errorf("%s is there twice", text)
		}
		delete(handed, text)
	}
	if len(handed) > 0 {
		t.Errorf("%d strings are lost", len(handed))
	}
	var counts []string
	for at := range s.faults {
		counts = append(counts, fmt.Sprint(s.faults[at].Load()))
	}
	t.Logf("%d strings, %d questions; faults: %s", len(fresh.read()), asked, strings.Join(counts, ", "))
}
