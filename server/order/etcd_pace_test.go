package order

import (
	"bytes"
	"fmt"
	"os"
	"runtime"
	"sort"
	"strings"
	"sync"
	"sync/atomic"
	"testing"
	"time"

	pb "go.etcd.io/etcd/etcdserver/etcdserverpb"
)

// pace tells each caller when its string counts.
type pace struct {
	*Etcd
	mutex   sync.Mutex
	waiting map[*String]chan struct{}
	batches atomic.Int64
}

func paced(t *testing.T, opened *Etcd) *pace {
	p := &pace{Etcd: opened, waiting: map[*String]chan struct{}{}}
	begun := make(chan struct{})
	go func() {
		for some := range opened.Events() {
			for _, event := range some {
				switch it := event.(type) {
				case Begun:
					close(begun)
				case *Counted:
					p.batches.Add(1)
					for _, own := range it.Own {
						p.mutex.Lock()
						close(p.waiting[own])
						delete(p.waiting, own)
						p.mutex.Unlock()
					}
				}
			}
		}
	}()
	<-begun
	return p
}

func (p *pace) append(text []byte) {
	it, done := &String{Text: text}, make(chan struct{})
	p.mutex.Lock()
	p.waiting[it] = done
	p.mutex.Unlock()
	p.Append([]*String{it})
	<-done
}

// TestPace prints how fast strings are appended; it wants nothing.
func TestPace(t *testing.T) {
	if os.Getenv("DSMDB_LONG") == "" {
		t.Skip("DSMDB_LONG isn't set")
	}
	for _, members := range []int{1, 3} {
		etcd := runEtcd(t, members)
		opened, err := OpenEtcd(EtcdOptions{
			Endpoints: etcd.endpoints(), Prefix: "dsmdb", Number: 1, Maker: maker, Journal: t.TempDir(), Log: t.Logf,
		})
		if err != nil {
			t.Fatal(err)
		}
		p := paced(t, opened)
		text := bytes.Repeat([]byte("x"), 80)
		kv, number := etcd.kv(0), 0
		raw := timesOf(1, func() {
			number++
			key := []byte(fmt.Sprintf("else/%010d", number))
			asked := &pb.TxnRequest{
				Compare: []*pb.Compare{{Key: key, Target: pb.Compare_VERSION, TargetUnion: &pb.Compare_Version{}}},
				Success: []*pb.RequestOp{{Request: &pb.RequestOp_RequestPut{RequestPut: &pb.PutRequest{
					Key: key, Value: bytes.Repeat([]byte("x"), 300)}}}},
			}
			if _, err := kv.Txn(within(t), asked); err != nil {
				t.Fatal(err)
			}
		})
		t.Logf("%d members, a transaction: %s", members, raw)
		for _, callers := range []int{1, 8, 64, 256} {
			before := p.batches.Load()
			found := timesOf(callers, func() { p.append(text) })
			t.Logf("%d members, %d callers: %s; %.1f strings a batch", members, callers, found,
				float64(found.count)/float64(p.batches.Load()-before))
		}
		fresh := timesOf(1, func() {
			question := p.AskEnd()
			for p.answeredUpTo() < question {
				time.Sleep(20 * time.Microsecond)
			}
		})
		t.Logf("%d members, asking for the end: %s", members, fresh)
		opened.Close()
	}
}

func (e *Etcd) answeredUpTo() uint64 {
	e.mutex.Lock()
	defer e.mutex.Unlock()
	return e.ends.answered
}

type times struct {
	count     int
	all       time.Duration
	half, p99 time.Duration
}

func (t times) String() string {
	return fmt.Sprintf("%.0f a second, half within %v, 99 %% within %v", float64(t.count)/t.all.Seconds(), t.half, t.p99)
}

// timesOf has some callers do something for two seconds.
func timesOf(callers int, do func()) times {
	var all sync.WaitGroup
	var mutex sync.Mutex
	var took []time.Duration
	began := time.Now()
	for caller := 0; caller < callers; caller++ {
		all.Add(1)
		go func() {
			defer all.Done()
			var own []time.Duration
			for time.Since(began) < 2*time.Second {
				at := time.Now()
				do()
				own = append(own, time.Since(at))
			}
			mutex.Lock()
			defer mutex.Unlock()
			took = append(took, own...)
		}()
	}
	all.Wait()
	sort.Slice(took, func(i, j int) bool { return took[i] < took[j] })
	return times{len(took), time.Since(began), took[len(took)/2], took[len(took)*99/100]}
}

// TestLongOrder prints how fast an order of many batches is read, from etcd and from the journal; it wants nothing.
func TestLongOrder(t *testing.T) {
	if os.Getenv("DSMDB_LONG") == "" {
		t.Skip("DSMDB_LONG isn't set")
	}
	etcd, journal := runEtcd(t, 1), t.TempDir()
	const batches = 200_000
	etcd.fillOrder(0, batches, strings.Repeat("x", 1000))
	for _, from := range []string{"etcd", "the journal"} {
		began := time.Now()
		opened, err := OpenEtcd(EtcdOptions{
			Endpoints: etcd.endpoints(), Prefix: "dsmdb", Number: 1, Maker: maker, Journal: journal, Log: t.Logf,
		})
		if err != nil {
			t.Fatal(err)
		}
		paced(t, opened)
		var memory runtime.MemStats
		runtime.ReadMemStats(&memory)
		t.Logf("%d batches from %s: %v, heap %d MB", batches, from, time.Since(began), memory.HeapAlloc>>20)
		if err := opened.Close(); err != nil {
			t.Fatal(err)
		}
	}
}
