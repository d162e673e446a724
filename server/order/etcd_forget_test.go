package order

import (
	"context"
	"errors"
	"fmt"
	"strings"
	"sync"
	"syscall"
	"testing"
	"time"

	pb "go.etcd.io/etcd/etcdserver/etcdserverpb"
	"google.golang.org/grpc"
)

// faultyMember is a member of etcd that fails some requests, and notes how many keys are deleted together at most.
type faultyMember struct {
	pb.KVClient
	mutex   sync.Mutex
	deletes int   // requests
	most    int64 // keys of one
	fail    func(deletes int) error
	noSpace bool
}

var errNoSpace = errors.New("etcdserver: mvcc: database space exceeded")

func (m *faultyMember) Put(ctx context.Context, asked *pb.PutRequest, options ...grpc.CallOption) (*pb.PutResponse, error) {
	m.mutex.Lock()
	defer m.mutex.Unlock()
	if m.noSpace {
		return nil, errNoSpace
	}
	return m.KVClient.Put(ctx, asked, options...)
}

func (m *faultyMember) DeleteRange(ctx context.Context, asked *pb.DeleteRangeRequest, options ...grpc.CallOption) (*pb.DeleteRangeResponse, error) {
	m.mutex.Lock()
	defer m.mutex.Unlock()
	m.deletes++
	if m.fail != nil {
		if err := m.fail(m.deletes); err != nil {
			return nil, err
		}
	}
	answer, err := m.KVClient.DeleteRange(ctx, asked, options...)
	if err == nil && answer.Deleted > m.most {
		m.most = answer.Deleted
	}
	return answer, err
}

// inCluster returns where the orders of a server lie that runs a member itself, as far as orders know.
func (c *etcds) inCluster() (*placed, *faultyMember) {
	c.t.Helper()
	folder, path := newFolder(c.t)
	m := &faultyMember{KVClient: c.kv(0)}
	place, err := InCluster(EtcdOptions{Prefix: "dsmdb"}, folder, Embedded{KV: m, Watch: c.relayed(0).watch})
	if err != nil {
		c.t.Fatal(err)
	}
	return &placed{place, c.t, path}, m
}

// putAll puts keys, a hundred with one revision.
func (c *etcds) putAll(keys ...string) {
	c.t.Helper()
	kv := c.kv(0)
	for len(keys) > 0 {
		asked := &pb.TxnRequest{}
		for ; len(keys) > 0 && len(asked.Success) < 100; keys = keys[1:] {
			asked.Success = append(asked.Success, &pb.RequestOp{Request: &pb.RequestOp_RequestPut{RequestPut: &pb.PutRequest{
				Key: []byte(keys[0]), Value: []byte("x")}}})
		}
		if _, err := kv.Txn(within(c.t), asked); err != nil {
			c.t.Fatal(err)
		}
	}
}

// All keys of an order are deleted, batches and strangers' keys, a bounded number together, and no others.
func TestAllOfAnOrderIsDeletedInParts(t *testing.T) {
	t.Parallel()
	etcd := runEtcd(t, 1)
	of := keysOf("dsmdb", 1)
	strange := []string{"dsmdb/1/", "dsmdb/1/!", "dsmdb/1/zzz", of.from(greatest) + "-x", of.from(20_000) + "x", of.from(99_999_999_999)}
	for at := 0; at < mostDeleted+300; at++ {
		strange = append(strange, of.of(name{7777, [16]byte{14: byte(at >> 8), 15: byte(at)}}))
	}
	others := []string{"dsmdb/10/x", "dsmdb/11", "dsmdb/0/x", "dsmdb/1!", "dsmdb/1.", "dsmdb/2/x", "else/1/x"}
	etcd.fillOrder(0, 5000, "x")
	etcd.putAll(append(strange, others...)...)
	p, member := etcd.inCluster()
	p.forgets(2, "[1]")
	if found := etcd.keys("dsmdb/1/"); len(found) != 0 {
		t.Errorf("%d are left: %s ..", len(found), found[0])
	}
	if member.most > mostDeleted || member.most < mostDeleted/4 || member.deletes > 40 {
		t.Errorf("%d deletions, of at most %d keys", member.deletes, member.most)
	}
	for _, it := range others {
		etcd.value(it)
	}
	p.forgets(2, "[]")
}

// A Forget that fails has said nothing of what isn't done, and the next one does the rest.
func TestAForgetThatFailsIsGoneOnWith(t *testing.T) {
	t.Parallel()
	etcd := runEtcd(t, 1)
	etcd.fillOrder(0, 5000, "x")
	p, member := etcd.inCluster()
	p.begin(2)
	p.begin(3)
	fails := func(below uint64, want string) {
		t.Helper()
		deleted, err := p.Forget(within(t), below)
		if deleted != nil || err == nil || !strings.HasPrefix(err.Error(), want) {
			t.Errorf("%v, %v", deleted, err)
		}
	}
	fails(7, "order 7 isn't there, so no order before it is forgotten")
	fails(0, "order 0 isn't there")
	member.noSpace = true
	fails(3, "forgetting order 1: marking it as gone: etcd has no space for the mark: ")
	if found := etcd.keys("dsmdb/1/"); len(found) != 5000 {
		t.Errorf("%d keys are left, and there is no mark", len(found))
	}
	member.noSpace, member.fail = false, func(deletes int) error {
		if deletes > 1 {
			return errors.New("no answer")
		}
		return nil
	}
	fails(3, "forgetting order 1: deleting its keys: ")
	if found := len(etcd.keys("dsmdb/1/")); found == 0 || found == 5000 {
		t.Errorf("%d keys are left", found)
	}
	live := etcd.placed().opened(1, maker)
	live.untilGone()
	etcd.put("dsmdb/2", "\x00\x04")
	member.fail, member.noSpace = nil, true // whose marks are there can be deleted
	p.forgets(3, "[1 2]")
	p.forgets(3, "[]")
	if found := ordersIn(t, p.path); found != "3" {
		t.Error(found)
	}
	if p.opened(3, maker).untilEnd() != 1 {
		t.Error("order 3 isn't as it was")
	}
}

// Servers that append while their order is forgotten end since it is gone, and leave nothing behind.
func TestAnOrderIsForgottenWhileServersAppend(t *testing.T) {
	t.Parallel()
	etcd := runEtcd(t, 1)
	next := etcd.begins()
	var servers []*watched
	for count := 0; count < 3; count++ {
		w := etcd.placed().opened(1, maker)
		w.appended(fmt.Sprint("first of ", count))
		servers = append(servers, w)
	}
	over, stop := context.WithCancel(context.Background())
	var all sync.WaitGroup
	for _, w := range servers {
		all.Add(1)
		go func(w *watched) {
			defer all.Done()
			for over.Err() == nil {
				it := w.append1("text")
				w.until("appended", func() bool { return w.own[it] > 0 || w.closed })
			}
		}(w)
	}
	time.Sleep(300 * time.Millisecond)
	next.forgets(2, "[1]")
	for _, w := range servers {
		w.untilGone()
	}
	stop()
	all.Wait()
	if found := etcd.keys("dsmdb/1/"); len(found) != 0 {
		t.Errorf("%d keys are left", len(found))
	}
}

// An order is closed at once, whatever is under way, and whether etcd answers or not.
func TestAnOrderIsClosedWithAppendsOut(t *testing.T) {
	t.Parallel()
	etcd := runEtcd(t, 1)
	for _, it := range []struct {
		name    string
		happens func(r *relay)
	}{
		{"all is well", func(*relay) {}},
		{"no put is answered", func(r *relay) {
			r.does(func() {
				r.before = func(*pb.TxnRequest) error { time.Sleep(10 * time.Second); return errAway }
			})
		}},
		{"etcd stands still", func(*relay) { etcd.signal(0, syscall.SIGSTOP) }},
		{"etcd is away", func(*relay) { etcd.kill(0) }}, // the last one
	} {
		r := etcd.relayed(0)
		through, direct := etcd.placed(r.url).opened(1, maker), etcd.placed().opened(1, maker)
		through.appended("text")
		direct.appended("text")
		it.happens(r)
		for _, w := range []*watched{through, direct} {
			for count := 0; count < 2000; count++ {
				w.append1("out")
			}
			w.AskEnd()
		}
		time.Sleep(50 * time.Millisecond)
		for _, w := range []*watched{through, direct} {
			began := time.Now()
			w.Close()
			took := time.Since(began)
			t.Logf("%s: %v", it.name, took)
			if took > time.Second || w.Err() != nil {
				t.Errorf("%s: closed in %v, %v", it.name, took, w.Err())
			}
		}
		if etcd.all[0].running != nil {
			etcd.signal(0, syscall.SIGCONT)
		}
	}
}
