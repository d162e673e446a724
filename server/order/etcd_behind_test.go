package order

import (
	"fmt"
	"os"
	"sync"
	"sync/atomic"
	"syscall"
	"testing"

	pb "go.etcd.io/etcd/etcdserver/etcdserverpb"
)

// A member that was behind for long is given all keys at once by the leader, and tells its watches old events again.
func TestAMemberThatWasFarBehindTellsTheOrderAlike(t *testing.T) {
	if os.Getenv("DSMDB_LONG") == "" {
		t.Skip("DSMDB_LONG isn't set")
	}
	etcd := runEtcd(t, 3, "--snapshot-count", "500")
	relay := etcd.relayed(2)
	var again atomic.Int64
	latest := int64(0)
	relay.told = func(answer *pb.WatchResponse) ([]*pb.WatchResponse, error) {
		for _, it := range answer.Events {
			if it.Kv.ModRevision <= latest {
				again.Add(1)
			} else {
				latest = it.Kv.ModRevision
			}
		}
		return []*pb.WatchResponse{answer}, nil
	}
	behind := etcd.opened(func(o *EtcdOptions) { o.Endpoints = []string{relay.url} })
	ahead := etcd.opened(func(o *EtcdOptions) { o.Endpoints = etcd.endpoints()[:2] })
	for at := 0; at < 300; at++ {
		ahead.appended(fmt.Sprint(at))
	}
	behind.untilEnd()
	for round := 0; round < 3; round++ {
		etcd.signal(2, syscall.SIGSTOP)
		etcd.fill(9000)
		ahead.appended(fmt.Sprint("round ", round))
		etcd.signal(2, syscall.SIGCONT)
		alike(ahead, behind)
	}
	if again.Load() == 0 {
		t.Error("no event was told again: the leader had kept what the member wanted")
	}
	t.Logf("%d events were told again", again.Load())
}

// fill puts a key of somebody else's again and again.
func (c *etcds) fill(count int) {
	c.t.Helper()
	kv := c.kv(0)
	var all sync.WaitGroup
	for worker := 0; worker < 30; worker++ {
		all.Add(1)
		go func(worker int) {
			defer all.Done()
			for at, failures := 0, 0; at < count/30 && failures < 10; at++ {
				asked := &pb.PutRequest{Key: []byte(fmt.Sprint("else/", worker)), Value: []byte("x")}
				if _, err := kv.Put(within(c.t), asked); err != nil {
					failures++ // the member that was stopped may have led
				}
			}
		}(worker)
	}
	all.Wait()
}
