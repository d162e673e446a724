package order

import (
	"context"
	"fmt"
	"math"
	"net"
	"strings"
	"sync"
	"sync/atomic"
	"testing"

	pb "go.etcd.io/etcd/etcdserver/etcdserverpb"
	"google.golang.org/grpc"
	"google.golang.org/grpc/codes"
	"google.golang.org/grpc/status"
)

// relay stands before a member of etcd, and does to requests and answers what a test wants.
type relay struct {
	pb.KVServer
	url   string
	kv    pb.KVClient
	watch pb.WatchClient

	mutex  sync.Mutex
	txn    func(asked *pb.TxnRequest, answer *pb.TxnResponse) error     // after etcd has answered one that puts
	before func(asked *pb.TxnRequest) error                             // before etcd is asked for one that puts
	read   func(answer *pb.TxnResponse) error                           // after etcd has answered one that only reads
	ranged func(asked *pb.RangeRequest, answer *pb.RangeResponse) error // after
	told   func(answer *pb.WatchResponse) ([]*pb.WatchResponse, error)
	opened func() // before a watch is opened
}

var errAway = status.Error(codes.Unavailable, "the relay is away")

// relayed starts a relay before a member.
func (c *etcds) relayed(at int) *relay {
	c.t.Helper()
	conn, err := grpc.Dial(fmt.Sprintf("127.0.0.1:%d", c.all[at].client), grpc.WithInsecure(),
		grpc.WithDefaultCallOptions(grpc.MaxCallRecvMsgSize(math.MaxInt32)))
	if err != nil {
		c.t.Fatal(err)
	}
	listener, err := net.Listen("tcp", "127.0.0.1:0")
	if err != nil {
		c.t.Fatal(err)
	}
	r := &relay{url: "http://" + listener.Addr().String(), kv: pb.NewKVClient(conn), watch: pb.NewWatchClient(conn)}
	server := grpc.NewServer(grpc.MaxRecvMsgSize(math.MaxInt32), grpc.MaxSendMsgSize(math.MaxInt32))
	pb.RegisterKVServer(server, r)
	pb.RegisterWatchServer(server, r)
	go server.Serve(listener)
	c.t.Cleanup(func() {
		server.Stop()
		conn.Close()
	})
	return r
}

// does has a relay change what it does.
func (r *relay) does(change func()) {
	r.mutex.Lock()
	defer r.mutex.Unlock()
	change()
}

func (r *relay) hooks() relay {
	r.mutex.Lock()
	defer r.mutex.Unlock()
	return relay{txn: r.txn, before: r.before, read: r.read, ranged: r.ranged, told: r.told, opened: r.opened}
}

func (r *relay) Range(ctx context.Context, asked *pb.RangeRequest) (*pb.RangeResponse, error) {
	answer, err := r.kv.Range(ctx, asked)
	if hook := r.hooks().ranged; err == nil && hook != nil {
		err = hook(asked, answer)
	}
	return answer, err
}

func (r *relay) Txn(ctx context.Context, asked *pb.TxnRequest) (*pb.TxnResponse, error) {
	hooks := r.hooks()
	if asked.Success[0].GetRequestPut() == nil {
		answer, err := r.kv.Txn(ctx, asked)
		if err == nil && hooks.read != nil {
			err = hooks.read(answer)
		}
		return answer, err
	}
	if hooks.before != nil {
		if err := hooks.before(asked); err != nil {
			return nil, err
		}
	}
	answer, err := r.kv.Txn(ctx, asked)
	if err == nil && hooks.txn != nil {
		err = hooks.txn(asked, answer)
	}
	return answer, err
}

func (r *relay) Watch(server pb.Watch_WatchServer) error {
	if hook := r.hooks().opened; hook != nil {
		hook()
	}
	client, err := r.watch.Watch(server.Context())
	if err != nil {
		return err
	}
	go func() {
		for {
			asked, err := server.Recv()
			if err != nil {
				return
			}
			client.Send(asked)
		}
	}()
	for silent := false; ; {
		answer, err := client.Recv()
		if err != nil {
			return err
		}
		if silent {
			continue
		}
		all := []*pb.WatchResponse{answer}
		if hook := r.hooks().told; hook != nil {
			if all, err = hook(answer); err != nil {
				return err
			}
			silent = len(all) == 0 // for good: etcd leaves nothing out
		}
		for _, it := range all {
			if err := server.Send(it); err != nil {
				return err
			}
		}
	}
}

func TestLostAnswersDoNoHarm(t *testing.T) {
	t.Parallel()
	etcd := runEtcd(t, 1)
	near, far := etcd.relayed(0), etcd.relayed(0)
	var mutex sync.Mutex
	lost, number := 0, 0
	for _, it := range []*relay{near, far} {
		it.does(func() {
			it.txn = func(*pb.TxnRequest, *pb.TxnResponse) error {
				mutex.Lock()
				defer mutex.Unlock()
				if number++; number%3 != 0 {
					lost++
					return errAway
				}
				return nil
			}
			it.before = func(*pb.TxnRequest) error {
				mutex.Lock()
				defer mutex.Unlock()
				if number%7 == 6 {
					number++
					lost++
					return errAway
				}
				return nil
			}
		})
	}
	one := etcd.opened(func(o *EtcdOptions) { o.Endpoints = []string{near.url, far.url} })
	other := etcd.opened(nil)
	texts := manyCallers(6, 15, one, other)
	alike(one, other)
	if found := one.read(); len(found) != len(texts) {
		t.Errorf("%d strings of %d", len(found), len(texts))
	}
	for _, it := range one.read() {
		delete(texts, it)
	}
	if len(texts) > 0 || lost < 20 {
		t.Errorf("%v aren't there, %d answers were lost", texts, lost)
	}
}

// A string that isn't wanted any more after a lost answer is settled by a batch under the same key: it stands in the
// order if it was put, and is dropped if not.
func TestWhatIsNotWantedAfterALostAnswerIsSettled(t *testing.T) {
	t.Parallel()
	for _, put := range []bool{true, false} {
		t.Run(fmt.Sprintf("put %v", put), func(t *testing.T) {
			etcd := runEtcd(t, 1)
			relay, tries := etcd.relayed(0), 0
			lose := func() error {
				if tries++; tries == 1 {
					return errAway
				}
				return nil
			}
			// the watch says nothing before the next try
			held := make(chan struct{})
			relay.told = func(answer *pb.WatchResponse) ([]*pb.WatchResponse, error) {
				if len(answer.Events) > 0 {
					<-held
				}
				return []*pb.WatchResponse{answer}, nil
			}
			if put {
				relay.txn = func(*pb.TxnRequest, *pb.TxnResponse) error { return lose() }
			} else {
				relay.before = func(*pb.TxnRequest) error { return lose() }
			}
			w := etcd.opened(func(o *EtcdOptions) { o.Endpoints = []string{relay.url} })
			w.untilBegun()
			var asked atomic.Int64
			leaves := &String{Text: []byte("leaves"), For: wanted(func() bool { return asked.Add(1) == 1 })}
			stays := &String{Text: []byte("stays")}
			w.Append([]*String{leaves, stays})
			w.until("second try", func() bool { return asked.Load() == 2 })
			close(held)
			w.until("settled", func() bool { return w.own[stays] > 0 })
			w.untilEnd()
			if w.dropped[leaves] == put || w.own[leaves] > 0 != put {
				t.Errorf("dropped %v, own %d", w.dropped[leaves], w.own[leaves])
			}
			if want := map[bool]string{true: "[leaves stays]", false: "[stays]"}[put]; fmt.Sprint(w.read()) != want {
				t.Errorf("%v", w.read())
			}
			w.sound()
		})
	}
}

func TestEventsThatComeAgainArePassedOver(t *testing.T) {
	t.Parallel()
	etcd := runEtcd(t, 1)
	relay := etcd.relayed(0)
	again, all := 0, []*pb.WatchResponse(nil)
	relay.told = func(answer *pb.WatchResponse) ([]*pb.WatchResponse, error) {
		if len(answer.Events) == 0 {
			return []*pb.WatchResponse{answer}, nil
		}
		again += len(all)
		all = append(all, answer)
		return append([]*pb.WatchResponse{answer}, all...), nil
	}
	w := etcd.opened(func(o *EtcdOptions) { o.Endpoints = []string{relay.url} })
	w.appended("1", "2", "3", "4", "5")
	w.untilEnd()
	if w.sound(); fmt.Sprint(w.read()) != "[1 2 3 4 5]" || again < 10 {
		t.Errorf("%v, %d came again", w.read(), again)
	}
}

func TestAWatchThatBreaksIsMadeAgain(t *testing.T) {
	t.Parallel()
	etcd := runEtcd(t, 1)
	relay := etcd.relayed(0)
	var number atomic.Int64
	relay.told = func(answer *pb.WatchResponse) ([]*pb.WatchResponse, error) {
		if number.Add(1)%4 == 0 && len(answer.Events) > 0 {
			return nil, errAway
		}
		return []*pb.WatchResponse{answer}, nil
	}
	one := etcd.opened(func(o *EtcdOptions) { o.Endpoints = []string{relay.url} })
	other := etcd.opened(nil)
	texts := manyCallers(4, 10, one, other)
	alike(one, other)
	if found := one.read(); len(found) != len(texts) || number.Load() < 8 {
		t.Errorf("%d strings of %d, %d answers", len(found), len(texts), number.Load())
	}
}

// What a listing or a watch goes on from may be compacted meanwhile: then the order is listed again.
func TestACompactionHasTheOrderListedAgain(t *testing.T) {
	t.Parallel()
	etcd := runEtcd(t, 1)
	const batches = 1200 // more than a page
	etcd.fillOrder(0, batches, "x")
	relay := etcd.relayed(0)
	compact := func() {
		etcd.put("else", "x")
		answer, err := etcd.kv(0).Range(within(t), &pb.RangeRequest{Key: []byte("else")})
		if err == nil {
			_, err = etcd.kv(0).Compact(within(t), &pb.CompactionRequest{Revision: answer.Header.Revision, Physical: true})
		}
		if err != nil {
			t.Error(err)
		}
	}
	var pages, watches atomic.Int64
	relay.ranged = func(asked *pb.RangeRequest, answer *pb.RangeResponse) error {
		if asked.KeysOnly && answer.More && pages.Add(1) <= 2 {
			compact()
		}
		return nil
	}
	relay.opened = func() {
		if watches.Add(1) == 1 {
			compact()
			compact()
		}
	}
	w := etcd.opened(func(o *EtcdOptions) { o.Endpoints = []string{relay.url} })
	w.appended("more")
	w.untilEnd()
	if w.sound(); len(w.read()) != batches+1 || pages.Load() < 3 || watches.Load() < 2 {
		t.Errorf("%d strings, %d pages, %d watches", len(w.read()), pages.Load(), watches.Load())
	}
}

// A watch that says nothing any more is found by etcd's count.
func TestAWatchThatFallsSilentIsMadeAgain(t *testing.T) {
	t.Parallel()
	etcd := runEtcd(t, 1)
	relay := etcd.relayed(0)
	silent := make(chan struct{})
	relay.told = func(answer *pb.WatchResponse) ([]*pb.WatchResponse, error) {
		if len(answer.Events) > 0 {
			select {
			case <-silent:
			default:
				close(silent)
				return nil, nil // all of it is left out
			}
		}
		return []*pb.WatchResponse{answer}, nil
	}
	isSilent := func() bool {
		select {
		case <-silent:
			return true
		default:
			return false
		}
	}
	w := etcd.opened(func(o *EtcdOptions) { o.Endpoints = []string{relay.url} })
	w.untilBegun()
	count := uint64(0)
	for !isSilent() { // a listing may have the first strings
		it := w.append1(fmt.Sprint(count))
		w.until("told or left out", func() bool { return w.own[it] > 0 || isSilent() })
		count++
	}
	if end := w.untilEnd(); end != count {
		t.Errorf("the end is at %d of %d", end, count)
	}
	w.sound()
}

func TestADamagedCopyAtOneMemberIsReadElsewhere(t *testing.T) {
	t.Parallel()
	etcd := runEtcd(t, 1)
	damaged, whole := etcd.relayed(0), etcd.relayed(0)
	flip := func(value []byte) {
		if len(value) > 5 && value[len(value)-1] == 'x' {
			value[2] ^= 1
		}
	}
	damaged.ranged = func(_ *pb.RangeRequest, answer *pb.RangeResponse) error {
		for _, it := range answer.Kvs {
			flip(it.Value)
		}
		return nil
	}
	damaged.told = func(answer *pb.WatchResponse) ([]*pb.WatchResponse, error) {
		for _, it := range answer.Events {
			flip(it.Kv.Value)
		}
		return []*pb.WatchResponse{answer}, nil
	}
	live := etcd.opened(func(o *EtcdOptions) { o.Endpoints = []string{damaged.url, whole.url} })
	live.appended("1x", "2", "3x")
	later := etcd.opened(func(o *EtcdOptions) { o.Endpoints = []string{damaged.url, whole.url} })
	alike(live, later)
	if fmt.Sprint(later.read()) != "[1x 2 3x]" || strings.Count(strings.Join(later.said, " "), "damaged copy") != 2 || live.Strangers()+later.Strangers() != 0 {
		t.Errorf("%v, %v", later.read(), later.said)
	}
	alone := etcd.opened(func(o *EtcdOptions) { o.Endpoints = []string{damaged.url} })
	alone.untilBegun()
	if found := alone.read(); len(found) != 0 { // behind a hole nothing counts
		t.Errorf("%v", found)
	}
}
