package order

import (
	"context"
	"errors"
	"fmt"
	"strings"
	"sync/atomic"
	"testing"

	"dsmdb/server/batch"
	pb "go.etcd.io/etcd/etcdserver/etcdserverpb"
)

// placed is where a server with a data folder of its own has its orders.
type placed struct {
	Place
	t    *testing.T
	path string // of the data folder
}

// placed returns a server's place over etcd, in front of which a relay may stand.
func (c *etcds) placed(endpoints ...string) *placed {
	c.t.Helper()
	folder, path := newFolder(c.t)
	if endpoints == nil {
		endpoints = c.endpoints()
	}
	place, err := InEtcd(EtcdOptions{Endpoints: endpoints, Prefix: "dsmdb"}, folder)
	if err != nil {
		c.t.Fatal(err)
	}
	return &placed{place, c.t, path}
}

// opened opens an order, and takes its events.
func (p *placed) opened(number uint64, of Maker) *watched {
	p.t.Helper()
	w := newWatched(p.t)
	opened, err := p.Open(number, of)
	if err != nil {
		p.t.Fatal(err)
	}
	w.follow(opened.(*Etcd))
	return w
}

// forgets forgets the orders below a number, and says which ones were deleted.
func (p *placed) forgets(below uint64, want string) {
	p.t.Helper()
	deleted, err := p.Forget(within(p.t), below)
	if err != nil || fmt.Sprint(deleted) != want {
		p.t.Errorf("%v, %v", deleted, err)
	}
}

// untilGone waits for an order to end since it is gone.
func (w *watched) untilGone() {
	w.t.Helper()
	want := "order 1 is gone: it was forgotten; `dsmdb fetch SERVER --data DIR` gets the settings of the database's present " +
		"order from a server that has them"
	if why := w.untilEnded(); why != want || !errors.Is(w.Err(), ErrGone) || errors.Is(w.Err(), errPast) {
		w.t.Errorf("ended since %s", why)
	}
	w.sound()
}

// begin begins an order, so that those before may be forgotten.
func (p *placed) begin(number uint64) {
	p.t.Helper()
	w := p.opened(number, maker)
	defer w.Close()
	w.appended(fmt.Sprint("of order ", number))
}

// begins begins order 2 at another server.
func (c *etcds) begins() *placed {
	c.t.Helper()
	p := c.placed()
	p.begin(2)
	return p
}

// An order that is forgotten ends with the same words at all servers, whatever they have read of it, and isn't begun again.
func TestAForgottenOrderEndsEverywhere(t *testing.T) {
	t.Parallel()
	etcd := runEtcd(t, 1)
	before, other := etcd.placed(), etcd.placed()
	live, down := before.opened(1, maker), other.opened(1, maker)
	live.appended("1", "2", "3", "4")
	down.untilEnd()
	down.Close()
	next := etcd.begins()
	next.forgets(2, "[1]")
	live.untilGone()
	for _, it := range []struct {
		at   *placed
		read string // from the journal
	}{{other, "[1 2 3 4]"}, {etcd.placed(), "[]"}} {
		w := it.at.opened(1, maker)
		w.untilGone()
		if w.begun != 0 || fmt.Sprint(w.read()) != it.read {
			t.Errorf("begun %d, %v", w.begun, w.read())
		}
	}
	if found := etcd.keys("dsmdb/1/"); len(found) != 0 || etcd.value("dsmdb/1") != "\x00\x04" {
		t.Errorf("%v", found)
	}
	next.forgets(2, "[]")
	other.forgets(2, "[1]") // its journal
	other.forgets(2, "[]")
	if found := ordersIn(t, other.path); found != "" {
		t.Error(found)
	}
	if w := other.opened(2, maker); w.untilEnd() != 1 || fmt.Sprint(w.read()) != "[of order 2]" {
		t.Errorf("%v", w.read())
	}
}

// cutOff is a relay that can be away for all but the puts of its server.
func (c *etcds) cutOff() (r *relay, away *atomic.Bool) {
	r, away = c.relayed(0), &atomic.Bool{}
	fails := func() error {
		if away.Load() {
			return errAway
		}
		return nil
	}
	r.read = func(*pb.TxnResponse) error { return fails() }
	r.ranged = func(*pb.RangeRequest, *pb.RangeResponse) error { return fails() }
	r.told = func(answer *pb.WatchResponse) ([]*pb.WatchResponse, error) {
		return []*pb.WatchResponse{answer}, fails()
	}
	return r, away
}

// A server that was away while its order was marked and deleted puts nothing behind the mark: neither a batch that it held
// back, nor once more one whose answer was lost.
func TestAPutBehindTheMarkBeginsNothing(t *testing.T) {
	t.Parallel()
	etcd := runEtcd(t, 1)
	next := etcd.begins()
	for round, lost := range []bool{false, true} {
		r, away := etcd.cutOff()
		var asked atomic.Int64
		held := make(chan struct{})
		r.before = func(*pb.TxnRequest) error {
			if away.Load() && (!lost || asked.Load() > 0) {
				asked.Add(1)
				<-held
			}
			return nil
		}
		r.txn = func(*pb.TxnRequest, *pb.TxnResponse) error {
			if away.Load() && lost && asked.Add(1) == 1 {
				return errAway
			}
			return nil
		}
		number := uint64(round + 1)
		w := etcd.placed(r.url).opened(number, maker)
		w.appended("1")
		away.Store(true)
		late := w.append1("late")
		w.until("under way", func() bool { return asked.Load() > 0 })
		next.begin(number + 1)
		next.forgets(number+1, fmt.Sprint([]uint64{number}))
		close(held)
		why := w.untilEnded()
		if !errors.Is(w.Err(), ErrGone) || !strings.HasPrefix(why, fmt.Sprintf("order %d is gone", number)) || w.own[late] != 0 {
			t.Errorf("lost %v: %s, at %d", lost, why, w.own[late])
		}
		if found := etcd.keys(fmt.Sprintf("dsmdb/%d/", number)); len(found) != 0 {
			t.Errorf("lost %v: %v", lost, found)
		}
	}
}

// A server that runs, and was cut off until all is deleted and compacted, lists an empty order, and isn't told of a changed
// past.
func TestAServerThatWasCutOffIsToldThatItsOrderIsGone(t *testing.T) {
	t.Parallel()
	etcd := runEtcd(t, 1)
	r, away := etcd.cutOff()
	w := etcd.placed(r.url).opened(1, maker)
	w.appended("1", "2")
	away.Store(true)
	etcd.placed().opened(1, maker).appended("3")
	etcd.begins().forgets(2, "[1]")
	found, err := etcd.kv(0).Range(within(t), &pb.RangeRequest{Key: []byte("dsmdb/1")})
	if err == nil {
		_, err = etcd.kv(0).Compact(within(t), &pb.CompactionRequest{Revision: found.Header.Revision, Physical: true})
	}
	if err != nil {
		t.Fatal(err)
	}
	away.Store(false)
	w.untilGone()
	if fmt.Sprint(w.read()) != "[1 2]" {
		t.Errorf("%v", w.read())
	}
}

// An order of which some is deleted isn't read as a shorter one, nor goes on behind what was counted before.
func TestAHalfForgottenOrderIsGone(t *testing.T) {
	t.Parallel()
	etcd := runEtcd(t, 1)
	behind := etcd.placed()
	w := behind.opened(1, maker)
	w.appended("1", "2")
	w.Close()
	live := etcd.placed().opened(1, maker)
	live.appended("3", "4", "5", "6")
	keys := etcd.keys("dsmdb/1/")
	etcd.put("dsmdb/1", "\x00\x04")
	for _, at := range []int{2, 0} {
		etcd.remove(keys[at])
	}
	live.untilGone()
	for at, read := range map[*placed]string{behind: "[1 2]", etcd.placed(): "[]"} {
		w := at.opened(1, maker)
		w.untilGone()
		if w.begun != 0 || fmt.Sprint(w.read()) != read {
			t.Errorf("begun %d, %v", w.begun, w.read())
		}
	}
	next := etcd.begins()
	next.forgets(2, "[1]")
	next.forgets(2, "[]")
	if found := etcd.keys("dsmdb/1/"); len(found) != 0 {
		t.Errorf("%v", found)
	}
}

// What is listed at one revision is whole, whatever is deleted meanwhile.
func TestAnOrderThatIsForgottenWhileItIsListedIsWhole(t *testing.T) {
	t.Parallel()
	etcd := runEtcd(t, 1)
	const batches = 1200 // more than a page
	etcd.fillOrder(0, batches, "x")
	next, r := etcd.begins(), etcd.relayed(0)
	var pages atomic.Int64
	r.ranged = func(asked *pb.RangeRequest, _ *pb.RangeResponse) error {
		if asked.KeysOnly && pages.Add(1) == 1 {
			next.forgets(2, "[1]")
		}
		return nil
	}
	w := etcd.placed(r.url).opened(1, maker)
	w.untilGone()
	if w.begun != 1 || len(w.read()) != batches || pages.Load() < 3 {
		t.Errorf("begun %d, %d strings, %d pages", w.begun, len(w.read()), pages.Load())
	}
}

// A key that doesn't count may be the first that is deleted of an order that is gone.
func TestADeletedKeyThatDoesNotCountTellsOfTheMark(t *testing.T) {
	t.Parallel()
	etcd := runEtcd(t, 1)
	r := etcd.relayed(0)
	r.read = func(*pb.TxnResponse) error { return errAway } // a question for the end would be told, too
	live := etcd.placed(r.url).opened(1, maker)
	live.appended("1")
	for _, it := range []string{"dsmdb/1/a", "dsmdb/1/b"} {
		etcd.put(it, "a stranger's")
	}
	etcd.remove("dsmdb/1/a")
	live.appended("2")
	etcd.put("dsmdb/1", "\x00\x04")
	etcd.remove("dsmdb/1/b")
	live.untilGone()
}

// What stands under the key of the mark and is none keeps batches out, too, so that is told.
func TestAKeyInPlaceOfTheMarkIsTold(t *testing.T) {
	t.Parallel()
	etcd := runEtcd(t, 1)
	live := etcd.placed().opened(1, maker)
	live.appended("1")
	etcd.put("dsmdb/1", "mine")
	live.append1("2")
	want := "dsmdb/1 is there, and doesn't say that order 1 is gone: nothing can be appended until a person deletes that key"
	if why := live.untilEnded(); why != want || errors.Is(live.Err(), ErrGone) {
		t.Error(why)
	}
	etcd.remove("dsmdb/1")
	again := etcd.placed().opened(1, maker)
	again.appended("3")
	if found := fmt.Sprint(again.read()); found != "[1 3]" {
		t.Error(found)
	}
}

// A server that is behind and asks for the end isn't told of what it has read so far: the keys behind are deleted, and
// their number says nothing.
func TestTheEndOfAForgottenOrderIsNotTold(t *testing.T) {
	t.Parallel()
	for _, full := range []bool{false, true} {
		full := full
		t.Run(fmt.Sprintf("full %v", full), func(t *testing.T) {
			t.Parallel()
			etcd := runEtcd(t, 1)
			r := etcd.relayed(0)
			var silent atomic.Bool
			held := make(chan struct{})
			t.Cleanup(func() { close(held) })
			r.told = func(answer *pb.WatchResponse) ([]*pb.WatchResponse, error) {
				if silent.Load() {
					<-held
				}
				return []*pb.WatchResponse{answer}, nil
			}
			r.ranged = func(asked *pb.RangeRequest, _ *pb.RangeResponse) error {
				if silent.Load() && asked.KeysOnly {
					return errAway
				}
				return nil
			}
			r.read = func(*pb.TxnResponse) error {
				if full { // as an older version of etcd without space answers
					return errors.New("etcdserver: mvcc: database space exceeded")
				}
				return nil
			}
			behind := etcd.placed(r.url).opened(1, maker)
			behind.appended("1")
			if behind.untilEnd() != 1 {
				t.Error("another end")
			}
			silent.Store(true)
			live := etcd.placed().opened(1, maker)
			live.appended("2", "3")
			etcd.begins().forgets(2, "[1]")
			question := behind.AskEnd()
			behind.untilGone()
			if behind.end.Question >= question || fmt.Sprint(behind.read()) != "[1]" {
				t.Errorf("the end is told: %v", behind.end)
			}
		})
	}
}

// The database of a new order is the one that its server knows. A first batch of another takes no place.
func TestTheIdentityOfADatabaseIsHandedOnInEtcd(t *testing.T) {
	t.Parallel()
	etcd := runEtcd(t, 1)
	p := etcd.placed()
	first := p.opened(1, maker)
	first.appended("1")
	known, other := maker, maker
	known.Database, other.Database = first.headers[0].Database, batch.ID{8}
	r := etcd.relayed(0)
	var broken atomic.Int64
	r.told = func(answer *pb.WatchResponse) ([]*pb.WatchResponse, error) {
		if len(answer.Events) > 0 && broken.Add(1) == 1 {
			return nil, errAway // so the stranger's batch is listed
		}
		return []*pb.WatchResponse{answer}, nil
	}
	ours := etcd.placed(r.url).opened(2, known)
	ours.untilBegun()
	foreign := keysOf("dsmdb", 2).of(name{})
	etcd.put(foreign, batchOf(9, nil, foreign, "a stranger's"))
	ours.until("listed again", func() bool { return ours.Strangers() > 0 })
	ours.appended("2", "3")
	knows, doesNot := etcd.placed().opened(2, known), etcd.placed().opened(2, maker)
	alike(ours, knows)
	doesNot.untilEnd()
	if fmt.Sprint(ours.read(), doesNot.read()) != "[2 3] [a stranger's]" || knows.headers[0].Database != known.Database {
		t.Errorf("%v, %v", ours.read(), doesNot.read())
	}
	again := etcd.placed().opened(1, known)
	alike(first, again)

	// an order of another database alone
	want := "the batches that stand in dsmdb/1/ are of another database"
	w := etcd.placed().opened(1, other)
	if why := w.untilEnded(); why != want || w.begun != 0 {
		t.Error(why)
	}
	first.Close()
	w = p.opened(1, other)
	if why := w.untilEnded(); !strings.HasSuffix(why, "no batch of the order: it is of another database") || len(w.read()) != 0 {
		t.Error(why)
	}
}

func TestPlacesThatCannotBeAreRefused(t *testing.T) {
	t.Parallel()
	folder, _ := newFolder(t)
	if _, err := InEtcd(EtcdOptions{Prefix: "dsmdb"}, folder); err == nil {
		t.Error("an etcd nowhere")
	}
	if _, err := InCluster(EtcdOptions{}, folder, Embedded{}); err == nil {
		t.Error("no prefix")
	}
	place, err := InEtcd(EtcdOptions{Endpoints: []string{"http://127.0.0.1:1"}, Prefix: "dsmdb"}, folder)
	if err != nil {
		t.Fatal(err)
	}
	if _, err := place.Open(0, maker); err == nil {
		t.Error("there is an order 0")
	}
	if _, err := place.Forget(context.Background(), 2); err == nil || !strings.HasPrefix(err.Error(), "asking etcd for order 2: 127.0.0.1:1: ") {
		t.Errorf("%v", err)
	}
}
