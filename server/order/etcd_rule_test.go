package order

import (
	"context"
	"errors"
	"fmt"
	"io"
	"math/rand"
	"reflect"
	"sort"
	"sync"
	"testing"
	"time"

	"dsmdb/server/batch"
	pb "go.etcd.io/etcd/etcdserver/etcdserverpb"
	"go.etcd.io/etcd/mvcc/mvccpb"
	"google.golang.org/grpc"
)

// memoryEtcd is as much of etcd as an order's reader wants, in memory. Nothing is deleted.
type memoryEtcd struct {
	pb.KVClient
	mutex    sync.Mutex
	more     sync.Cond
	kvs      []*mvccpb.KeyValue // by key
	events   []*mvccpb.Event
	revision int64
	breaks   *rand.Rand
	broken   int
}

func newMemoryEtcd(seed int64) *memoryEtcd {
	m := &memoryEtcd{breaks: rand.New(rand.NewSource(seed)), revision: 1}
	m.more.L = &m.mutex
	return m
}

// put puts keys with one revision.
func (m *memoryEtcd) put(some ...*mvccpb.KeyValue) {
	m.mutex.Lock()
	defer m.mutex.Unlock()
	m.revision++
	for _, it := range some {
		it.CreateRevision, it.ModRevision, it.Version = m.revision, m.revision, 1
		at := sort.Search(len(m.kvs), func(at int) bool { return string(m.kvs[at].Key) >= string(it.Key) })
		m.kvs = append(m.kvs, nil)
		copy(m.kvs[at+1:], m.kvs[at:])
		m.kvs[at] = it
		m.events = append(m.events, &mvccpb.Event{Kv: it})
	}
	m.more.Broadcast()
}

func (m *memoryEtcd) Range(_ context.Context, asked *pb.RangeRequest, _ ...grpc.CallOption) (*pb.RangeResponse, error) {
	m.mutex.Lock()
	defer m.mutex.Unlock()
	if m.breaks.Intn(50) == 0 {
		return nil, errors.New("no answer")
	}
	answer := &pb.RangeResponse{Header: &pb.ResponseHeader{Revision: m.revision}}
	at := sort.Search(len(m.kvs), func(at int) bool { return string(m.kvs[at].Key) >= string(asked.Key) })
	for ; at < len(m.kvs); at++ {
		it := m.kvs[at]
		if end := string(asked.RangeEnd); end == "" && string(it.Key) != string(asked.Key) || end != "" && string(it.Key) >= end {
			break
		}
		if asked.Revision > 0 && it.CreateRevision > asked.Revision {
			continue
		}
		answer.Count++
		if asked.CountOnly {
			continue
		}
		if asked.Limit > 0 && int64(len(answer.Kvs)) == asked.Limit {
			answer.More = true
			break
		}
		copied := *it
		if asked.KeysOnly {
			copied.Value = nil
		}
		answer.Kvs = append(answer.Kvs, &copied)
	}
	return answer, nil
}

// Txn answers a transaction that only reads, where nothing is compared.
func (m *memoryEtcd) Txn(ctx context.Context, asked *pb.TxnRequest, _ ...grpc.CallOption) (*pb.TxnResponse, error) {
	answer := &pb.TxnResponse{Succeeded: true}
	for _, it := range asked.Success {
		found, err := m.Range(ctx, it.GetRequestRange())
		if err != nil {
			return nil, err
		}
		if answer.Header == nil {
			answer.Header = found.Header
		}
		answer.Responses = append(answer.Responses, &pb.ResponseOp{
			Response: &pb.ResponseOp_ResponseRange{ResponseRange: found}})
	}
	return answer, nil
}

// memoryStream is a watch, which ends now and then.
type memoryStream struct {
	grpc.ClientStream
	etcd *memoryEtcd
	ctx  context.Context
	at   int // of the events
}

func (m *memoryEtcd) Watch(ctx context.Context, _ ...grpc.CallOption) (pb.Watch_WatchClient, error) {
	go func() {
		<-ctx.Done()
		m.mutex.Lock()
		m.more.Broadcast()
		m.mutex.Unlock()
	}()
	return &memoryStream{etcd: m, ctx: ctx}, nil
}

func (s *memoryStream) Send(asked *pb.WatchRequest) error {
	s.etcd.mutex.Lock()
	defer s.etcd.mutex.Unlock()
	for s.at < len(s.etcd.events) && s.etcd.events[s.at].Kv.ModRevision < asked.GetCreateRequest().StartRevision {
		s.at++
	}
	return nil
}

func (s *memoryStream) Recv() (*pb.WatchResponse, error) {
	m := s.etcd
	m.mutex.Lock()
	defer m.mutex.Unlock()
	for s.at == len(m.events) && s.ctx.Err() == nil {
		m.more.Wait()
	}
	if s.ctx.Err() != nil {
		return nil, s.ctx.Err()
	}
	if m.breaks.Intn(4) == 0 {
		m.broken++
		return nil, io.EOF
	}
	end := s.at + 1 + m.breaks.Intn(300)
	for end < len(m.events) && m.events[end].Kv.ModRevision == m.events[end-1].Kv.ModRevision {
		end++ // all of a revision come together
	}
	if end > len(m.events) {
		end = len(m.events)
	}
	answer := &pb.WatchResponse{Events: append([]*mvccpb.Event(nil), m.events[s.at:end]...)}
	s.at = end
	return answer, nil
}

// opened opens an order over the etcd in memory, with a journal of its own or one that there is.
func (m *memoryEtcd) opened(t *testing.T, journal string) *watched {
	t.Helper()
	w := newWatched(t)
	options := EtcdOptions{Prefix: "dsmdb", Number: 1, Maker: maker, Journal: journal}
	opened, err := OpenEmbedded(options, Embedded{KV: m, Watch: m})
	if err != nil {
		t.Fatal(err)
	}
	w.follow(opened)
	return w
}

// drawn draws keys one behind the other, most of which may count, and says by the words of the rule which do.
type drawn struct {
	random  *rand.Rand
	counted int64
	strings []string
	met     map[string]int
}

func (d *drawn) next(number int) *mvccpb.KeyValue {
	hint, kind := d.counted-int64(d.random.Intn(4)), "near"
	switch d.random.Intn(12) {
	case 0:
		hint, kind = d.counted-window+int64(d.random.Intn(5))-2, "edge"
	case 1:
		hint, kind = d.counted+int64(d.random.Intn(3)), "ahead"
	case 2:
		hint, kind = d.counted-int64(d.random.Intn(2*window)), "anywhere"
	}
	if hint < 0 {
		hint = 0
	}
	found := name{hint: uint64(hint)}
	d.random.Read(found.random[:])
	key, text := keysOf("dsmdb", 1).of(found), fmt.Sprint(number)
	value := batchOf(1, nil, key, text)
	if kind == "near" && d.counted > 0 && d.random.Intn(20) == 0 {
		value, kind = batchOf(2, nil, key, text), "another database"
	}
	return &mvccpb.KeyValue{Key: []byte(key), Value: []byte(value), Lease: int64(len(kind)) << 32}
}

// count counts keys of one revision, by the words of the rule.
func (d *drawn) count(some []*mvccpb.KeyValue) {
	sorted := append([]*mvccpb.KeyValue(nil), some...)
	sort.Slice(sorted, func(i, j int) bool { return string(sorted[i].Key) < string(sorted[j].Key) })
	for _, it := range sorted {
		found, _ := nameOf(string(it.Key)[len("dsmdb/1/"):])
		read, err := batch.Read(it.Value)
		counts := err == nil && read.Database == batch.ID{1} &&
			d.counted-window <= int64(found.hint) && int64(found.hint) <= d.counted
		if counts {
			d.counted++
			d.strings = append(d.strings, string(read.Strings[0]))
		}
		d.met[fmt.Sprintf("%d %v", it.Lease>>32, counts)]++
		it.Lease = 0
	}
}

// Readers that begin anywhere, whose watches and requests break, and who list from wherever they had come to, agree with
// the words of the rule.
func TestAllReadersCountAlike(t *testing.T) {
	t.Parallel()
	seed := time.Now().UnixNano()
	t.Logf("seed %d", seed)
	etcd, random := newMemoryEtcd(seed), rand.New(rand.NewSource(seed+1))
	d := &drawn{random: random, met: map[string]int{}}
	journal := t.TempDir()
	live, restarted := etcd.opened(t, t.TempDir()), etcd.opened(t, journal)
	restarts := 0
	for number := 0; number < 3*window; {
		var some []*mvccpb.KeyValue
		for count := 1 + random.Intn(random.Intn(5)+1); count > 0; count-- {
			some = append(some, d.next(number))
			number++
		}
		d.count(some)
		etcd.put(some...)
		if random.Intn(700) == 0 {
			restarted.until("some", func() bool { return len(restarted.strings) > len(d.strings)*9/10 })
			restarted.Close()
			restarted = etcd.opened(t, journal)
			restarts++
		}
	}
	fresh := etcd.opened(t, t.TempDir())
	for _, w := range []*watched{live, restarted, fresh} {
		if w.untilEnd(); !reflect.DeepEqual(w.read(), d.strings) {
			t.Errorf("%d strings, and by the rule %d", len(w.read()), len(d.strings))
		}
		w.sound()
	}
	for _, it := range []string{"4 true", "4 false", "5 false", "8 true", "8 false", "16 false"} {
		if d.met[it] < 20 {
			t.Errorf("%d met of %s: %v", d.met[it], it, d.met)
		}
	}
	if restarts < 1 || etcd.broken < 1 { // some eight of each are expected
		t.Errorf("%d restarts, %d broken watches", restarts, etcd.broken)
	}
}

func TestNamesAreReadAsTheyAreWritten(t *testing.T) {
	for _, it := range []struct {
		text string
		ok   bool
	}{
		{"0000000000-00000000000000000000000000000000", true},
		{"9999999999-0123456789abcdef0123456789abcdef", true},
		{"9999999999-0123456789abcdef0123456789abcdeF", false},
		{"999999999-0123456789abcdef0123456789abcdef0", false},
		{"99999999990-0123456789abcdef0123456789abcde", false},
		{"+999999999-0123456789abcdef0123456789abcdef", false},
		{"9999999999-0123456789abcdef0123456789abcdef0", false},
		{"9999999999 0123456789abcdef0123456789abcdef", false},
		{"9999999999-0123456789abcdef0123456789abcdeg", false},
		{"", false},
	} {
		found, ok := nameOf(it.text)
		if ok != it.ok || ok && found.String() != it.text {
			t.Errorf("%s: %v", it.text, found)
		}
	}
}

func FuzzNames(f *testing.F) {
	f.Add("0000000001-0123456789abcdef0123456789abcdef")
	f.Add("9999999999-0123456789abcdef0123456789abcdeF")
	f.Fuzz(func(t *testing.T, text string) {
		if found, ok := nameOf(text); ok && found.String() != text {
			t.Errorf("%q is read as %v", text, found)
		}
	})
}

func FuzzJournalEntries(f *testing.F) {
	f.Add((&entryKept{"p/1/a", 7, []byte("value")}).append(nil))
	f.Add([]byte("0123456789"))
	f.Fuzz(func(t *testing.T, raw []byte) {
		found, err := entryOf(raw)
		if err != nil {
			return
		}
		if again := found.append(nil); string(again) != string(raw) {
			t.Errorf("%x is read, and written as %x", raw, again)
		}
	})
}
