package order

import (
	"context"
	"fmt"
	"os"
	"path/filepath"
	"strings"
	"syscall"
	"testing"

	"dsmdb/server/batch"
	pb "go.etcd.io/etcd/etcdserver/etcdserverpb"
)

// Who changes the past ends the servers that run, and those that start with a journal.
func TestAChangedPastEndsTheOrder(t *testing.T) {
	t.Parallel()
	for _, it := range []struct {
		name, live, down string
		change           func(etcd *etcds, keys []string)
	}{
		{"deleted", "@1, a batch of the order, was deleted", "@1, a batch of the order, isn't there any more",
			func(etcd *etcds, keys []string) { etcd.remove(keys[1]) }},
		{"overwritten", "@1, a batch of the order, was written again", "@1, a batch of the order, was written again",
			func(etcd *etcds, keys []string) { etcd.put(keys[1], etcd.value(keys[1])) }},
		{"put anew", "@1, a batch of the order, was deleted", "and is now of revision",
			func(etcd *etcds, keys []string) {
				value := etcd.value(keys[1])
				etcd.remove(keys[1])
				etcd.put(keys[1], value)
			}},
		{"leased", "@1, a batch of the order, was written again", "@1, a batch of the order, was written again",
			func(etcd *etcds, keys []string) {
				lease := strings.Fields(etcd.ctl("lease", "grant", "100"))[1]
				etcd.ctl("put", keys[1], "x", "--lease", lease)
			}},
		{"the last one deleted", "@3, a batch of the order, was deleted", "@3, a batch of the order, isn't there any more",
			func(etcd *etcds, keys []string) { etcd.remove(keys[3]) }},
	} {
		it := it
		t.Run(it.name, func(t *testing.T) {
			t.Parallel()
			etcd, folder := runEtcd(t, 1), t.TempDir()
			down := etcd.opened(func(o *EtcdOptions) { o.Journal = folder })
			down.appended("1", "2", "3", "4")
			down.Close()
			live := etcd.opened(nil)
			live.untilEnd()
			keys := etcd.keys("dsmdb/1/")
			it.change(etcd, keys)
			in := strings.NewReplacer("@1", keys[1], "@3", keys[3])
			if why := live.untilEnded(); !strings.Contains(why, in.Replace(it.live)) {
				t.Errorf("live: %s", why)
			}
			down = etcd.opened(func(o *EtcdOptions) { o.Journal = folder })
			if why := down.untilEnded(); !strings.Contains(why, in.Replace(it.down)) || down.begun != 0 {
				t.Errorf("from the journal: %s, begun %d", why, down.begun)
			}
			fresh := etcd.opened(nil)
			fresh.until("begun or ended", func() bool { return fresh.begun == 1 || fresh.closed })
		})
	}
}

// A snapshot of etcd that is put back takes batches away that have counted.
func TestAnOlderEtcdEndsTheOrder(t *testing.T) {
	t.Parallel()
	etcd, folder := runEtcd(t, 1), t.TempDir()
	live := etcd.opened(nil)
	live.appended("1", "2")
	saved := filepath.Join(t.TempDir(), "saved")
	etcd.ctl("snapshot", "save", saved)
	live.appended("3")
	down := etcd.opened(func(o *EtcdOptions) { o.Journal = folder })
	down.untilEnd()
	down.Close()
	etcd.kill(0)
	if err := os.RemoveAll(etcd.all[0].folder); err != nil {
		t.Fatal(err)
	}
	peer := fmt.Sprintf("http://127.0.0.1:%d", etcd.all[0].peer)
	etcd.ctl("snapshot", "restore", saved, "--name", "m0", "--initial-cluster", etcd.cluster,
		"--initial-advertise-peer-urls", peer, "--data-dir", etcd.all[0].folder)
	etcd.start(0)
	etcd.await(0)
	if why := live.untilEnded(); !strings.Contains(why, "somebody changed the past: etcd is at revision") {
		t.Errorf("live: %s", why)
	}
	down = etcd.opened(func(o *EtcdOptions) { o.Journal = folder })
	if why := down.untilEnded(); !strings.Contains(why, "somebody changed the past: etcd is at revision") {
		t.Errorf("from the journal: %s", why)
	}
	// where etcd has come further meanwhile
	for number := 0; number < 5; number++ {
		etcd.put("else", "x")
	}
	down = etcd.opened(func(o *EtcdOptions) { o.Journal = folder })
	if why := down.untilEnded(); !strings.Contains(why, "a batch of the order, isn't there any more") {
		t.Errorf("from the journal, further on: %s", why)
	}
}

// batchOf returns what a stranger without the secret, or a server, puts.
func batchOf(database byte, secret *batch.Secret, key, text string) string {
	it := batch.Batch{Header: batch.Header{Database: batch.ID{database}}, Strings: [][]byte{[]byte(text)}}
	value := it.Append(nil)
	if secret != nil {
		value = secret.Sign(key, value)
	}
	return string(value)
}

func keyOf(hint uint64, last byte) string {
	return keysOf("dsmdb", 1).of(name{hint, [16]byte{15: last}})
}

func TestStrangersKeysTakeNoPlace(t *testing.T) {
	t.Parallel()
	for _, secret := range []*batch.Secret{nil, {7}} {
		secret := secret
		t.Run(fmt.Sprintf("secret %v", secret != nil), func(t *testing.T) {
			t.Parallel()
			etcd := runEtcd(t, 1)
			live := etcd.opened(func(o *EtcdOptions) { o.Secret = secret })
			etcd.put("dsmdb/1/0000000000-garbage", "x")
			etcd.put("dsmdb/1/zzz", "x")
			etcd.put("dsmdb/1/0", "x")
			etcd.put(keyOf(0, 1), "garbage that is longer than a header")
			etcd.put(keyOf(0, 2), strings.Repeat("\x00", 200))
			live.appended("1", "2")
			etcd.put(keyOf(1, 1), "garbage")
			etcd.put(keyOf(2, 3), batchOf(9, secret, keyOf(2, 3), "of another database"))
			etcd.put(keyOf(3, 4), "garbage")
			etcd.put(strings.ToUpper(keyOf(2, 0xab)), "garbage")
			if secret != nil {
				etcd.put(keyOf(2, 5), etcd.value(etcd.keys("dsmdb/1/")[5])) // a batch of the order, under another key
			}
			lease := strings.Fields(etcd.ctl("lease", "grant", "1000"))[1]
			etcd.ctl("put", keyOf(2, 7), "x", "--lease", lease)
			live.appended("3")
			etcd.put(keyOf(3, 4), "garbage again")
			etcd.remove(keyOf(3, 4))
			etcd.remove("dsmdb/1/zzz")
			etcd.put("dsmdb/10/x", "x") // of another order
			etcd.put("dsmdb/2/x", "x")
			live.appended("4")
			later := etcd.opened(func(o *EtcdOptions) { o.Secret = secret })
			alike(live, later)
			if fmt.Sprint(later.read()) != "[1 2 3 4]" || live.Strangers() < 7 || later.Strangers() < 6 {
				t.Errorf("%v, %d and %d strangers", later.read(), live.Strangers(), later.Strangers())
			}
		})
	}
}

func TestAnotherSecretIsFound(t *testing.T) {
	t.Parallel()
	etcd := runEtcd(t, 1)
	w := etcd.opened(func(o *EtcdOptions) { o.Secret = &batch.Secret{1} })
	w.appended("1")
	plain := etcd.opened(func(o *EtcdOptions) { o.Number = 2 })
	plain.appended("1")
	for _, it := range []struct {
		number uint64
		secret *batch.Secret
		want   string
	}{
		{1, &batch.Secret{2}, "none of the batches that stand in dsmdb/1/ carries this server's signature: the secret isn't theirs"},
		{1, nil, "the batches that stand in dsmdb/1/ are signed under a secret, and this server has none"},
		{2, &batch.Secret{1}, "none of the batches that stand in dsmdb/2/ carries this server's signature: the secret isn't theirs"},
	} {
		other := etcd.opened(func(o *EtcdOptions) { o.Secret, o.Number = it.secret, it.number })
		if why := other.untilEnded(); why != it.want || other.begun != 0 {
			t.Errorf("%s", why)
		}
	}
}

func TestAnOrderOfANewerProgramIsRefused(t *testing.T) {
	t.Parallel()
	etcd := runEtcd(t, 1)
	key := keyOf(0, 1)
	etcd.put(key, "\x02\x00\x00\x00 what a newer program writes")
	w := etcd.opened(nil)
	want := "the order in etcd is of a newer program, its first batch " + key + " is a batch of form 2, and this program knows form 1"
	if why := w.untilEnded(); why != want {
		t.Errorf("%s", why)
	}
}

// Keys that one transaction makes have one revision: the order is that of the keys, for all who read.
func TestKeysOfOneRevisionAreInTheOrderOfTheirNames(t *testing.T) {
	t.Parallel()
	etcd := runEtcd(t, 1)
	live := etcd.opened(nil)
	live.untilBegun()
	put := func(hint uint64, names ...byte) {
		asked := &pb.TxnRequest{}
		for _, it := range names {
			key := keyOf(hint, it)
			asked.Success = append(asked.Success, &pb.RequestOp{Request: &pb.RequestOp_RequestPut{RequestPut: &pb.PutRequest{
				Key: []byte(key), Value: []byte(batchOf(1, nil, key, fmt.Sprintf("%d.%d", hint, it)))}}})
		}
		if _, err := etcd.kv(0).Txn(within(t), asked); err != nil {
			t.Fatal(err)
		}
	}
	put(0, 2, 1, 3)
	put(3, 9, 8, 7)
	put(4, 6, 5)
	live.until("all", func() bool { return len(live.strings) == 8 })
	later := etcd.opened(nil)
	alike(live, later)
	if fmt.Sprint(later.read()) != "[0.1 0.2 0.3 3.7 3.8 3.9 4.5 4.6]" {
		t.Errorf("%v", later.read())
	}
}

// A batch that comes too late takes no place, and its strings go into another.
func TestABatchThatComesTooLateIsMadeAnew(t *testing.T) {
	t.Parallel()
	etcd := runEtcd(t, 1)
	relay := etcd.relayed(0)
	held := make(chan struct{})
	relay.before = func(asked *pb.TxnRequest) error {
		if strings.HasPrefix(string(asked.Compare[0].Key), "dsmdb/1/0000000001-") {
			<-held // longer than its server waits
			relay.kv.Txn(context.Background(), asked)
		}
		return nil
	}
	slow, live := etcd.opened(func(o *EtcdOptions) { o.Endpoints = []string{relay.url} }), etcd.opened(nil)
	key := keyOf(0, 0)
	etcd.put(key, batchOf(1, nil, key, "first"))
	slow.until("first", func() bool { return len(slow.strings) == 1 })
	it := slow.append1("late")
	etcd.fillOrder(1, window+200, "x")
	slow.until("late one counts", func() bool { return slow.own[it] > window })
	close(held)
	slow.until("late one stands in etcd", func() bool {
		return strings.Count(strings.Join(etcd.keys("dsmdb/1/"), " "), "dsmdb/1/0000000001-") == 101
	})
	slow.appended("more")
	later := etcd.opened(nil)
	alike(slow, live, later)
	late := 0
	for _, text := range later.read() {
		if text == "late" {
			late++
		}
	}
	if late != 1 || later.Strangers() != 0 {
		t.Errorf("%d late ones, %d strangers", late, later.Strangers())
	}
}

// fillOrder puts batches, from a number up to another, as servers without a secret would, a hundred with one revision.
func (c *etcds) fillOrder(from, upto int, text string) {
	c.t.Helper()
	kv := c.kv(0)
	for number := from; number < upto; number += 100 {
		asked := &pb.TxnRequest{}
		for at := 0; at < 100; at++ {
			key := keyOf(uint64(number), byte(at))
			asked.Success = append(asked.Success, &pb.RequestOp{Request: &pb.RequestOp_RequestPut{RequestPut: &pb.PutRequest{
				Key: []byte(key), Value: []byte(batchOf(1, nil, key, text))}}})
		}
		if _, err := kv.Txn(within(c.t), asked); err != nil {
			c.t.Fatal(err)
		}
	}
}

// What stands so far back that no listing has it any more isn't forgotten.
func TestTheFarPastIsKeptToo(t *testing.T) {
	t.Parallel()
	etcd := runEtcd(t, 1)
	etcd.fillOrder(0, 100, "x")
	strange := keyOf(20, 200)
	etcd.put(strange, "a stranger's")
	live, other := etcd.opened(nil), etcd.opened(nil)
	live.untilBegun()
	etcd.fillOrder(100, 6*window, "x")
	alike(live, other)
	live.mutex.Lock()
	count := len(live.strings)
	live.mutex.Unlock()
	if count < 6*window {
		t.Fatalf("%d strings", count)
	}
	etcd.put(strange, "a stranger's again")
	etcd.remove(strange)
	alike(live, other)
	live.appended("more")
	key := keyOf(0, 7)
	etcd.remove(key)
	for _, w := range []*watched{live, other} {
		if why := w.untilEnded(); why != "somebody changed the past: "+key+", a batch of the order, was deleted" {
			t.Errorf("%s", why)
		}
	}
}

func TestEtcdThatStopsIsToldAndGoneOnWith(t *testing.T) {
	t.Parallel()
	etcd := runEtcd(t, 3)
	w := etcd.opened(nil)
	w.appended("1")
	for at := range etcd.all {
		etcd.signal(at, syscall.SIGSTOP)
	}
	it := w.append1("2")
	leaves := &String{Text: []byte("leaves"), For: wanted(func() bool { return false })}
	w.Append([]*String{leaves})
	w.until("told", func() bool { _, why := w.Reached(); return why != nil })
	w.until("dropped", func() bool { return w.dropped[leaves] })
	for at := range etcd.all {
		etcd.signal(at, syscall.SIGCONT)
	}
	w.until("appended", func() bool { return w.own[it] > 0 })
	w.untilEnd()
	if since, why := w.Reached(); why != nil || !since.IsZero() {
		t.Errorf("%v, %v", since, why)
	}
	etcd.kill(0)
	etcd.kill(1)
	it = w.append1("3")
	w.until("told", func() bool { _, why := w.Reached(); return why != nil })
	etcd.start(0)
	w.until("appended", func() bool { return w.own[it] > 0 })
	w.appended("4")
	if w.sound(); fmt.Sprint(w.read()) != "[1 2 3 4]" {
		t.Errorf("%v", w.read())
	}
}
