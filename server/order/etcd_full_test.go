package order

import (
	"context"
	"errors"
	"fmt"
	"os"
	"path/filepath"
	"strings"
	"sync/atomic"
	"syscall"
	"testing"

	"dsmdb/server/batch"
	"dsmdb/server/segments"
	pb "go.etcd.io/etcd/etcdserver/etcdserverpb"
)

// reread returns all strings as they are kept on this machine.
func (w *watched) reread() []string {
	w.t.Helper()
	var all []string
	err := w.Reread(context.Background(), uint64(len(w.read())), func(it *batch.Batch) error {
		for _, text := range it.Strings {
			all = append(all, string(text))
		}
		return nil
	})
	if err != nil {
		w.t.Error(err)
	}
	return all
}

func TestAnEtcdWithoutSpaceRefusesUntilThereIsSome(t *testing.T) {
	t.Parallel()
	etcd := runEtcd(t, 1, "--quota-backend-bytes", "8388608")
	w, reads := etcd.opened(nil), etcd.opened(nil)
	w.appended("1")
	big := strings.Repeat("x", 1<<20)
	for number := 0; ; number++ { // a stranger fills it
		_, err := etcd.kv(0).Put(within(t), &pb.PutRequest{Key: []byte("else"), Value: []byte(big)})
		if err != nil {
			break
		}
		if number > 20 {
			t.Fatal("etcd isn't full")
		}
	}
	refused := w.append1("2")
	w.until("refused", func() bool { return w.refused[refused] != nil || w.own[refused] > 0 })
	if !errors.Is(w.refused[refused], ErrFull) {
		t.Errorf("%v", w.refused[refused])
	}
	if end := reads.untilEnd(); end != 1 { // reading goes on
		t.Errorf("the end is at %d", end)
	}
	if _, why := w.Reached(); why != nil {
		t.Errorf("an etcd without space isn't reached: %v", why)
	}
	etcd.remove("else")
	revision := strings.Split(strings.Split(etcd.ctl("endpoint", "status", "--write-out", "json"), `"revision":`)[1], ",")[0]
	etcd.ctl("compact", revision)
	etcd.ctl("defrag")
	etcd.ctl("alarm", "disarm")
	w.appended("3")
	alike(w, reads)
	if fmt.Sprint(w.read()) != "[1 3]" {
		t.Errorf("%v", w.read())
	}
}

// What etcd says of its space isn't believed: it may have put the batch.
func TestABatchThatStandsThoughThereWasNoSpaceCounts(t *testing.T) {
	t.Parallel()
	etcd := runEtcd(t, 1)
	relay := etcd.relayed(0)
	relay.txn = func(*pb.TxnRequest, *pb.TxnResponse) error {
		return errors.New("etcdserver: mvcc: database space exceeded")
	}
	w := etcd.opened(func(o *EtcdOptions) { o.Endpoints = []string{relay.url} })
	w.appended("1", "2")
	// after a lost answer it isn't known whether a batch will stand
	lost := false
	relay.does(func() {
		relay.before = func(*pb.TxnRequest) error {
			if !lost {
				lost = true
				return errAway
			}
			return errors.New("etcdserver: mvcc: database space exceeded")
		}
	})
	it := w.append1("3")
	w.until("refused", func() bool { return w.refused[it] != nil })
	if !errors.Is(w.refused[it], ErrUnknown) {
		t.Errorf("%v", w.refused[it])
	}
	w.sound()
}

func TestAJournalIsHealedFromEtcd(t *testing.T) {
	t.Parallel()
	etcd, folder := runEtcd(t, 1), t.TempDir()
	w := etcd.opened(func(o *EtcdOptions) { o.Journal = folder })
	w.appended("1", "2", "3", "4", "5")
	w.Close()
	segment := filepath.Join(folder, "0000000001.segment")
	whole, err := os.ReadFile(segment)
	if err != nil {
		t.Fatal(err)
	}
	cuts := 0
	for at := 40; at < 1200; at += 60 {
		damaged := append([]byte(nil), whole...)
		damaged[at] ^= 4
		if err := os.WriteFile(segment, damaged, 0o600); err != nil {
			t.Fatal(err)
		}
		w := etcd.opened(func(o *EtcdOptions) { o.Journal = folder })
		w.untilBegun()
		if found := fmt.Sprint(w.read()); found != "[1 2 3 4 5]" || fmt.Sprint(w.reread()) != found {
			t.Errorf("byte %d: %s, %v", at, found, w.reread())
		}
		w.sound()
		w.Close()
		if again, err := os.ReadFile(segment); err != nil || string(again) != string(whole) {
			t.Errorf("byte %d isn't healed: %v", at, err)
		} else {
			cuts++
		}
	}
	if cuts < 10 {
		t.Errorf("%d cuts", cuts)
	}
}

func TestTheJournalOfAnotherOrderIsRefused(t *testing.T) {
	t.Parallel()
	etcd, folder := runEtcd(t, 1), t.TempDir()
	w := etcd.opened(func(o *EtcdOptions) { o.Journal = folder })
	w.appended("1")
	w.Close()
	for _, it := range []struct {
		name   string
		change func(*EtcdOptions)
		want   string
	}{
		{"number", func(o *EtcdOptions) { o.Number = 2 }, "it is of another order: it has dsmdb/1/0000000000-"},
		{"secret", func(o *EtcdOptions) { o.Secret = &batch.Secret{3} }, "no batch of the order: a batch that the secret didn't sign"},
		{"etcd", func(o *EtcdOptions) { o.Endpoints = runEtcd(t, 1).endpoints() }, "somebody changed the past: etcd is at revision 1, and was at 2"},
	} {
		other := etcd.opened(func(o *EtcdOptions) {
			o.Journal = folder
			it.change(o)
		})
		if why := other.untilEnded(); !strings.Contains(why, it.want) {
			t.Errorf("%s: %s", it.name, why)
		}
	}
	// a foreign file is left as it was
	foreign := t.TempDir()
	if err := os.WriteFile(filepath.Join(foreign, "0000000001.segment"), []byte("mine"), 0o600); err != nil {
		t.Fatal(err)
	}
	other := etcd.opened(func(o *EtcdOptions) { o.Journal = foreign })
	if why := other.untilEnded(); !strings.Contains(why, "it is no segment of this log") {
		t.Errorf("%s", why)
	}
	if left, _ := os.ReadFile(filepath.Join(foreign, "0000000001.segment")); string(left) != "mine" {
		t.Errorf("%q", left)
	}
}

// fullLog is a log whose disk is full for a while.
type fullLog struct {
	journalLog
	full atomic.Bool
}

func (l *fullLog) AppendAll(kept [][]byte) (int, error) {
	if l.full.Load() {
		return 0, segments.ErrFull
	}
	return l.journalLog.AppendAll(kept)
}

func TestAFullDiskOfTheJournalRefusesUntilThereIsRoom(t *testing.T) {
	t.Parallel()
	etcd, folder := runEtcd(t, 1), t.TempDir()
	w, other := etcd.opened(func(o *EtcdOptions) { o.Journal = folder }), etcd.opened(nil)
	w.appended("1")
	log := &fullLog{}
	log.full.Store(true)
	w.journal.mutex.Lock()
	log.journalLog, w.journal.log = w.journal.log, log
	w.journal.mutex.Unlock()
	other.appended("2", "3")
	w.until("full", func() bool { return w.told("disk is full") })
	it := w.append1("no")
	w.until("refused", func() bool { return w.refused[it] != nil })
	if !errors.Is(w.refused[it], ErrFull) {
		t.Errorf("%v", w.refused[it])
	}
	other.appended("4")
	alike(other, w) // reading goes on
	w.journal.mutex.Lock()
	for _, it := range w.journal.waiting { // as where there is no memory for them
		w.journal.size -= len(it.value)
		it.value = nil
	}
	w.journal.mutex.Unlock()
	if fmt.Sprint(w.reread()) != "[1 2 3 4]" {
		t.Errorf("%v", w.reread())
	}
	log.full.Store(false)
	w.until("room", func() bool { return w.told("has room again") })
	w.appended("5")
	w.Close()
	again := etcd.opened(func(o *EtcdOptions) { o.Journal = folder })
	alike(again, other)
	if fmt.Sprint(again.read()) != "[1 2 3 4 5]" || fmt.Sprint(again.reread()) != "[1 2 3 4 5]" {
		t.Errorf("%v, %v", again.read(), again.reread())
	}
}

// A disk that is full at the start is waited for.
func TestAStartWaitsForRoomForTheJournal(t *testing.T) {
	t.Parallel()
	folder := t.TempDir()
	if err := syscall.Mount("dsmdb-test", folder, "tmpfs", 0, "size=24m"); err != nil {
		t.Skipf("mounting a small disk: %v", err)
	}
	t.Cleanup(func() { syscall.Unmount(folder, syscall.MNT_DETACH) })
	etcd := runEtcd(t, 1)
	w := etcd.opened(func(o *EtcdOptions) { o.Journal = folder })
	w.appended("1")
	w.Close()
	w = etcd.opened(func(o *EtcdOptions) { o.Journal = folder })
	w.until("full", func() bool { return w.told("the journal's disk is full: the order is read once there is room") })
	if err := syscall.Mount("dsmdb-test", folder, "tmpfs", syscall.MS_REMOUNT, "size=64m"); err != nil {
		t.Fatal(err)
	}
	w.appended("2")
	if w.untilEnd(); fmt.Sprint(w.read()) != "[1 2]" {
		t.Errorf("%v", w.read())
	}
	w.sound()
	w.Close()
}
