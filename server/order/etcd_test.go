package order

import (
	"context"
	"fmt"
	"sync"
	"testing"

	"dsmdb/server/batch"
)

// manyCallers has some callers append some strings each, one behind the other, at orders in turn.
func manyCallers(callers, each int, orders ...*watched) map[string]bool {
	var all sync.WaitGroup
	texts := map[string]bool{}
	for caller := 0; caller < callers; caller++ {
		for at := 0; at < each; at++ {
			texts[fmt.Sprintf("%d.%d", caller, at)] = true
		}
		all.Add(1)
		go func(caller int) {
			defer all.Done()
			for at := 0; at < each; at++ {
				w := orders[caller%len(orders)]
				it := w.append1(fmt.Sprintf("%d.%d", caller, at))
				w.until("appended", func() bool { return w.own[it] > 0 || w.refused[it] != nil })
			}
		}(caller)
	}
	all.Wait()
	return texts
}

func TestTwoServersReadOneOrder(t *testing.T) {
	t.Parallel()
	for _, members := range []int{1, 3} {
		t.Run(fmt.Sprintf("%d members", members), func(t *testing.T) {
			etcd := runEtcd(t, members)
			one, other := etcd.opened(nil), etcd.opened(nil)
			one.appended("first")
			texts := manyCallers(8, 20, one, other)
			alike(one, other)
			found := one.read()
			if len(found) != len(texts)+1 || found[0] != "first" {
				t.Fatalf("%d strings of %d", len(found), len(texts))
			}
			for _, it := range found[1:] {
				if !texts[it] {
					t.Errorf("%s is there twice, or nobody's", it)
				}
				delete(texts, it)
			}
			for _, w := range []*watched{one, other} {
				for it, position := range w.own {
					if found[position-1] != string(it.Text) {
						t.Errorf("%s isn't at %d", it.Text, position)
					}
				}
			}
			if len(one.own)+len(other.own) != len(found) || one.made+other.made != len(one.headers) {
				t.Errorf("%d and %d own strings", len(one.own), len(other.own))
			}
			third := etcd.opened(nil)
			alike(one, other, third)
			if third.made != 0 || third.begun != 1 {
				t.Errorf("%d made", third.made)
			}
		})
	}
}

func TestAServerGoesOnFromItsJournal(t *testing.T) {
	t.Parallel()
	etcd, folder := runEtcd(t, 1), t.TempDir()
	secret := &batch.Secret{1}
	open := func() *watched {
		return etcd.opened(func(o *EtcdOptions) { o.Journal, o.Secret = folder, secret })
	}
	w := open()
	w.appended("1", "2", "3")
	w.Close()
	other := etcd.opened(func(o *EtcdOptions) { o.Secret = secret })
	other.appended("4", "5")
	w = open()
	w.untilBegun()
	w.appended("6")
	alike(w, other)
	if fmt.Sprint(w.read()) != "[1 2 3 4 5 6]" {
		t.Errorf("%v", w.read())
	}
	for upto := uint64(0); upto <= 6; upto++ {
		var again []string
		err := w.Reread(context.Background(), upto, func(it *batch.Batch) error {
			for _, text := range it.Strings {
				again = append(again, string(text))
			}
			return nil
		})
		if err != nil || fmt.Sprint(again) != fmt.Sprint(w.read()[:upto]) {
			t.Errorf("up to %d: %v, %v", upto, again, err)
		}
	}
}

func TestABatchCarriesItsMakersVote(t *testing.T) {
	t.Parallel()
	etcd := runEtcd(t, 1)
	vote := batch.Vote{Position: 7, Strings: batch.Digest{1}, Answers: batch.Digest{2}}
	w := etcd.opened(func(o *EtcdOptions) { o.Maker.Vote = func() batch.Vote { return vote } })
	w.Append(nil)
	w.until("a vote", func() bool { return len(w.headers) == 1 })
	w.appended("a")
	if w.headers[0].Vote != vote || w.headers[0].Maker != maker.ID || w.headers[0].Version != maker.Version {
		t.Errorf("%+v", w.headers[0])
	}
	if w.made != 2 || w.headers[0].Database != w.headers[1].Database || w.headers[0].Database == (batch.ID{}) {
		t.Errorf("%+v", w.headers)
	}
}
