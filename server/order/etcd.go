package order

import (
	"context"
	"crypto/sha256"
	"errors"
	"fmt"
	"sync"
	"sync/atomic"
	"time"

	"dsmdb/server/batch"
	"dsmdb/server/durations"
	pb "go.etcd.io/etcd/etcdserver/etcdserverpb"
)

// Etcd is an order in the keys of etcd, to which several servers append. Each batch stands under a key of its own; the
// order is that of their creation.
type Etcd struct {
	keys    keys
	maker   Maker
	secret  *batch.Secret
	nodes   *nodes
	journal *journal
	out     *outbox
	log     func(format string, args ...any)

	ctx     context.Context // over once the order ends
	cancel  context.CancelFunc
	done    chan struct{}
	failure error // once done is closed; before, under the mutex

	strangers atomic.Uint64

	mutex    sync.Mutex
	rule     rule // changed by the reader alone, under the mutex
	tally    *tally
	caughtUp bool
	closing  bool
	making   making
	ends     ends
}

var _ Order = (*Etcd)(nil)

// OpenEtcd opens an order in etcd. It returns at once where the options are well formed; whether etcd can be reached is
// told by Reached.
func OpenEtcd(options EtcdOptions) (*Etcd, error) {
	if err := options.check(); err != nil {
		return nil, err
	}
	all, err := options.members()
	if err != nil {
		return nil, err
	}
	return openEtcd(options, all)
}

// Embedded is a member of etcd that runs in this process.
type Embedded struct {
	KV    pb.KVClient
	Watch pb.WatchClient
	// Compare says whether the member has kept all up to a revision as most members have. An error that is ErrDamaged
	// says that it hasn't; another that this can't be told now. Nil stands for yes.
	Compare func(ctx context.Context, revision int64) error
}

// ErrDamaged says that a member of etcd hasn't kept what it was told to.
var ErrDamaged = errors.New("the data of this server's member of the cluster are damaged")

// OpenEmbedded opens an order in etcd by a member in this process. Of the options the endpoints, the certificates and the
// login aren't used.
func OpenEmbedded(options EtcdOptions, embedded Embedded) (*Etcd, error) {
	if err := options.check(); err != nil {
		return nil, err
	}
	return openEtcd(options, embedded.members())
}

// members returns the member in this process as all that there are.
func (e *Embedded) members() *nodes {
	own := &member{kv: e.KV, watch: e.Watch}
	return &nodes{all: []node{own}, home: true, compare: e.Compare}
}

func openEtcd(options EtcdOptions, all *nodes) (*Etcd, error) {
	e := &Etcd{
		keys: keysOf(options.Prefix, options.Number), maker: options.Maker, secret: options.Secret, nodes: all,
		log: options.Log, done: make(chan struct{}), rule: newRule(options.Secret, &options.Maker),
	}
	if e.log == nil {
		e.log = func(string, ...any) {}
	}
	all.log, all.left = e.log, e.leftMember
	e.ctx, e.cancel = context.WithCancel(context.Background())
	e.out = newOutbox()
	e.journal = newJournal(options.Journal, e)
	e.tally = newTally(e.keys.folder, 0)
	if err := e.making.begin(); err != nil {
		return nil, err
	}
	e.ends.wake, e.ends.cut = make(chan struct{}, 1), func() {}
	e.making.more.L = &e.mutex
	e.making.timer = time.AfterFunc(time.Hour, e.wakeMaking)
	go e.run()
	return e, nil
}

// run has the order's goroutines work until one of them fails, or the order is closed.
func (e *Etcd) run() {
	var all sync.WaitGroup
	for _, work := range []func(context.Context) error{e.read, e.journal.write, e.make, e.askEnds} {
		all.Add(1)
		go func(work func(context.Context) error) {
			defer all.Done()
			if err := work(e.ctx); err != nil {
				e.fail(err)
			}
		}(work)
	}
	go func() { // wakes all that wait
		<-e.ctx.Done()
		e.wakeMaking()
		e.journal.wake()
		e.out.wake()
	}()
	all.Wait()
	e.cancel()
	e.making.timer.Stop()
	e.making.underWay.Wait()
	e.nodes.close()
	e.journal.close()
	close(e.done)
	e.out.finish()
}

// fail ends the order, for the first reason that is told.
func (e *Etcd) fail(why error) {
	e.mutex.Lock()
	if e.failure == nil && !e.closing && !errors.Is(why, context.Canceled) {
		e.failure = why
	}
	e.mutex.Unlock()
	e.cancel()
}

// Append implements Order.
func (e *Etcd) Append(strings []*String) { e.take(strings) }

// Events implements Order.
func (e *Etcd) Events() <-chan []Event { return e.out.events }

// Err implements Order.
func (e *Etcd) Err() error {
	<-e.done
	return e.failure
}

// Reached implements Order.
func (e *Etcd) Reached() (since time.Time, why error) { return e.nodes.reach.get() }

// Strangers returns how many keys were met since the start that are no batches of the order, though they stand among
// them.
func (e *Etcd) Strangers() uint64 { return e.strangers.Load() }

// Failures returns how many requests to etcd failed since the start.
func (e *Etcd) Failures() uint64 { return e.nodes.failures.Load() }

// Forces returns how long the forcing of the journal's records to the disk took.
func (e *Etcd) Forces() durations.Histogram { return e.journal.forces.Histogram() }

// Reread implements Order.
func (e *Etcd) Reread(ctx context.Context, upto uint64, take func(found *batch.Batch) error) error {
	if upto == 0 {
		return nil
	}
	position := uint64(0)
	err := e.journal.reread(ctx, func(it *entryKept) error {
		if err := ctx.Err(); err != nil {
			return err
		}
		found, err := e.kept(it.value)
		if err != nil {
			return fmt.Errorf("reading the order again: %w", err)
		}
		position += uint64(len(found.Strings))
		if err := take(found); err != nil {
			return err
		}
		if position >= upto {
			return errEnough
		}
		return nil
	})
	if errors.Is(err, errEnough) {
		return nil
	}
	return err
}

// errEnough ends a reading.
var errEnough = errors.New("enough was read")

// kept reads a batch that has counted, whose signature was checked.
func (e *Etcd) kept(value []byte) (*batch.Batch, error) {
	if e.secret != nil && len(value) >= sha256.Size {
		value = value[:len(value)-sha256.Size]
	}
	return batch.Read(value)
}

// Close implements Order.
func (e *Etcd) Close() error {
	e.mutex.Lock()
	e.closing = true
	e.mutex.Unlock()
	e.out.abandon()
	e.cancel()
	<-e.done
	return nil
}
