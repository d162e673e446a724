package order

import (
	"context"
	"errors"
	"fmt"

	"dsmdb/server/batch"
	pb "go.etcd.io/etcd/etcdserver/etcdserverpb"
	"go.etcd.io/etcd/mvcc/mvccpb"
)

// reader reads an order from etcd, and decides which batches count. One goroutine has it.
type reader struct {
	*Etcd
	history history
	decided place // all keys up to here are decided
	whole   bool  // whether the next listing is of all keys
	atOnce  int64 // how many values are asked for together
	values  int64 // how many have counted
	bytes   int64 // of them
	told    map[string]bool
}

// endedError says why an order can't be gone on with.
type endedError struct{ error }

func (e *endedError) Unwrap() error { return e.error }

func ended(format string, args ...any) error { return &endedError{fmt.Errorf(format, args...)} }

// isEnd returns whether an error ends the order; others are tried again.
func isEnd(err error) bool {
	var found *endedError
	return errors.As(err, &found) || errors.Is(err, errPast)
}

// read reads the order, from the journal and then from etcd, until the context is over or the order ends.
func (e *Etcd) read(ctx context.Context) error {
	r := &reader{Etcd: e, whole: true, atOnce: 16, told: map[string]bool{}}
	if err := r.readJournal(ctx); err != nil {
		return err
	}
	for failures := 0; ctx.Err() == nil; failures++ {
		before := r.history.end()
		err := r.list(ctx)
		if err == nil {
			err = r.watch(ctx)
		}
		if errors.Is(err, errPast) {
			err = r.goneOr(ctx, err)
		}
		if isEnd(err) {
			return err
		}
		if _, away := r.Reached(); away == nil && ctx.Err() == nil {
			r.once("etcd: the order is listed again: %v", err)
		}
		if r.history.end() > before {
			failures = 0
		}
		if !rest(ctx, backOff(failures)) {
			break
		}
	}
	return nil
}

// decide decides whether a key that comes next is a batch that counts, and counts it.
func (r *reader) decide(ctx context.Context, it *stored) (counts bool, err error) {
	if !r.rule.admits(it.hint) {
		r.passOver(it)
		return false, nil
	}
	found, err := r.rule.read(it)
	if errors.Is(err, errNotRight) && !errors.Is(err, errSigned) {
		found, err = r.askMembers(ctx, it, err)
	}
	var other *batch.FormError
	switch {
	case errors.As(err, &other):
		return false, ended("the order in etcd is of a newer program, its first batch %s is %w", it.key, other)
	case errors.Is(err, errNotRight):
		r.strangers.Add(1)
		r.passOver(it)
		return false, nil
	case err != nil:
		return false, err
	}
	return true, r.count(ctx, it, found)
}

// count counts a right batch, and hands it on.
func (r *reader) count(ctx context.Context, it *stored, found *batch.Batch) error {
	if !r.out.room(ctx) {
		return ctx.Err()
	}
	if err := r.journal.add(ctx, it); err != nil {
		return err
	}
	r.history.add(it.name, it.create)
	r.values, r.bytes = r.values+1, r.bytes+int64(len(it.value))
	r.mutex.Lock()
	defer r.mutex.Unlock()
	event := &Counted{First: r.rule.count(found), Header: found.Header, Strings: found.Strings}
	events := append(r.making.settle(it, event), event)
	r.out.post(len(it.value), events...)
	return nil
}

// passOver notes a key that takes no place. Where it is a batch of this server, its strings go into another.
func (r *reader) passOver(it *stored) {
	r.mutex.Lock()
	defer r.mutex.Unlock()
	r.making.void(it.name)
}

// askMembers reads a key that isn't right from each member, since one of them may have kept it wrongly. It returns the
// batch where one has it right.
func (r *reader) askMembers(ctx context.Context, it *stored, why error) (*batch.Batch, error) {
	for failures := 1; ; failures++ {
		answers := 0
		for _, member := range r.nodes.all {
			kept, err := r.asOf(ctx, member, it)
			if isEnd(err) || ctx.Err() != nil {
				return nil, err
			}
			if err != nil {
				continue
			}
			answers++
			if kept == nil {
				continue
			}
			if found, fault := r.rule.read(kept); fault == nil {
				return r.rightElsewhere(it, kept, found, member)
			}
		}
		decided := answers > 0 && 2*answers >= len(r.nodes.all)
		if decided && r.nodes.compare != nil {
			fault := r.nodes.compare(ctx, it.create)
			if errors.Is(fault, ErrDamaged) {
				return nil, ended("%s can't be read: %w", it.key, fault)
			}
			decided = fault == nil
		}
		if decided {
			r.once("etcd: %s takes no place in the order: %v", it.key, why)
			return nil, why
		}
		if !rest(ctx, backOff(failures)) {
			return nil, ctx.Err()
		}
	}
}

// rightElsewhere is told of a key that isn't right as it was read first, and is as it was created.
func (r *reader) rightElsewhere(it, kept *stored, found *batch.Batch, at node) (*batch.Batch, error) {
	if it.version > 1 {
		return nil, overwritten(it.key)
	}
	r.log("etcd: a member has a damaged copy of %s, and %s has it right", it.key, at.name())
	*it = *kept
	return found, nil
}

// asOf returns a key as a member has it, when it was created, or now where that isn't kept; nil where it isn't there.
func (r *reader) asOf(ctx context.Context, at node, it *stored) (*stored, error) {
	asked := &pb.RangeRequest{Key: []byte(it.key), Revision: it.create}
	answer, err := r.nodes.rangeAt(ctx, at, asked)
	if err != nil && faultOf(ctx, err) == compacted {
		asked.Revision = 0
		answer, err = r.nodes.rangeAt(ctx, at, asked)
	}
	if err != nil || len(answer.Kvs) == 0 {
		return nil, err
	}
	kept, ok := r.storedOf(answer.Kvs[0])
	if !ok || kept.create != it.create {
		return nil, nil
	}
	return kept, nil
}

// once tells the administrator something, once since the start.
func (r *reader) once(format string, args ...any) {
	text := fmt.Sprintf(format, args...)
	if len(r.told) < 1000 && !r.told[text] {
		r.told[text] = true
		r.log("%s", text)
	}
}

// storedOf returns a key with what etcd keeps of it; false where its name isn't of the order's form.
func (r *reader) storedOf(kv *mvccpb.KeyValue) (*stored, bool) {
	it := &stored{
		key: string(kv.Key), create: kv.CreateRevision, mod: kv.ModRevision, version: kv.Version, lease: kv.Lease,
		value: kv.Value,
	}
	if r.nodes.home { // a member in this process goes on using its bytes
		it.value = append([]byte(nil), kv.Value...)
	}
	found, ok := nameOf(it.key[len(r.keys.folder):])
	it.name = found
	return it, ok
}

func overwritten(key string) error {
	return ended("%w: %s, a batch of the order, was written again", errPast, key)
}

// isUnchanged says what is wrong with a key that has counted.
func isUnchanged(it *stored, revision int64) error {
	switch {
	case it.create != revision:
		return ended("%w: %s, a batch of the order, was made at revision %d and is now of revision %d",
			errPast, it.key, revision, it.create)
	case it.version != 1 || it.mod != it.create:
		return overwritten(it.key)
	case it.lease != 0:
		return ended("%w: %s, a batch of the order, has a lease, so it will go", errPast, it.key)
	}
	return nil
}
