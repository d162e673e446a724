package order

import (
	"container/heap"
	"context"
	"errors"
	"fmt"

	pb "go.etcd.io/etcd/etcdserver/etcdserverpb"
	"go.etcd.io/etcd/mvcc/mvccpb"
)

const (
	span         = 5000    // hints whose names are asked for one behind the other
	fewNames     = 200     // that are asked for together, before it is known how long their values are
	manyNames    = 5000    // the same, at most
	mostAtOnce   = 1000    // values
	fewBytes     = 1 << 20 // an answer with fewer is followed by a larger one
	manyBytes    = 8 << 20 // an answer with more is followed by a smaller one
	everyHint    = 10 * greatest
	oneRightWant = "none of the batches that stand in %s carries this server's signature: the secret isn't theirs"
)

// listing is a reading of the order's keys as they stand at one revision.
type listing struct {
	reader   *reader
	revision int64
	question uint64 // the last one before the listing began
	from     uint64 // least hint that is listed
	expected uint64 // how many batches had counted
	present  []bool // which of them were met, from the history's offset on
	tally    *tally
	next     byPlace // keys that aren't decided
	unsigned int     // keys that are batches but for their signature
	foreign  int     // keys that are batches of another database
}

// byPlace is a heap of keys.
type byPlace []*stored

func (h byPlace) Len() int           { return len(h) }
func (h byPlace) Less(i, j int) bool { return h[i].place().before(h[j].place()) }
func (h byPlace) Swap(i, j int)      { h[i], h[j] = h[j], h[i] }

// Push implements heap.Interface.
func (h *byPlace) Push(it any) { *h = append(*h, it.(*stored)) }

// Pop implements heap.Interface.
func (h *byPlace) Pop() any {
	last := len(*h) - 1
	it := (*h)[last]
	(*h)[last] = nil
	*h = (*h)[:last]
	return it
}

// list reads all that may count from here on, the first time all there is, and compares what has counted.
func (r *reader) list(ctx context.Context) error {
	l, err := r.beginListing(ctx)
	if err != nil {
		return err
	}
	start, upto := r.keys.from(l.from), l.from+span
	if r.whole {
		start = r.keys.folder
	}
	for {
		answer, err := l.ask(ctx, start, upto)
		if err != nil {
			return err
		}
		more := answer.More && len(answer.Kvs) > 0
		if err := l.page(ctx, answer.Kvs, more, upto); err != nil {
			return err
		}
		switch {
		case more:
			start = string(answer.Kvs[len(answer.Kvs)-1].Key) + "\x00"
		case upto == everyHint:
			return l.finish()
		case len(answer.Kvs) == 0 || upto > greatest-span:
			start, upto = r.keys.from(upto), everyHint // what strangers may have put there
		default:
			start, upto = r.keys.from(upto), upto+span
		}
	}
}

// beginListing begins a listing of the order as it stands at the revision that etcd has come to, where it isn't gone. The
// mark of an order that is gone is put before anything of the order is deleted. So where the mark isn't there at a
// revision, the order stands there whole, whatever is deleted while the listing goes on. And nothing of a half-deleted
// order is counted by a server that was behind.
func (r *reader) beginListing(ctx context.Context) (*listing, error) {
	l := &listing{reader: r, expected: r.history.end(), present: make([]bool, len(r.history.entries))}
	if !r.whole {
		l.from = floorOf(r.rule.counted)
	}
	l.tally = newTally(r.keys.folder, floorOf(r.rule.counted))
	r.mutex.Lock()
	l.question = r.ends.asked
	r.retally()
	r.mutex.Unlock()
	answer, err := r.nodes.rangeAgain(ctx, r.keys.askMark())
	if err != nil {
		return nil, err
	}
	l.revision = answer.Header.Revision
	return l, r.keys.goneBy(answer.Kvs)
}

// ask asks for the names from a key up to a hint: etcd looks at all that there are in a range, however few it tells.
func (l *listing) ask(ctx context.Context, start string, upto uint64) (*pb.RangeResponse, error) {
	end := l.reader.keys.end()
	if upto < everyHint {
		end = l.reader.keys.from(upto)
	}
	return l.reader.nodes.rangeAgain(ctx, &pb.RangeRequest{
		Key: []byte(start), RangeEnd: []byte(end), Limit: l.reader.namesAtOnce(), KeysOnly: true, Revision: l.revision,
	})
}

// namesAtOnce returns how many names are asked for together. Etcd reads their values too, though it doesn't tell them.
func (r *reader) namesAtOnce() int64 {
	if r.values == 0 {
		return fewNames
	}
	switch fitting := manyBytes / (r.bytes/r.values + 1); {
	case fitting < fewNames/10:
		return fewNames / 10
	case fitting > manyNames:
		return manyNames
	default:
		return fitting
	}
}

// page takes some names, in the order of the keys up to a hint, and decides what can be decided: a name that is still to
// come has a hint from the last one's on, so it takes no place before as many batches have counted.
func (l *listing) page(ctx context.Context, found []*mvccpb.KeyValue, more bool, upto uint64) error {
	var run []*stored // keys side by side whose values are wanted
	for _, kv := range found {
		it, err := l.wanted(ctx, kv)
		if err != nil {
			return err
		}
		if it != nil {
			run = append(run, it)
			continue
		}
		if err := l.gather(ctx, run); err != nil {
			return err
		}
		run = nil
	}
	if err := l.gather(ctx, run); err != nil {
		return err
	}
	complete := upto
	if more {
		complete = 0
		if hint, ok := hintOf(string(found[len(found)-1].Key)[len(l.reader.keys.folder):]); ok {
			complete = hint
		}
	}
	return l.decide(ctx, complete)
}

// wanted returns a key that is to be decided, or nil.
func (l *listing) wanted(ctx context.Context, kv *mvccpb.KeyValue) (*stored, error) {
	r := l.reader
	it, ok := r.storedOf(kv)
	if !ok {
		l.tally.add(it.key, false)
		if r.decided.before(it.place()) {
			r.strangers.Add(1)
		}
		return nil, nil
	}
	if number, ok := r.history.find(it.name); ok {
		if number < l.expected {
			l.present[number-r.history.offset] = true
		}
		l.tally.add(it.key, true)
		return nil, isUnchanged(it, r.history.at(number).revision)
	}
	if r.decided.before(it.place()) {
		return it, nil
	}
	l.tally.add(it.key, false)
	return nil, l.isForeign(ctx, it)
}

// isForeign says what is wrong with a key that stands before what is decided and hasn't counted: it takes no place now,
// and must not have been one that counts.
func (l *listing) isForeign(ctx context.Context, it *stored) error {
	r := l.reader
	then := rule{counted: r.history.before(r.keys, it.place())}
	if !then.admits(it.hint) {
		return nil
	}
	if err := l.fetch(ctx, []*stored{it}); err != nil {
		return err
	}
	if _, err := r.rule.read(it); err != nil {
		return nil
	}
	return ended("%w: %s stands before batches that have counted, and wasn't there", errPast, it.key)
}

// gather reads the values of keys that stand side by side, which are to be decided.
func (l *listing) gather(ctx context.Context, run []*stored) error {
	if err := l.fetch(ctx, run); err != nil {
		return err
	}
	for _, it := range run {
		heap.Push(&l.next, it)
	}
	return nil
}

// fetch reads the values of keys that stand side by side.
func (l *listing) fetch(ctx context.Context, wanted []*stored) error {
	r := l.reader
	for len(wanted) > 0 {
		answer, err := r.nodes.rangeAgain(ctx, &pb.RangeRequest{
			Key: []byte(wanted[0].key), RangeEnd: []byte(wanted[len(wanted)-1].key + "\x00"), Limit: r.atOnce,
			Revision: l.revision,
		})
		if err != nil {
			r.atOnce = (r.atOnce + 1) / 2 // it may have been too much for one answer
			return err
		}
		if len(answer.Kvs) == 0 {
			return errors.New("a listing of etcd has other keys than a moment ago")
		}
		size := 0
		for _, kv := range answer.Kvs {
			it, _ := r.storedOf(kv)
			if len(wanted) == 0 || it.key != wanted[0].key || it.create != wanted[0].create {
				return fmt.Errorf("a listing of etcd has %s in place of another key", it.key)
			}
			*wanted[0] = *it
			wanted = wanted[1:]
			size += len(it.value)
		}
		r.adapt(size)
	}
	return nil
}

// adapt has the next answer be of neither too few nor too many bytes.
func (r *reader) adapt(size int) {
	if size > manyBytes && r.atOnce > 1 {
		r.atOnce /= 2
	} else if size < fewBytes && r.atOnce < mostAtOnce {
		r.atOnce *= 2
	}
}

// decide decides the keys that are listed, one behind the other, as long as no key of a hint below complete is to come.
func (l *listing) decide(ctx context.Context, complete uint64) error {
	r := l.reader
	for len(l.next) > 0 && r.rule.counted < complete {
		it := heap.Pop(&l.next).(*stored)
		counts, err := r.decide(ctx, it)
		if err != nil {
			return err
		}
		if !counts && isSignedOtherwise(r.secret, it.key, it.value) {
			l.unsigned++
		}
		if !counts && r.rule.counted == 0 && r.rule.isOfAnother(it) {
			l.foreign++
		}
		l.tally.add(it.key, counts)
		r.decided = it.place()
	}
	l.tally.raise(floorOf(r.rule.counted))
	r.settleVoid()
	return nil
}

// finish compares what has counted with what was listed, and answers questions that came before.
func (l *listing) finish() error {
	r := l.reader
	for at, is := range l.present {
		it := r.history.entries[at]
		if !is && it.hint >= l.from {
			return ended("%w: %s, a batch of the order, isn't there any more", errPast, r.keys.of(it.name))
		}
	}
	if err := l.isOurs(); err != nil {
		return err
	}
	r.whole = false
	r.history.trim()
	r.decided = place{l.revision, r.keys.end()}
	r.nodes.saw(l.revision)
	r.mutex.Lock()
	defer r.mutex.Unlock()
	if !r.caughtUp {
		r.caughtUp = true
		r.out.post(0, Begun{r.rule.position})
	}
	r.retally()
	r.tally = l.tally
	r.ends.decided = l.revision
	r.answered(l.question)
	r.making.more.Broadcast()
	return nil
}

// isOurs says what is wrong where batches stand in the order, and none of them counts.
func (l *listing) isOurs() error {
	r := l.reader
	switch {
	case r.rule.counted > 0:
		return nil
	case l.unsigned > 0 && r.secret != nil:
		return ended(oneRightWant, r.keys.folder)
	case l.unsigned > 0:
		return ended("the batches that stand in %s are signed under a secret, and this server has none", r.keys.folder)
	case l.foreign > 0 && r.whole: // a batch that comes later is a stranger's
		return ended("the batches that stand in %s are of another database", r.keys.folder)
	}
	return nil
}
