package order

import (
	"context"
	"errors"
	"fmt"
	"sort"

	"go.etcd.io/etcd/etcdserver/api/v3rpc/rpctypes"
	pb "go.etcd.io/etcd/etcdserver/etcdserverpb"
	"go.etcd.io/etcd/mvcc/mvccpb"
	"google.golang.org/grpc/metadata"
)

// watch reads what comes behind the last listing, until the watch breaks.
func (r *reader) watch(ctx context.Context) error {
	ctx, cancel := context.WithCancel(ctx)
	defer cancel()
	it, at := r.nodes.now()
	r.mutex.Lock()
	r.ends.cut, r.ends.watched, r.ends.silent = cancel, at, false
	r.mutex.Unlock()
	stream, err := r.openWatch(ctx, it)
	if err == nil {
		err = r.takeAll(ctx, stream)
	}
	if err == nil || isEnd(err) {
		return err
	}
	if ctx.Err() == nil {
		r.nodes.failed(ctx, it, err)
	} else if !r.fellSilent() {
		return err
	}
	r.nodes.leave(at)
	return err
}

func (r *reader) fellSilent() bool {
	r.mutex.Lock()
	defer r.mutex.Unlock()
	return r.ends.silent
}

// openWatch opens a watch of all keys of the order, from behind what is decided on.
func (r *reader) openWatch(ctx context.Context, at node) (pb.Watch_WatchClient, error) {
	within, cancel := context.WithTimeout(ctx, answerIn)
	defer cancel()
	_, watch, err := at.clients(within)
	if err != nil {
		return nil, err
	}
	with := metadata.NewOutgoingContext(ctx, metadata.Pairs(rpctypes.MetadataRequireLeaderKey, rpctypes.MetadataHasLeader))
	if r.nodes.home {
		with = &quietContext{with}
	}
	stream, err := watch.Watch(with)
	if err != nil {
		return nil, err
	}
	create := &pb.WatchCreateRequest{
		Key: []byte(r.keys.folder), RangeEnd: []byte(r.keys.end()), StartRevision: r.decided.revision + 1, Fragment: true,
	}
	err = stream.Send(&pb.WatchRequest{RequestUnion: &pb.WatchRequest_CreateRequest{CreateRequest: create}})
	return stream, err
}

// quietContext says nothing of its values, which a member in this process would read while they change.
type quietContext struct{ context.Context }

func (*quietContext) String() string { return "a watch" }

// takeAll takes the events of a watch until it ends.
func (r *reader) takeAll(ctx context.Context, stream pb.Watch_WatchClient) error {
	var gathered []*mvccpb.Event
	for {
		answer, err := stream.Recv()
		if err != nil {
			return err
		}
		if answer.Canceled || answer.CompactRevision != 0 {
			return fmt.Errorf("etcd ended the watch: %s", reasonOf(answer))
		}
		gathered = append(gathered, answer.Events...)
		if answer.Fragment {
			continue
		}
		if err := r.take(ctx, gathered); err != nil {
			return err
		}
		gathered = nil
	}
}

func reasonOf(answer *pb.WatchResponse) string {
	if answer.CompactRevision != 0 {
		return fmt.Sprintf("what came before revision %d isn't kept any more", answer.CompactRevision)
	}
	return answer.CancelReason
}

// take takes events that came together. All of a revision come together; those of revisions that are decided were seen
// before.
func (r *reader) take(ctx context.Context, events []*mvccpb.Event) error {
	sort.SliceStable(events, func(i, j int) bool {
		a, b := events[i].Kv, events[j].Kv
		return place{a.ModRevision, string(a.Key)}.before(place{b.ModRevision, string(b.Key)})
	})
	decided, deleted := r.decided.revision, false
	for _, it := range events {
		if it.Kv.ModRevision <= decided {
			continue
		}
		if err := r.happened(ctx, it); err != nil {
			return err
		}
		deleted = deleted || it.Type == mvccpb.DELETE
	}
	if deleted { // keys that don't count may be the first that go with the order
		if err := r.goneOr(ctx, nil); err != nil {
			return err
		}
	}
	if count := len(events); count > 0 && events[count-1].Kv.ModRevision > decided {
		r.decided = place{events[count-1].Kv.ModRevision, r.keys.end()}
		r.nodes.saw(r.decided.revision)
	}
	r.history.trim()
	r.settleVoid()
	r.mutex.Lock()
	defer r.mutex.Unlock()
	r.shown(r.decided.revision)
	return nil
}

// happened takes one event.
func (r *reader) happened(ctx context.Context, event *mvccpb.Event) error {
	it, ok := r.storedOf(event.Kv)
	if event.Type == mvccpb.DELETE {
		if counted, err := r.isCounted(ctx, it, ok); err != nil || counted {
			if counted {
				err = ended("%w: %s, a batch of the order, was deleted", errPast, it.key)
			}
			return err
		}
		r.mutex.Lock()
		defer r.mutex.Unlock()
		r.tally.remove(it.key)
		return nil
	}
	if it.version != 1 {
		counted, err := r.isCounted(ctx, it, ok)
		if counted {
			return overwritten(it.key)
		}
		return err
	}
	counts := false
	if ok {
		var err error
		if counts, err = r.decide(ctx, it); err != nil {
			return err
		}
		r.decided = it.place()
	} else {
		r.strangers.Add(1)
	}
	r.mutex.Lock()
	defer r.mutex.Unlock()
	r.tally.add(it.key, counts)
	return nil
}

// isCounted returns whether a key is one of those that have counted.
func (r *reader) isCounted(ctx context.Context, it *stored, named bool) (bool, error) {
	if !named {
		return false, nil
	}
	if _, ok := r.history.find(it.name); ok || !r.history.isForgotten(it.hint) {
		return ok, nil
	}
	found := false
	err := r.journal.reread(ctx, func(kept *entryKept) error {
		if found = kept.key == it.key; found {
			return errEnough
		}
		return ctx.Err()
	})
	if errors.Is(err, errEnough) {
		err = nil
	}
	return found, err
}
