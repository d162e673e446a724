package order

import (
	"context"
	"fmt"

	pb "go.etcd.io/etcd/etcdserver/etcdserverpb"
)

// mostDeleted is how many keys are deleted together, so that etcd answers others in between.
const mostDeleted = 2000

// forgetting deletes orders in etcd, and their journals on this machine.
type forgetting struct {
	nodes    *nodes
	prefix   string
	folders  Folders
	journals []uint64 // numbers of the orders that have one here, rising
}

// find returns the numbers of the orders of which something may be left, rising. Orders are forgotten in that order too:
// below one that has nothing but its mark left in etcd, nothing but journals is left.
func (f *forgetting) find(ctx context.Context, below uint64) ([]uint64, error) {
	isGone, count, err := f.look(ctx, below)
	if err != nil {
		return nil, err
	}
	if !isGone && count == 0 {
		return nil, errNotThere(below)
	}
	least := below
	for ; least > 1; least-- {
		if isGone, count, err = f.look(ctx, least-1); err != nil {
			return nil, err
		}
		if isGone && count == 0 {
			break
		}
	}
	var numbers []uint64
	for _, number := range f.journals {
		if number < least {
			numbers = append(numbers, number)
		}
	}
	for number := least; number < below; number++ {
		numbers = append(numbers, number)
	}
	return numbers, nil
}

// look returns whether an order is marked as gone, and how many keys it has.
func (f *forgetting) look(ctx context.Context, number uint64) (isGone bool, count int64, err error) {
	of := keysOf(f.prefix, number)
	mark, err := f.nodes.rangeAgain(ctx, of.askMark())
	if err == nil {
		count, err = f.count(ctx, of.folder, of.end())
	}
	if err != nil {
		return false, 0, fmt.Errorf("asking etcd for order %d: %w", number, err)
	}
	return isMark(mark.Kvs), count, nil
}

// forget marks an order as gone, and deletes what is left of it; false where nothing was.
func (f *forgetting) forget(ctx context.Context, number uint64) (some bool, err error) {
	of := keysOf(f.prefix, number)
	if err := f.mark(ctx, of); err != nil {
		return false, fmt.Errorf("marking it as gone: %w", err)
	}
	if some, err = f.deleteKeys(ctx, of); err != nil {
		return false, fmt.Errorf("deleting its keys: %w", err)
	}
	for _, it := range f.journals {
		if it != number {
			continue
		}
		if err := f.folders.RemoveOrder(number); err != nil {
			return false, fmt.Errorf("deleting its journal: %w", err)
		}
		return true, nil
	}
	return some, nil
}

// mark puts the mark of an order that is gone, where it isn't there: an etcd without space takes deletions, and no mark.
func (f *forgetting) mark(ctx context.Context, of keys) error {
	found, err := f.nodes.rangeAgain(ctx, of.askMark())
	if err != nil || isMark(found.Kvs) {
		return err
	}
	asked := &pb.PutRequest{Key: []byte(of.mark()), Value: goneMark}
	err = f.again(ctx, func(ctx context.Context, kv pb.KVClient) (*pb.ResponseHeader, error) {
		answer, err := kv.Put(ctx, asked)
		if err != nil {
			return nil, err
		}
		return answer.Header, nil
	})
	if err != nil && faultOf(ctx, err) == full {
		return &said{"etcd has no space for the mark: " + wordsOf(err), err}
	}
	return err
}

// deleteKeys deletes all keys of an order, some thousand at a time; false where there were none. Hints say which keys those
// are. Names aren't listed, since etcd would read all values for that.
func (f *forgetting) deleteKeys(ctx context.Context, of keys) (some bool, err error) {
	start, step := of.folder, uint64(mostDeleted/2)
	for hint := uint64(0); hint <= greatest; {
		end := of.end()
		if hint+step <= greatest {
			end = of.from(hint + step)
		}
		count, err := f.count(ctx, start, end)
		if err != nil {
			return false, err
		}
		if count > mostDeleted && step > 1 {
			step /= 2
			continue
		}
		if count > 0 {
			some = true
			if err := f.deleteSome(ctx, start, end, count); err != nil {
				return false, err
			}
		}
		start, hint = end, hint+step
		if count < mostDeleted/4 {
			step *= 2
		}
	}
	return some, nil
}

// deleteSome deletes keys that stand side by side, and whose number is known. Where more of them than mostDeleted have one
// hint, they are a stranger's: only then names are listed, few at a time.
func (f *forgetting) deleteSome(ctx context.Context, start, end string, count int64) error {
	for count > mostDeleted {
		answer, err := f.nodes.rangeAgain(ctx, &pb.RangeRequest{
			Key: []byte(start), RangeEnd: []byte(end), Limit: fewNames, KeysOnly: true,
		})
		if err != nil {
			return err
		}
		if len(answer.Kvs) == 0 {
			return nil
		}
		next := string(answer.Kvs[len(answer.Kvs)-1].Key) + "\x00"
		if err := f.delete(ctx, start, next); err != nil {
			return err
		}
		start, count = next, answer.Count-int64(len(answer.Kvs))
	}
	return f.delete(ctx, start, end)
}

// delete deletes all keys from one on, before another.
func (f *forgetting) delete(ctx context.Context, start, end string) error {
	asked := &pb.DeleteRangeRequest{Key: []byte(start), RangeEnd: []byte(end)}
	return f.again(ctx, func(ctx context.Context, kv pb.KVClient) (*pb.ResponseHeader, error) {
		answer, err := kv.DeleteRange(ctx, asked)
		if err != nil {
			return nil, err
		}
		return answer.Header, nil
	})
}

// count returns how many keys there are from one on, before another.
func (f *forgetting) count(ctx context.Context, start, end string) (int64, error) {
	answer, err := f.nodes.rangeAgain(ctx, &pb.RangeRequest{Key: []byte(start), RangeEnd: []byte(end), CountOnly: true})
	if err != nil {
		return 0, err
	}
	return answer.Count, nil
}

// again asks at each member once or twice for what does no harm where it is done again.
func (f *forgetting) again(ctx context.Context, ask question) error {
	return f.nodes.again(ctx, func() error { return f.nodes.ask(ctx, ask) })
}
