package order

import (
	"bytes"
	"context"

	pb "go.etcd.io/etcd/etcdserver/etcdserverpb"
	"go.etcd.io/etcd/mvcc/mvccpb"
)

// An order is forgotten under its mark, the key PREFIX/K. Forget puts the mark before it deletes anything, and the mark
// stays. Every put of a batch asks in its transaction that the mark isn't there. So what etcd has at one revision without
// the mark is whole, and nothing comes to stand behind the mark.

// goneMark is what the value of the mark begins with.
var goneMark = []byte{0, 4}

// toDoWhenGone says what to do where an order in etcd is gone: other servers know where the database goes on.
const toDoWhenGone = "; `dsmdb fetch SERVER --data DIR` gets the settings of the database's present order from a server that has them"

// askMark asks for the mark of an order that is gone.
func (k keys) askMark() *pb.RangeRequest { return &pb.RangeRequest{Key: []byte(k.mark())} }

// isMark returns whether what etcd has under the key of the mark says that the order is gone.
func isMark(found []*mvccpb.KeyValue) bool {
	return len(found) > 0 && bytes.HasPrefix(found[0].Value, goneMark)
}

// goneBy says that the order is gone, by what etcd has under the key of its mark; nil where nothing is there.
func (k keys) goneBy(found []*mvccpb.KeyValue) error {
	switch {
	case isMark(found):
		return ended("%w", &goneError{k.number, toDoWhenGone})
	case len(found) > 0:
		return ended("%s is there, and doesn't say that order %d is gone: nothing can be appended until a person deletes that key",
			k.mark(), k.number)
	}
	return nil
}

// goneOr returns that the order is gone where its mark is there, else another error. Keys are deleted where an order is
// forgotten, and where somebody changes the past: the mark tells which. Etcd's answer is waited for, since an order that
// was forgotten mustn't end for another reason.
func (e *Etcd) goneOr(ctx context.Context, other error) error {
	for failures := 1; ; failures++ {
		answer, err := e.nodes.rangeOf(ctx, e.keys.askMark())
		switch {
		case err == nil && isMark(answer.Kvs):
			return e.keys.goneBy(answer.Kvs)
		case err == nil:
			return other
		case isEnd(err):
			if other == nil {
				return err
			}
			return other
		case !e.nodes.pause(ctx, failures):
			return ctx.Err()
		case e.ctx.Err() != nil: // of the order, where the context is another
			return e.ctx.Err()
		}
	}
}

// ranged is a part of a transaction that asks for keys.
func ranged(asked *pb.RangeRequest) *pb.RequestOp {
	return &pb.RequestOp{Request: &pb.RequestOp_RequestRange{RequestRange: asked}}
}

// rangeIn returns what a part of a transaction found.
func rangeIn(answer *pb.TxnResponse, part int) *pb.RangeResponse {
	return answer.Responses[part].GetResponseRange()
}
