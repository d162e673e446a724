package order

import (
	"context"
	"time"

	pb "go.etcd.io/etcd/etcdserver/etcdserverpb"
)

const (
	askAnyway  = 2 * time.Second        // after which etcd is asked though nobody wants to know
	showIn     = 3 * time.Second        // that the watch may take to show what etcd has counted
	showOthers = 100 * time.Millisecond // the same, where only keys that don't count may be wanting
)

// ends are questions for the order's end. The order's mutex guards them.
type ends struct {
	asked    uint64        // the last question
	answered uint64        // up to here
	wake     chan struct{} // of the goroutine that asks etcd
	cut      func()        // ends the watch
	watched  int32         // which member is watched
	silent   bool          // whether the watch was ended since its member shows nothing
	decided  int64         // revision up to which the watch has shown all
	tallies  uint64        // how many tallies there were: a count is compared with the one that it was asked for
	held     bool          // whether the tally's floor stays, since a count from there on is asked for
	wanted   *count        // what the watch has to have shown
}

// count is how many keys etcd had from the tally's floor on.
type count struct {
	question uint64
	keys     int64
	revision int64
	over     chan struct{} // closed once all are shown, or once the keys are listed again
}

// AskEnd implements Order.
func (e *Etcd) AskEnd() uint64 {
	e.mutex.Lock()
	defer e.mutex.Unlock()
	e.ends.asked++
	select {
	case e.ends.wake <- struct{}{}:
	default:
	}
	return e.ends.asked
}

// askEnds asks etcd how many keys there are, for all questions at once that came meanwhile.
func (e *Etcd) askEnds(ctx context.Context) error {
	clock := time.NewTicker(askAnyway)
	defer clock.Stop()
	for failures := 0; ctx.Err() == nil; {
		anyway := false
		if failures == 0 {
			select {
			case <-ctx.Done():
				return nil
			case <-e.ends.wake:
			case <-clock.C:
				anyway = true
			}
			e.sweep()
		}
		err := e.askEnd(ctx, anyway || failures > 0)
		if isEnd(err) {
			return err
		}
		if err == nil {
			failures = 0
			continue
		}
		if failures++; !e.nodes.pause(ctx, failures) {
			return nil
		}
	}
	return nil
}

// askEnd asks until all questions are answered, at least once where that is wanted anyway.
func (e *Etcd) askEnd(ctx context.Context, anyway bool) error {
	for ; ctx.Err() == nil; anyway = false {
		question, floor, tallies, ok := e.beginCount(anyway)
		if !ok {
			return nil
		}
		keys, revision, err := e.countKeys(ctx, floor)
		if err != nil {
			e.endCount()
			return err
		}
		wanted := &count{question, keys, revision, make(chan struct{})}
		if e.want(wanted, tallies) {
			e.await(ctx, wanted)
		}
		e.endCount()
	}
	return nil
}

// countKeys returns how many keys etcd has from a hint on, and at which revision. The mark is read at the same revision:
// where the order is gone keys are deleted, and their number says nothing of the order's end.
func (e *Etcd) countKeys(ctx context.Context, hint uint64) (keys, revision int64, err error) {
	asked := &pb.RangeRequest{Key: []byte(e.keys.from(hint)), RangeEnd: []byte(e.keys.end()), CountOnly: true}
	both := &pb.TxnRequest{Success: []*pb.RequestOp{ranged(asked), ranged(e.keys.askMark())}}
	answer, err := e.nodes.txn(ctx, both)
	if err == nil {
		return rangeIn(answer, 0).Count, answer.Header.Revision, e.keys.goneBy(rangeIn(answer, 1).Kvs)
	}
	if faultOf(ctx, err) != full {
		return 0, 0, err
	}
	// an older etcd without space refuses transactions that only read, too; then the mark is read behind the number
	counted, err := e.nodes.rangeOf(ctx, asked)
	if err != nil {
		return 0, 0, err
	}
	mark, err := e.nodes.rangeOf(ctx, e.keys.askMark())
	if err != nil {
		return 0, 0, err
	}
	return counted.Count, counted.Header.Revision, e.keys.goneBy(mark.Kvs)
}

// beginCount returns which questions a count answers, and from which hint on; false where none is wanted.
func (e *Etcd) beginCount(anyway bool) (question, floor, tallies uint64, ok bool) {
	e.mutex.Lock()
	defer e.mutex.Unlock()
	if !e.caughtUp || e.ends.asked == e.ends.answered && !anyway {
		return 0, 0, 0, false // before, the first listing answers
	}
	e.tally.raise(floorOf(e.rule.counted))
	e.ends.held = true
	return e.ends.asked, e.tally.floor, e.ends.tallies, true
}

func (e *Etcd) endCount() {
	e.mutex.Lock()
	defer e.mutex.Unlock()
	e.ends.held, e.ends.wanted = false, nil
}

// want has the reader show as many keys; false where they were listed since the count was begun.
func (e *Etcd) want(wanted *count, tallies uint64) bool {
	e.mutex.Lock()
	defer e.mutex.Unlock()
	if tallies != e.ends.tallies {
		return false
	}
	e.ends.wanted = wanted
	e.answer()
	return true
}

// await waits for the reader to show as many keys. Where that takes too long the watch is ended, and the keys are
// listed again.
func (e *Etcd) await(ctx context.Context, wanted *count) {
	for _, wait := range []time.Duration{showOthers, showIn - showOthers} {
		timer := time.NewTimer(wait)
		select {
		case <-wanted.over:
			timer.Stop()
			return
		case <-ctx.Done():
			timer.Stop()
			return
		case <-timer.C:
		}
		if e.areShown(wanted) {
			break
		}
	}
	e.endWatch(!e.areShown(wanted))
	select {
	case <-wanted.over:
	case <-ctx.Done():
	}
}

// endWatch ends the watch, so that the keys are listed again: at another member where this one shows nothing.
func (e *Etcd) endWatch(silent bool) {
	e.mutex.Lock()
	defer e.mutex.Unlock()
	e.ends.silent = silent
	e.ends.cut()
}

// leftMember ends the watch of a member that doesn't answer any more.
func (e *Etcd) leftMember(at int32) {
	e.mutex.Lock()
	defer e.mutex.Unlock()
	if e.ends.watched == at {
		e.ends.cut()
	}
}

// areShown returns whether the watch has shown as many keys as there were.
func (e *Etcd) areShown(wanted *count) bool {
	e.mutex.Lock()
	defer e.mutex.Unlock()
	all, _ := e.tally.sum(e.keys.from(e.tally.floor))
	return all >= wanted.keys
}

// answer answers the questions for which the watch has shown enough: as many keys as etcd had. Where there are keys that
// don't count, they may have made up for keys that do, if they were deleted meanwhile: then the watch has to have come to
// the revision of etcd's count.
func (e *Etcd) answer() {
	if wanted := e.ends.wanted; wanted != nil {
		all, others := e.tally.sum(e.keys.from(e.tally.floor))
		if all < wanted.keys || others > 0 && e.ends.decided < wanted.revision {
			return
		}
		e.answered(wanted.question)
		e.ends.wanted = nil
		close(wanted.over)
	}
}

// answered answers all questions up to one.
func (e *Etcd) answered(question uint64) {
	if question > e.ends.answered {
		e.ends.answered = question
		e.out.post(0, End{question, e.rule.position})
	}
}

// retally has what is asked for be asked anew, since the keys are listed.
func (e *Etcd) retally() {
	e.ends.tallies++
	e.ends.held = false
	if wanted := e.ends.wanted; wanted != nil {
		e.ends.wanted = nil
		close(wanted.over)
	}
}

// shown notes up to which revision the watch has shown all.
func (e *Etcd) shown(revision int64) {
	e.ends.decided = revision
	e.answer()
	if !e.ends.held {
		e.tally.raise(floorOf(e.rule.counted))
	}
}
