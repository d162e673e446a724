package order

import (
	"bytes"
	"context"
	"crypto/rand"
	"fmt"
	"sync"
	"time"

	"dsmdb/server/batch"
	pb "go.etcd.io/etcd/etcdserver/etcdserverpb"
)

// mostOwn is how many batches the watch may not have shown yet.
const mostOwn = 64

// making is what this server appends. The order's mutex guards it.
type making struct {
	more     sync.Cond
	database batch.ID // drawn for an order without batches whose database nobody knows
	waiting  []*String
	wantVote bool
	gather   gathering
	timer    *time.Timer       // that wakes who makes batches
	own      map[name]*ownMade // batches made since the start that the watch hasn't shown
	unknown  map[name]bool     // those whose strings were refused, though they may stand yet
	underWay sync.WaitGroup
}

// ownMade is a batch of this server. Its strings are put under one key, whatever answers are lost. Where some aren't
// wanted any more by then, it is tried without them: one try stands in the end, and no other can.
type ownMade struct {
	name
	key    string
	tries  []try // none before its strings are chosen
	unsure bool  // whether a try may have been put, or may still be
	cancel func()
}

type try struct {
	value   []byte
	strings []*String
}

func (m *making) begin() error {
	m.own, m.unknown = map[name]*ownMade{}, map[name]bool{}
	if _, err := rand.Read(m.database[:]); err != nil {
		return fmt.Errorf("drawing the database's identity: %w", err)
	}
	return nil
}

// take takes strings that are to be appended.
func (e *Etcd) take(strings []*String) {
	e.mutex.Lock()
	defer e.mutex.Unlock()
	e.making.waiting = append(e.making.waiting, strings...)
	e.making.wantVote = e.making.wantVote || len(strings) == 0
	e.making.more.Broadcast()
}

// make makes batches of what is to be appended, several at once. What comes meanwhile is gathered.
func (e *Etcd) make(ctx context.Context) error {
	for {
		own, strings, vote, err := e.nextOwn(ctx)
		if own == nil || err != nil {
			return err
		}
		wanted, dropped := stillWanted(strings)
		if len(dropped) > 0 {
			e.out.post(0, &Dropped{dropped})
		}
		if len(wanted) == 0 && !vote {
			e.mutex.Lock()
			e.making.gone(own.name)
			e.making.gather.end(0, len(e.making.waiting), time.Now())
			e.mutex.Unlock()
			continue
		}
		within, cancel := context.WithCancel(ctx)
		first := try{e.valueOf(own.key, wanted), wanted}
		e.mutex.Lock()
		own.cancel, own.tries = cancel, []try{first}
		e.mutex.Unlock()
		e.making.underWay.Add(1)
		go e.bring(within, own, len(wanted))
	}
}

// nextOwn waits for something to append, and returns a batch for it, without a value yet; none at the end.
func (e *Etcd) nextOwn(ctx context.Context) (own *ownMade, strings []*String, vote bool, err error) {
	e.mutex.Lock()
	defer e.mutex.Unlock()
	m := &e.making
	for ctx.Err() == nil {
		idle := len(m.waiting) == 0 && !m.wantVote
		if !idle && e.journal.noRoom() {
			if len(m.waiting) > 0 {
				e.out.post(0, &Refused{m.waiting, ErrFull})
			}
			m.waiting, m.wantVote, idle = nil, false, true
		}
		if !idle && e.caughtUp && m.gather.puts < mostPuts && len(m.own) < mostOwn {
			wait := m.gather.wait(len(m.waiting), time.Now())
			if wait == 0 || e.fillBatch(m.waiting) {
				break
			}
			m.timer.Reset(wait)
		}
		m.more.Wait()
	}
	if ctx.Err() != nil {
		return nil, nil, false, nil
	}
	drawn, err := newName(e.rule.counted)
	if err != nil {
		return nil, nil, false, ended("%w", err)
	}
	own = &ownMade{name: drawn, key: e.keys.of(drawn), cancel: func() {}}
	m.own[drawn] = own
	strings, m.waiting = cutToRoom(m.waiting, e.roomOfBatch())
	m.gather.begin(len(strings), time.Now())
	vote, m.wantVote = m.wantVote, false
	return own, strings, vote, nil
}

// roomOfBatch returns how many bytes the strings of a batch may take.
func (e *Etcd) roomOfBatch() int { return batch.Longest - batch.HeaderSize(e.maker.Version) }

// fillBatch returns whether strings fill a batch, so that no others could join them.
func (e *Etcd) fillBatch(strings []*String) bool {
	_, rest := cutToRoom(strings, e.roomOfBatch())
	return len(rest) > 0
}

func (e *Etcd) wakeMaking() {
	e.mutex.Lock()
	defer e.mutex.Unlock()
	e.making.more.Broadcast()
}

// valueOf returns what etcd keeps of a batch.
func (e *Etcd) valueOf(key string, strings []*String) []byte {
	made := batch.Batch{Header: batch.Header{
		Version: e.maker.Version, Database: e.database(), Maker: e.maker.ID, Vote: e.maker.vote(),
	}}
	for _, it := range strings {
		made.Strings = append(made.Strings, it.Text)
	}
	value := made.Append(nil)
	if e.secret != nil {
		value = e.secret.Sign(key, value)
	}
	return value
}

// database returns the identity of the order's database: the one that is known, or the one drawn for the first batch.
func (e *Etcd) database() batch.ID {
	e.mutex.Lock()
	defer e.mutex.Unlock()
	if e.rule.known {
		return e.rule.database
	}
	return e.making.database
}

// bring puts a batch of so many strings, again and again until an answer says that the batch is there, or the watch shows
// what became of it.
func (e *Etcd) bring(ctx context.Context, own *ownMade, count int) {
	defer e.making.underWay.Done()
	defer func() {
		e.mutex.Lock()
		e.making.gather.end(count, len(e.making.waiting), time.Now())
		e.making.more.Broadcast()
		e.mutex.Unlock()
	}()
	for failures := 1; ; failures++ {
		value := e.lastTry(own)
		if value == nil {
			return
		}
		err := e.put(ctx, own.key, value)
		if err == nil || ctx.Err() != nil {
			return
		}
		if isEnd(err) {
			e.fail(err)
			return
		}
		kind := faultOf(ctx, err)
		if kind == full || kind == tooLarge {
			if e.isRefused(ctx, own, err) {
				return
			}
		}
		if !e.nodes.pause(ctx, failures) || !e.tryAgain(own, kind) {
			return
		}
	}
}

func (e *Etcd) lastTry(own *ownMade) []byte {
	e.mutex.Lock()
	defer e.mutex.Unlock()
	if len(own.tries) == 0 {
		return nil
	}
	return own.tries[len(own.tries)-1].value
}

// put puts a value where its key isn't there yet, and the order isn't gone.
func (e *Etcd) put(ctx context.Context, key string, value []byte) error {
	put := &pb.RequestOp{Request: &pb.RequestOp_RequestPut{RequestPut: &pb.PutRequest{Key: []byte(key), Value: value}}}
	answer, err := e.nodes.txn(ctx, &pb.TxnRequest{
		Compare: []*pb.Compare{isAbsent(key), isAbsent(e.keys.mark())},
		Success: []*pb.RequestOp{put},
		Failure: []*pb.RequestOp{ranged(e.keys.askMark())},
	})
	if err != nil || answer.Succeeded {
		return err
	}
	return e.keys.goneBy(rangeIn(answer, 0).Kvs)
}

// isAbsent compares a key with none.
func isAbsent(key string) *pb.Compare {
	return &pb.Compare{
		Key: []byte(key), Target: pb.Compare_VERSION, Result: pb.Compare_EQUAL, TargetUnion: &pb.Compare_Version{},
	}
}

// isRefused looks whether a batch stands in etcd though etcd has no space for it. Where it doesn't, its strings are
// refused.
func (e *Etcd) isRefused(ctx context.Context, own *ownMade, why error) bool {
	answer, err := e.nodes.rangeOf(ctx, &pb.RangeRequest{Key: []byte(own.key), KeysOnly: true})
	if err != nil {
		if isEnd(err) {
			e.fail(err)
		}
		return ctx.Err() != nil
	}
	if len(answer.Kvs) > 0 {
		return true // the watch shows it
	}
	e.log("etcd: a batch was refused: %s", wordsOf(why))
	e.mutex.Lock()
	defer e.mutex.Unlock()
	if len(own.tries) == 0 || e.making.own[own.name] != own {
		return true
	}
	refusal := &Refused{own.tries[0].strings, ErrFull}
	if own.unsure {
		refusal.Why = ErrUnknown
		e.making.unknown[own.name] = true
	}
	e.making.gone(own.name)
	if len(refusal.Of) > 0 {
		e.out.post(0, refusal)
	}
	return true
}

// tryAgain prepares another try of a batch that wasn't answered as was wanted; false where there is none.
func (e *Etcd) tryAgain(own *ownMade, kind fault) bool {
	e.mutex.Lock()
	if len(own.tries) == 0 || e.making.own[own.name] != own {
		e.mutex.Unlock()
		return false
	}
	own.unsure = own.unsure || kind == lost || kind == full || kind == tooLarge
	last := own.tries[len(own.tries)-1].strings
	e.mutex.Unlock()
	wanted, dropped := stillWanted(last)
	if len(dropped) == 0 {
		return true
	}
	again := try{e.valueOf(own.key, wanted), wanted}
	e.mutex.Lock()
	defer e.mutex.Unlock()
	if len(own.tries) == 0 || e.making.own[own.name] != own {
		return false
	}
	if own.unsure {
		own.tries = append(own.tries, again)
		return true
	}
	own.tries = []try{again}
	e.out.post(0, &Dropped{dropped})
	if len(wanted) == 0 {
		e.making.gone(own.name)
	}
	return len(wanted) > 0
}

// gone forgets a batch of this server.
func (m *making) gone(which name) {
	if own := m.own[which]; own != nil {
		own.cancel()
		delete(m.own, which)
		m.more.Broadcast()
	}
}

// settle is told of a batch that counts. Where it is of this server the event says of which strings; what isn't in it
// was dropped.
func (m *making) settle(it *stored, event *Counted) []Event {
	own := m.own[it.name]
	if own == nil {
		event.Made = m.unknown[it.name]
		delete(m.unknown, it.name)
		return nil
	}
	m.gone(it.name)
	event.Made = true
	for _, tried := range own.tries {
		if !bytes.Equal(tried.value, it.value) {
			continue
		}
		event.Own = tried.strings
		if left := without(own.tries[0].strings, tried.strings); len(left) > 0 {
			return []Event{&Dropped{left}}
		}
		return nil
	}
	return nil
}

// without returns the strings that aren't among others.
func without(all, others []*String) []*String {
	among := make(map[*String]bool, len(others))
	for _, it := range others {
		among[it] = true
	}
	var left []*String
	for _, it := range all {
		if !among[it] {
			left = append(left, it)
		}
	}
	return left
}

// void has the strings of a batch that takes no place go into another one.
func (m *making) void(which name) {
	own := m.own[which]
	if own == nil {
		return
	}
	m.gone(which)
	if len(own.tries) > 0 {
		m.waiting = append(append([]*String(nil), own.tries[0].strings...), m.waiting...)
		m.wantVote = m.wantVote || len(own.tries[0].strings) == 0
	}
}

// settleVoid finds the batches of this server that can't count any more.
func (e *Etcd) settleVoid() {
	e.mutex.Lock()
	defer e.mutex.Unlock()
	for which := range e.making.own {
		if e.rule.isVoid(which.hint) {
			e.making.void(which)
		}
	}
	for which := range e.making.unknown {
		if e.rule.isVoid(which.hint) {
			delete(e.making.unknown, which)
		}
	}
}

// sweep drops strings that wait for etcd, and that nobody wants any more.
func (e *Etcd) sweep() {
	if _, why := e.Reached(); why == nil {
		return
	}
	e.mutex.Lock()
	waiting := e.making.waiting
	e.making.waiting = nil
	e.mutex.Unlock()
	wanted, dropped := stillWanted(waiting)
	e.mutex.Lock()
	defer e.mutex.Unlock()
	e.making.waiting = append(wanted, e.making.waiting...)
	if len(dropped) > 0 {
		e.out.post(0, &Dropped{dropped})
	}
	e.making.more.Broadcast()
}
