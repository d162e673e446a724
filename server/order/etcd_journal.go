package order

import (
	"context"
	"encoding/binary"
	"errors"
	"fmt"
	"strings"
	"sync"
	"time"

	"dsmdb/server/durations"
	"dsmdb/server/segments"
	pb "go.etcd.io/etcd/etcdserver/etcdserverpb"
)

// JournalMagic is what the segments of the journal of an order in etcd begin with.
var JournalMagic = segments.Magic{'d', 's', 'm', 'd', 'b', 'j', 'n', 'l'}

const (
	journalAtOnce  = 4 << 20               // bytes that are written and forced together
	journalWaiting = 64 << 20              // bytes that wait for the disk before no more batches are read
	journalPause   = 50 * time.Millisecond // between two writes, since calls wait for etcd's disks, and this may be one
)

// journal is a copy of the batches that have counted, on this machine's disk. Batches count whether or not they stand in
// the journal already.
type journal struct {
	path   string
	etcd   *Etcd
	forces durations.Shared

	mutex   sync.Mutex
	more    sync.Cond
	log     journalLog   // nil until it is opened
	kept    uint64       // records on the disk
	waiting []*entryKept // batches that aren't on the disk yet
	size    int          // of their values
	isFull  bool
}

// journalLog is a *segments.Log. Tests have one whose disk is full.
type journalLog interface {
	AppendAll(kept [][]byte) (count int, err error)
	Reread(upto uint64, take func(kept []byte) error) error
	Close() error
}

// entryKept is a batch that has counted. Its value is nil where it has to be read from etcd again.
type entryKept struct {
	key      string
	revision int64
	value    []byte
}

func newJournal(path string, of *Etcd) *journal {
	j := &journal{path: path, etcd: of}
	j.more.L = &j.mutex
	return j
}

// A record of the journal is, numbers least byte first:
//
//	 0    8  revision at which the key was made
//	 8    2  length K of the key
//	10    K  key
//	10+K     value
func (it *entryKept) append(to []byte) []byte {
	to = binary.LittleEndian.AppendUint64(to, uint64(it.revision))
	to = binary.LittleEndian.AppendUint16(to, uint16(len(it.key)))
	to = append(to, it.key...)
	return append(to, it.value...)
}

var errNoEntry = errors.New("a record that is none of a journal")

func entryOf(kept []byte) (*entryKept, error) {
	if len(kept) < 10 {
		return nil, errNoEntry
	}
	length := int(binary.LittleEndian.Uint16(kept[8:]))
	if len(kept) < 10+length {
		return nil, errNoEntry
	}
	return &entryKept{
		key: string(kept[10 : 10+length]), revision: int64(binary.LittleEndian.Uint64(kept)),
		value: append([]byte(nil), kept[10+length:]...),
	}, nil
}

// readJournal opens the journal, and counts the batches that stand there. Where the disk is full it waits for room.
func (r *reader) readJournal(ctx context.Context) error {
	for {
		log, last, err := r.openJournal(ctx)
		if err == nil {
			r.decided = last
			r.nodes.saw(last.revision)
			r.journal.opened(log)
			return r.handOn(ctx)
		}
		if !segments.IsFull(err) {
			return ended("the journal in %s: %w", r.journal.path, err)
		}
		r.once("the journal's disk is full: the order is read once there is room")
		if !rest(ctx, longPause) {
			return nil
		}
	}
}

// openJournal opens the journal, and notes its batches. It returns the place of the last one.
func (r *reader) openJournal(ctx context.Context) (log *segments.Log, last place, err error) {
	check := newRule(r.secret, &r.maker)
	r.history, r.values, r.bytes = history{}, 0, 0
	options := segments.Options{Magic: JournalMagic, CutDamage: true, Forces: &r.journal.forces}
	log, err = segments.Open(r.journal.path, options, func(kept []byte) error {
		it, err := entryOf(kept)
		if err == nil {
			err = ctx.Err()
		}
		if err != nil {
			return err
		}
		if !strings.HasPrefix(it.key, r.keys.folder) {
			return fmt.Errorf("it is of another order: it has %s, and this order's keys begin with %s", it.key, r.keys.folder)
		}
		return r.recount(&check, it, &last)
	})
	return log, last, err
}

// recount counts a batch of the journal once more.
func (r *reader) recount(check *rule, kept *entryKept, last *place) error {
	found, ok := nameOf(kept.key[len(r.keys.folder):])
	it := &stored{
		name: found, key: kept.key, create: kept.revision, mod: kept.revision, version: 1, value: kept.value,
	}
	if !ok || !check.admits(it.hint) || !last.before(it.place()) {
		return fmt.Errorf("%s doesn't count behind %d batches", kept.key, check.counted)
	}
	opened, err := check.read(it)
	if err != nil {
		return fmt.Errorf("%s: %w", kept.key, err)
	}
	check.count(opened)
	r.values, r.bytes = r.values+1, r.bytes+int64(len(it.value))
	r.history.add(it.name, it.create)
	*last = it.place()
	return nil
}

// handOn hands on the batches of the journal.
func (r *reader) handOn(ctx context.Context) error {
	err := r.journal.reread(ctx, func(kept *entryKept) error {
		if !r.out.room(ctx) {
			return ctx.Err()
		}
		found, err := r.kept(kept.value)
		if err != nil {
			return err
		}
		r.mutex.Lock()
		defer r.mutex.Unlock()
		r.out.post(len(kept.value), &Counted{First: r.rule.count(found), Header: found.Header, Strings: found.Strings})
		return nil
	})
	if err != nil && ctx.Err() == nil {
		return ended("the journal in %s: %w", r.journal.path, err)
	}
	return nil
}

func (j *journal) opened(log *segments.Log) {
	j.mutex.Lock()
	defer j.mutex.Unlock()
	j.log, j.kept = log, log.Records()
	j.more.Broadcast()
}

func (j *journal) wake() {
	j.mutex.Lock()
	defer j.mutex.Unlock()
	j.more.Broadcast()
}

// noRoom returns whether the disk is full.
func (j *journal) noRoom() bool {
	j.mutex.Lock()
	defer j.mutex.Unlock()
	return j.isFull
}

// add hands over a batch that counts. Where the disk is slow it waits; where the disk is full, what there is no memory
// for is read from etcd once there is room.
func (j *journal) add(ctx context.Context, it *stored) error {
	j.mutex.Lock()
	defer j.mutex.Unlock()
	for j.size > journalWaiting && !j.isFull && ctx.Err() == nil {
		j.more.Wait()
	}
	if ctx.Err() != nil {
		return ctx.Err()
	}
	kept := &entryKept{key: it.key, revision: it.create}
	if j.size <= journalWaiting {
		kept.value = append(make([]byte, 0, len(it.value)), it.value...)
		j.size += len(it.value)
	}
	j.waiting = append(j.waiting, kept)
	j.more.Broadcast()
	return nil
}

// write writes what was handed over, until the context is over.
func (j *journal) write(ctx context.Context) error {
	for {
		log, some := j.next(ctx)
		if some == nil {
			return nil
		}
		count, err := j.writeSome(ctx, log, some)
		full := errors.Is(err, segments.ErrFull)
		if err != nil && !full && ctx.Err() == nil {
			return ended("the journal in %s: %w", j.path, err)
		}
		j.wrote(some[:count], full)
		wait := journalPause
		if full {
			wait = longPause
		}
		if !rest(ctx, wait) && full {
			return nil
		}
	}
}

// next waits for batches to write, and returns as many as are forced together; nil at the end.
func (j *journal) next(ctx context.Context) (journalLog, []*entryKept) {
	j.mutex.Lock()
	defer j.mutex.Unlock()
	for (j.log == nil || len(j.waiting) == 0) && ctx.Err() == nil {
		j.more.Wait()
	}
	if j.log == nil {
		return nil, nil
	}
	count, size := 0, 0
	for count < len(j.waiting) && size < journalAtOnce {
		if ctx.Err() != nil && j.waiting[count].value == nil {
			break
		}
		size += len(j.waiting[count].value)
		count++
	}
	if count == 0 {
		return nil, nil
	}
	return j.log, j.waiting[:count:count]
}

// writeSome writes batches, and returns how many are on the disk.
func (j *journal) writeSome(ctx context.Context, log journalLog, some []*entryKept) (int, error) {
	records := make([][]byte, 0, len(some))
	for _, it := range some {
		value, err := j.valueOf(ctx, it)
		if err != nil {
			if isEnd(err) || ctx.Err() != nil {
				return 0, err
			}
			break
		}
		records = append(records, (&entryKept{it.key, it.revision, value}).append(nil))
	}
	if len(records) == 0 {
		rest(ctx, longPause)
		return 0, nil
	}
	return log.AppendAll(records)
}

// wrote notes that the first of what waits is on the disk, and whether there is no room for the rest.
func (j *journal) wrote(some []*entryKept, full bool) {
	j.mutex.Lock()
	for _, it := range some {
		j.size -= len(it.value)
	}
	j.waiting = append(j.waiting[:0:0], j.waiting[len(some):]...)
	j.kept += uint64(len(some))
	changed := j.isFull != full
	j.isFull = full
	j.more.Broadcast()
	j.mutex.Unlock()
	if !changed {
		return
	}
	if full {
		j.etcd.log("the journal's disk is full: nothing is appended until there is room")
	} else {
		j.etcd.log("the journal's disk has room again")
	}
	j.etcd.mutex.Lock()
	j.etcd.making.more.Broadcast()
	j.etcd.mutex.Unlock()
}

// valueOf returns what etcd keeps of a batch that has counted.
func (j *journal) valueOf(ctx context.Context, it *entryKept) ([]byte, error) {
	if it.value != nil {
		return it.value, nil
	}
	answer, err := j.etcd.nodes.rangeOf(ctx, &pb.RangeRequest{Key: []byte(it.key)})
	if err != nil {
		return nil, err
	}
	if len(answer.Kvs) != 1 || answer.Kvs[0].ModRevision != it.revision {
		return nil, j.etcd.goneOr(ctx, ended("%w: %s, a batch of the order, isn't as it was", errPast, it.key))
	}
	value := answer.Kvs[0].Value
	if secret := j.etcd.secret; secret != nil {
		_, err = secret.Open(it.key, value)
	}
	if err == nil {
		_, err = j.etcd.kept(value)
	}
	if err != nil {
		return nil, fmt.Errorf("a member has a damaged copy of %s: %w", it.key, err)
	}
	return value, nil
}

// reread hands over all batches that have counted, once the journal is opened.
func (j *journal) reread(ctx context.Context, take func(kept *entryKept) error) error {
	j.mutex.Lock()
	for j.log == nil && ctx.Err() == nil && j.etcd.ctx.Err() == nil {
		j.more.Wait()
	}
	log, kept := j.log, j.kept
	waiting := append([]*entryKept(nil), j.waiting...)
	j.mutex.Unlock()
	if log == nil {
		return errors.New("the order has ended")
	}
	err := log.Reread(kept, func(kept []byte) error {
		it, err := entryOf(kept)
		if err != nil {
			return err
		}
		return take(it)
	})
	if err != nil {
		return err
	}
	for _, it := range waiting {
		value, err := j.valueOf(ctx, it)
		if err != nil {
			return err
		}
		copied := append([]byte(nil), value...)
		if err := take(&entryKept{it.key, it.revision, copied}); err != nil {
			return err
		}
	}
	return nil
}

func (j *journal) close() {
	j.mutex.Lock()
	defer j.mutex.Unlock()
	if j.log != nil {
		j.log.Close()
	}
}
