package order

// tally is how many keys of the order there are from a hint on: those that count, and others. It is compared with etcd's
// own count.
type tally struct {
	folder  string
	floor   uint64
	all     int64
	others  int64
	ofHint  map[uint64]amount
	strange map[string]bool // keys without a hint
}

type amount struct{ all, others int64 }

func newTally(folder string, floor uint64) *tally {
	return &tally{folder: folder, floor: floor, ofHint: map[uint64]amount{}, strange: map[string]bool{}}
}

// add notes that there is a key more.
func (t *tally) add(key string, counts bool) {
	hint, ok := hintOf(key[len(t.folder):])
	if !ok {
		t.strange[key] = true
		return
	}
	if hint < t.floor {
		return
	}
	more := amount{all: 1}
	if !counts {
		more.others = 1
	}
	t.change(hint, more)
}

// remove notes that a key which doesn't count is gone.
func (t *tally) remove(key string) {
	hint, ok := hintOf(key[len(t.folder):])
	if !ok {
		delete(t.strange, key)
		return
	}
	if hint >= t.floor {
		t.change(hint, amount{-1, -1})
	}
}

func (t *tally) change(hint uint64, by amount) {
	now := t.ofHint[hint]
	now.all += by.all
	now.others += by.others
	if now == (amount{}) {
		delete(t.ofHint, hint)
	} else {
		t.ofHint[hint] = now
	}
	t.all += by.all
	t.others += by.others
}

// raise leaves out the keys below a hint.
func (t *tally) raise(floor uint64) {
	for ; t.floor < floor; t.floor++ {
		if now, ok := t.ofHint[t.floor]; ok {
			t.change(t.floor, amount{-now.all, -now.others})
		}
	}
}

// sum returns how many keys there are from the floor on, and how many of them don't count.
func (t *tally) sum(from string) (all, others int64) {
	strange := int64(0)
	for key := range t.strange {
		if key >= from {
			strange++
		}
	}
	return t.all + strange, t.others + strange
}
