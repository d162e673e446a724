package order

import "sort"

// history is the names and revisions of batches that counted: of all until the order was compared with etcd, then of the
// last ones.
type history struct {
	offset  uint64 // how many come before
	entries []entry
}

type entry struct {
	name
	revision int64
}

const keptEntries = 3 * window

func (h *history) add(n name, revision int64) { h.entries = append(h.entries, entry{n, revision}) }

// end returns how many batches have counted.
func (h *history) end() uint64 { return h.offset + uint64(len(h.entries)) }

// trim forgets what neither a listing nor a search needs.
func (h *history) trim() {
	if over := len(h.entries) - keptEntries; over > window {
		h.entries = append(h.entries[:0:0], h.entries[over:]...)
		h.offset += uint64(over)
	}
}

// find returns which of the batches has a name: one of those that are kept. A batch of a hint is among the window behind
// that.
func (h *history) find(n name) (number uint64, ok bool) {
	from := n.hint
	if from < h.offset {
		from = h.offset
	}
	for at := from; at <= n.hint+window && at < h.end(); at++ {
		if h.at(at).name == n {
			return at, true
		}
	}
	return 0, false
}

// isForgotten returns whether a batch of a hint may be among those that aren't kept any more.
func (h *history) isForgotten(hint uint64) bool { return hint < h.offset }

func (h *history) at(number uint64) entry { return h.entries[number-h.offset] }

// before returns how many batches stand before a place, among those that are kept.
func (h *history) before(k keys, p place) uint64 {
	return h.offset + uint64(sort.Search(len(h.entries), func(at int) bool {
		it := h.entries[at]
		return !place{it.revision, k.of(it.name)}.before(p)
	}))
}
