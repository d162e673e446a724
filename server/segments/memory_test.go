package segments

import (
	"errors"
	"io"
	"math/rand"
	"sort"
	"sync"
	"syscall"
)

const sector = 512

var errPower = errors.New("the power is gone")

// memory is a disk in memory that has a cache in front of what is forced, and whose calls fail as a test says.
type memory struct {
	mutex  sync.Mutex
	names_ map[string]*blob // as programs see them
	forced map[string]*blob // as they are after the power was gone
	left   int              // calls before the power goes; below zero it stays
	failed func(call, name string) error
}

// blob is a file's bytes, whatever its name is.
type blob struct{ cached, forced []byte }

func newMemory() *memory {
	return &memory{names_: map[string]*blob{}, forced: map[string]*blob{}, left: -1}
}

// called counts a call, and says whether it fails.
func (m *memory) called(call, name string) error {
	if m.left == 0 {
		return errPower
	}
	if m.left > 0 {
		m.left--
	}
	if m.failed != nil {
		return m.failed(call, name)
	}
	return nil
}

// cut has the power go: names and bytes that weren't forced are as before, as after, or
// anything, a sector at a time.
func (m *memory) cut(random *rand.Rand) {
	m.mutex.Lock()
	defer m.mutex.Unlock()
	names := m.forced
	if random.Intn(2) == 0 {
		names = m.names_
	}
	m.names_, m.forced, m.left = map[string]*blob{}, map[string]*blob{}, -1
	for name, found := range names {
		torn := tear(found, random)
		m.names_[name] = &blob{torn, append([]byte(nil), torn...)}
		m.forced[name] = m.names_[name]
	}
}

func tear(found *blob, random *rand.Rand) []byte {
	torn := append([]byte(nil), found.cached...)
	for at := 0; at < len(torn); at += sector {
		end := at + sector
		if end > len(torn) {
			end = len(torn)
		}
		before := make([]byte, end-at)
		if at < len(found.forced) {
			copy(before, found.forced[at:])
		}
		if string(before) == string(torn[at:end]) {
			continue
		}
		switch random.Intn(3) {
		case 0:
			copy(torn[at:end], before)
		case 1:
			for place, it := range before {
				if torn[at+place] != it {
					torn[at+place] = byte(random.Intn(256))
				}
			}
		}
	}
	return torn
}

func (m *memory) names() ([]string, error) {
	m.mutex.Lock()
	defer m.mutex.Unlock()
	if err := m.called("names", ""); err != nil {
		return nil, err
	}
	var found []string
	for name := range m.names_ {
		found = append(found, name)
	}
	sort.Strings(found)
	return found, nil
}

func (m *memory) create(name string) (file, error) {
	m.mutex.Lock()
	defer m.mutex.Unlock()
	if err := m.called("create", name); err != nil {
		return nil, err
	}
	m.names_[name] = &blob{}
	return &handle{m, name, m.names_[name]}, nil
}

func (m *memory) open(name string) (file, error) {
	m.mutex.Lock()
	defer m.mutex.Unlock()
	if err := m.called("open", name); err != nil {
		return nil, err
	}
	if m.names_[name] == nil {
		return nil, syscall.ENOENT
	}
	return &handle{m, name, m.names_[name]}, nil
}

func (m *memory) rename(from, to string) error {
	m.mutex.Lock()
	defer m.mutex.Unlock()
	if err := m.called("rename", to); err != nil {
		return err
	}
	m.names_[to] = m.names_[from]
	delete(m.names_, from)
	return nil
}

func (m *memory) remove(name string) error {
	m.mutex.Lock()
	defer m.mutex.Unlock()
	if err := m.called("remove", name); err != nil {
		return err
	}
	delete(m.names_, name)
	return nil
}

func (m *memory) force() error {
	m.mutex.Lock()
	defer m.mutex.Unlock()
	if err := m.called("force folder", ""); err != nil {
		return err
	}
	m.forced = map[string]*blob{}
	for name, found := range m.names_ {
		m.forced[name] = found
	}
	return nil
}

type handle struct {
	memory *memory
	name   string
	blob   *blob
}

func (h *handle) ReadAt(to []byte, at int64) (int, error) {
	h.memory.mutex.Lock()
	defer h.memory.mutex.Unlock()
	if err := h.memory.called("read", h.name); err != nil {
		return 0, err
	}
	if at >= int64(len(h.blob.cached)) {
		return 0, io.EOF
	}
	count := copy(to, h.blob.cached[at:])
	if count < len(to) {
		return count, io.EOF
	}
	return count, nil
}

func (h *handle) WriteAt(from []byte, at int64) (int, error) {
	h.memory.mutex.Lock()
	defer h.memory.mutex.Unlock()
	if err := h.memory.called("write", h.name); err != nil {
		half := from[:len(from)/2]
		h.put(half, at)
		return len(half), err
	}
	h.put(from, at)
	return len(from), nil
}

func (h *handle) put(from []byte, at int64) {
	if end := at + int64(len(from)); end > int64(len(h.blob.cached)) {
		h.blob.cached = append(h.blob.cached, make([]byte, end-int64(len(h.blob.cached)))...)
	}
	copy(h.blob.cached[at:], from)
}

func (h *handle) Close() error { return nil }

func (h *handle) size() (int64, error) {
	h.memory.mutex.Lock()
	defer h.memory.mutex.Unlock()
	if err := h.memory.called("size", h.name); err != nil {
		return 0, err
	}
	return int64(len(h.blob.cached)), nil
}

func (h *handle) force() error {
	h.memory.mutex.Lock()
	defer h.memory.mutex.Unlock()
	if err := h.memory.called("force", h.name); err != nil {
		return err
	}
	h.blob.forced = append(h.blob.forced[:0], h.blob.cached...)
	return nil
}
