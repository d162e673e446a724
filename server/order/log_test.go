package order

import (
	"bytes"
	"encoding/hex"
	"os"
	"path/filepath"
	"reflect"
	"strings"
	"testing"

	"dsmdb/server/batch"
	"dsmdb/server/segments"
)

var maker = Maker{ID: batch.ID{1, 2, 3}, Version: "0.1"}

func opened(t *testing.T, path string) (*Log, []*batch.Batch) {
	t.Helper()
	var found []*batch.Batch
	l, err := Open(path, maker, nil, func(it *batch.Batch) error {
		found = append(found, it)
		return nil
	})
	if err != nil {
		t.Fatal(err)
	}
	t.Cleanup(func() { l.Close() })
	return l, found
}

func TestAnOrderIsReadAsItWasAppended(t *testing.T) {
	path := t.TempDir()
	l, found := opened(t, path)
	if _, begun := l.Database(); len(found) != 0 || begun || l.Position() != 0 {
		t.Fatal("a new order isn't empty")
	}
	batches := [][][]byte{{[]byte("first")}, {{}, []byte("third"), []byte("fourth")}, {}, {[]byte("fifth")}}
	votes := []batch.Vote{{}, {Position: 1, Strings: batch.Digest{1}}, {Position: 4, Answers: batch.Digest{2}}, {Position: 4}}
	position := uint64(0)
	for at, it := range batches {
		position += uint64(len(it))
		if _, err := l.Append(it, votes[at]); err != nil || l.Position() != position {
			t.Fatalf("batch %d ends at %d, %v", at, l.Position(), err)
		}
	}
	database, _ := l.Database()
	l.Close()

	l, found = opened(t, path)
	if again, begun := l.Database(); again != database || !begun || database == (batch.ID{}) || l.Position() != 5 {
		t.Errorf("%x, %v, position %d", again, begun, l.Position())
	}
	for at, it := range found {
		if len(it.Strings) != len(batches[at]) || len(it.Strings) > 0 && !reflect.DeepEqual(it.Strings, batches[at]) {
			t.Errorf("batch %d is %q", at, it.Strings)
		}
		want := batch.Header{Version: "0.1", Database: database, Maker: maker.ID, Vote: votes[at]}
		if it.Header != want {
			t.Errorf("batch %d has the header %+v", at, it.Header)
		}
	}
	if len(found) != len(batches) {
		t.Errorf("%d batches", len(found))
	}
	if _, err := l.Append([][]byte{[]byte("sixth")}, batch.Vote{}); l.Position() != 6 || err != nil {
		t.Errorf("the next one is at %d, %v", l.Position(), err)
	}
}

func TestABatchHasItsLimits(t *testing.T) {
	l, _ := opened(t, t.TempDir())
	long := make([]byte, batch.LongestString)
	for _, it := range [][][]byte{{append(long, 0)}, {long, long, long, long}} {
		if _, err := l.Append(it, batch.Vote{}); err == nil {
			t.Errorf("%d strings were taken", len(it))
		}
	}
	left := l.Room() - 3*batch.SizeOf(long) - 4
	if _, err := l.Append([][]byte{long, long, long, make([]byte, left)}, batch.Vote{}); l.Position() != 4 || err != nil {
		t.Errorf("a whole batch ends at %d, %v", l.Position(), err)
	}
}

func TestBatchesOfAnotherDatabaseAreRefused(t *testing.T) {
	path := t.TempDir()
	l, err := segments.Open(path, segments.Options{Magic: Magic}, nil)
	if err != nil {
		t.Fatal(err)
	}
	for number := byte(1); number <= 2; number++ {
		it := batch.Batch{Header: batch.Header{Database: batch.ID{number}}, Strings: [][]byte{{number}}}
		if _, err := l.Append(it.Append(nil)); err != nil {
			t.Fatal(err)
		}
	}
	l.Close()
	_, err = Open(path, maker, nil, func(*batch.Batch) error { return nil })
	if err == nil || !strings.HasSuffix(err.Error(), "behind position 1: a batch of another database") {
		t.Errorf("%v", err)
	}
}

func TestAnOrderOfTheOldFormIsLeftAsItWas(t *testing.T) {
	path, text := t.TempDir(), "0001\n"
	if err := os.WriteFile(filepath.Join(path, "order"), []byte(text), 0o600); err != nil {
		t.Fatal(err)
	}
	if _, err := Open(path, maker, nil, nil); err == nil || !strings.HasSuffix(err.Error(), "order: it is no segment of a log") {
		t.Errorf("%v", err)
	}
	if left, err := os.ReadFile(filepath.Join(path, "order")); string(left) != text || err != nil {
		t.Errorf("%q, %v", left, err)
	}
}

// The sum by `sha256sum`.
func TestStringsOfServers(t *testing.T) {
	first := First([]byte("window 4\n"), false)
	if hex.EncodeToString(first) != "0001"+"a326bf2aac9c462288b40aea87c3e7e9d9822eaf9bab437760a23e6d6d444bbd" {
		t.Errorf("%x", first)
	}
	one, err := NewSession()
	other, _ := NewSession()
	if err != nil || len(one) != 18 || !bytes.HasPrefix(one, []byte{0, 2}) || bytes.Equal(one, other) {
		t.Errorf("%x, %x, %v", one, other, err)
	}
	for _, it := range []struct {
		text []byte
		is   bool
	}{{first, true}, {one, true}, {first[:33], false}, {one[1:], false}, {nil, false}, {Filling, true}, {[]byte{2}, false}, {append([]byte{1}, first[1:]...), false}} {
		if IsOfServers(it.text) != it.is {
			t.Errorf("%x", it.text)
		}
	}
}
