package order

import (
	"context"
	"errors"
	"fmt"
	"os"
	"path/filepath"
	"strings"
	"testing"
	"time"

	"dsmdb/server/batch"
	"dsmdb/server/data"
)

// newFolder returns a server's data folder, and its path.
func newFolder(t *testing.T) (*data.Folder, string) {
	t.Helper()
	path := filepath.Join(t.TempDir(), "db")
	folder, err := data.Open(path)
	if err != nil {
		t.Fatal(err)
	}
	t.Cleanup(func() { folder.Close() })
	return folder, path
}

// ordersIn returns the names of orders in a data folder, and of their marks.
func ordersIn(t *testing.T, path string) string {
	t.Helper()
	entries, err := os.ReadDir(path)
	if err != nil {
		t.Fatal(err)
	}
	var names []string
	for _, it := range entries {
		if strings.HasPrefix(it.Name(), "order-") {
			names = append(names, strings.TrimLeft(strings.TrimPrefix(it.Name(), "order-"), "0"))
		}
	}
	return strings.Join(names, " ")
}

// openedIn opens an order in a folder.
func openedIn(t *testing.T, place Place, number uint64, of Maker) *Local {
	t.Helper()
	opened, err := place.Open(number, of)
	if err != nil {
		t.Fatal(err)
	}
	t.Cleanup(func() { opened.Close() })
	return opened.(*Local)
}

// appendedIn appends one string to a new order in a folder, closes the order, and returns the database's identity.
func appendedIn(t *testing.T, place Place, number uint64, of Maker) batch.ID {
	t.Helper()
	l := openedIn(t, place, number, of)
	defer l.Close()
	var left []Event
	if it, is := next(t, l, &left).(Begun); !is || it.Position != 0 {
		t.Fatalf("%+v", it)
	}
	l.Append(stringsOf("text"))
	it, is := next(t, l, &left).(*Counted)
	if !is {
		t.Fatalf("%+v", it)
	}
	return it.Header.Database
}

func TestOrdersInAFolderAreForgotten(t *testing.T) {
	folder, path := newFolder(t)
	place := InFolder(folder)
	for number := uint64(1); number <= 4; number++ {
		appendedIn(t, place, number, maker)
	}
	forget := func(below uint64, want, left string) {
		t.Helper()
		deleted, err := place.Forget(context.Background(), below)
		if err != nil || fmt.Sprint(deleted) != want || ordersIn(t, path) != left {
			t.Errorf("%v, %v, left: %s", deleted, err, ordersIn(t, path))
		}
	}
	forget(1, "[]", "1 2 3 4")
	forget(3, "[1 2]", "1.gone 2.gone 3 4")
	forget(3, "[]", "1.gone 2.gone 3 4")
	forget(2, "[]", "1.gone 2.gone 3 4")
	if _, err := place.Open(2, maker); !errors.Is(err, ErrGone) || err.Error() != "order 2 is gone: it was forgotten" {
		t.Errorf("%v", err)
	}
	if found := ordersIn(t, path); found != "1.gone 2.gone 3 4" {
		t.Errorf("an order that is gone is begun again: %s", found)
	}
	// the power went between the mark and the end of the deletion
	if err := folder.MarkGone(3); err != nil {
		t.Fatal(err)
	}
	if _, err := place.Open(3, maker); !errors.Is(err, ErrGone) {
		t.Errorf("%v", err)
	}
	forget(4, "[3]", "1.gone 2.gone 3.gone 4")
	forget(4, "[]", "1.gone 2.gone 3.gone 4")
	for _, below := range []uint64{0, 5} {
		if _, err := place.Forget(context.Background(), below); err == nil || !strings.Contains(err.Error(), "isn't there, so no order before it is forgotten") {
			t.Errorf("%v", err)
		}
	}
	over, cancel := context.WithCancel(context.Background())
	cancel()
	appendedIn(t, place, 5, maker)
	if deleted, err := place.Forget(over, 5); !errors.Is(err, context.Canceled) || deleted != nil {
		t.Errorf("%v, %v", deleted, err)
	}
	if _, err := place.Open(0, maker); err == nil {
		t.Error("there is an order 0")
	}
}

// brokenFolders are folders of which one can't be marked, or removed.
type brokenFolders struct {
	*data.Folder
	mark, remove uint64
}

var errBroken = errors.New("the disk is broken")

func (b *brokenFolders) MarkGone(number uint64) error {
	if number == b.mark {
		return errBroken
	}
	return b.Folder.MarkGone(number)
}

func (b *brokenFolders) RemoveOrder(number uint64) error {
	if number == b.remove {
		return errBroken
	}
	return b.Folder.RemoveOrder(number)
}

// Nothing of an order is deleted before its mark is on the disk.
func TestWhatCannotBeForgottenIsSaid(t *testing.T) {
	folder, path := newFolder(t)
	broken := &brokenFolders{Folder: folder, mark: 2}
	place := InFolder(broken)
	for number := uint64(1); number <= 4; number++ {
		appendedIn(t, place, number, maker)
	}
	deleted, err := place.Forget(context.Background(), 4)
	if fmt.Sprint(deleted) != "[1]" || !errors.Is(err, errBroken) || !strings.HasPrefix(err.Error(), "forgetting order 2: marking it as gone: ") {
		t.Errorf("%v, %v", deleted, err)
	}
	if found := ordersIn(t, path); found != "1.gone 2 3 4" {
		t.Error(found)
	}
	broken.mark, broken.remove = 0, 3
	deleted, err = place.Forget(context.Background(), 4)
	if fmt.Sprint(deleted) != "[2]" || !errors.Is(err, errBroken) || !strings.HasPrefix(err.Error(), "forgetting order 3: deleting its folder: ") {
		t.Errorf("%v, %v", deleted, err)
	}
	if found := ordersIn(t, path); found != "1.gone 2.gone 3 3.gone 4" {
		t.Error(found)
	}
}

// endOf returns why an order in a folder ended by itself.
func endOf(t *testing.T, l *Local) error {
	t.Helper()
	timeout := time.After(30 * time.Second)
	for {
		select {
		case _, is := <-l.Events():
			if !is {
				return l.Err()
			}
		case <-timeout:
			t.Fatal("the order doesn't end")
		}
	}
}

func TestTheIdentityOfADatabaseIsHandedOn(t *testing.T) {
	folder, _ := newFolder(t)
	place := InFolder(folder)
	drawn := appendedIn(t, place, 1, maker)
	known, other := maker, maker
	known.Database, other.Database = drawn, batch.ID{9}
	if found := appendedIn(t, place, 2, known); found != drawn || drawn == (batch.ID{}) {
		t.Errorf("%x, %x", drawn, found)
	}
	for number := uint64(1); number <= 2; number++ {
		for _, of := range []Maker{maker, known} {
			l := openedIn(t, place, number, of)
			var left []Event
			if it, is := next(t, l, &left).(*Counted); !is || it.Header.Database != drawn {
				t.Errorf("%+v", it)
			}
			l.Close()
		}
		if err := endOf(t, openedIn(t, place, number, other)); err == nil || !strings.HasSuffix(err.Error(), "behind position 0: a batch of another database") {
			t.Errorf("%v", err)
		}
	}
	if found := appendedIn(t, place, 3, other); found != other.Database {
		t.Errorf("%x", found)
	}
}

func TestAnOrderInAFolderIsClosedWithAppendsOut(t *testing.T) {
	l := OpenLocal(t.TempDir(), maker)
	for round := 0; round < 1000; round++ { // and nobody takes events
		l.Append(stringsOf("text"))
	}
	began := time.Now()
	l.Close()
	if took := time.Since(began); took > time.Second || l.Err() != nil {
		t.Errorf("closed in %v: %v", took, l.Err())
	}
}
