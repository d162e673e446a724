package data

import (
	"fmt"
	"os"
	"path/filepath"
	"testing"

	"dsmdb/server/order"
)

var _ order.Folders = (*Folder)(nil)

func opened(t *testing.T) *Folder {
	t.Helper()
	f, err := Open(filepath.Join(t.TempDir(), "db"))
	if err != nil {
		t.Fatal(err)
	}
	t.Cleanup(func() { f.Close() })
	return f
}

func TestOrdersAreMarkedAndRemoved(t *testing.T) {
	f := opened(t)
	for _, number := range []uint64{11, 2, 12_345_678_901, 1} {
		path, err := f.Order(number)
		if err != nil {
			t.Fatal(err)
		}
		if err := os.WriteFile(filepath.Join(path, "0000000001.segment"), []byte("x"), 0o600); err != nil {
			t.Fatal(err)
		}
	}
	for _, other := range []string{"order-7", "order-0000000008.gone.new", "0000000009", "order-x"} {
		if err := os.Mkdir(filepath.Join(f.path, other), 0o700); err != nil {
			t.Fatal(err)
		}
	}
	if err := os.WriteFile(f.order(10), nil, 0o600); err != nil { // no folder
		t.Fatal(err)
	}
	if found, err := f.OrderFolders(); fmt.Sprint(found) != "[1 2 11 12345678901]" || err != nil {
		t.Errorf("%v, %v", found, err)
	}
	if gone, err := f.IsGone(2); gone || err != nil {
		t.Errorf("%v, %v", gone, err)
	}
	for again := 0; again < 2; again++ {
		if err := f.MarkGone(2); err != nil {
			t.Fatal(err)
		}
		if gone, err := f.IsGone(2); !gone || err != nil {
			t.Errorf("%v, %v", gone, err)
		}
		if text, err := os.ReadFile(filepath.Join(f.path, "order-0000000002.gone")); string(text) != goneText || err != nil {
			t.Errorf("%q, %v", text, err)
		}
		if err := f.RemoveOrder(2); err != nil {
			t.Fatal(err)
		}
		if _, err := os.Stat(f.order(2)); !os.IsNotExist(err) {
			t.Error(err)
		}
	}
	if found, err := f.OrderFolders(); fmt.Sprint(found) != "[1 11 12345678901]" || err != nil {
		t.Errorf("%v, %v", found, err)
	}
}
