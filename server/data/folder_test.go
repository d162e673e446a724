package data

import (
	"os"
	"path/filepath"
	"strings"
	"testing"

	"dsmdb/server/batch"
)

func TestAFolderKeepsWhoTheServerIs(t *testing.T) {
	path := filepath.Join(t.TempDir(), "db")
	first, err := Open(path)
	if err != nil {
		t.Fatal(err)
	}
	if first.Maker() == (batch.ID{}) {
		t.Error("the server has no identity")
	}
	if found, err := os.Stat(path); err != nil || found.Mode().Perm() != 0o700 {
		t.Errorf("%v, %v", found.Mode(), err)
	}
	if _, err := Open(path); err == nil || !strings.HasSuffix(err.Error(), "another server has it") {
		t.Errorf("a second server: %v", err)
	}
	maker := first.Maker()
	if err := first.Close(); err != nil {
		t.Fatal(err)
	}
	again, err := Open(path)
	if err != nil {
		t.Fatal(err)
	}
	defer again.Close()
	if again.Maker() != maker {
		t.Error("the server is another one after a start")
	}
	other, err := Open(filepath.Join(t.TempDir(), "db"))
	if err != nil {
		t.Fatal(err)
	}
	defer other.Close()
	if other.Maker() == maker {
		t.Error("two servers have one identity")
	}
}

func TestOrdersHaveFoldersOfTheirOwn(t *testing.T) {
	path := filepath.Join(t.TempDir(), "db")
	f, err := Open(path)
	if err != nil {
		t.Fatal(err)
	}
	defer f.Close()
	for start := 0; start < 2; start++ {
		order, err := f.Order(3)
		if err != nil || order != filepath.Join(path, "order-0000000003") {
			t.Errorf("%s, %v", order, err)
		}
		if found, err := os.Stat(order); err != nil || !found.IsDir() {
			t.Errorf("%v", err)
		}
	}
	if found := f.Socket(); found != filepath.Join(path, "socket") {
		t.Error(found)
	}
}

func TestWhatIsNoDataFolderIsLeftAsItWas(t *testing.T) {
	for name, it := range map[string]struct {
		make func(path string) error
		says string
	}{
		"a file":           {func(path string) error { return os.WriteFile(path, nil, 0o600) }, "it is no folder"},
		"a link":           {func(path string) error { return os.Symlink(filepath.Dir(path), path) }, "it is no folder"},
		"open to others":   {func(path string) error { return os.Mkdir(path, 0o755) }, "others may enter it (mode 0755): chmod 700 "},
		"notes":            {withFile("notes", ""), "it holds notes, and is no data folder of dsmdb: take another"},
		"an order in text": {withFile("order", "0001\n"), "it holds order, and is no data folder of dsmdb: take another"},
		"another version":  {withFile(markName, "dsmdb data folder, form 2\n"), "another version made it"},
		"no mark":          {withFile(markName, ""), "reading dsmdb-data"},
		"without a parent": {func(string) error { return nil }, "no such file or directory"},
	} {
		path := filepath.Join(t.TempDir(), "db")
		if name == "without a parent" {
			path = filepath.Join(path, "db")
		}
		if err := it.make(path); err != nil {
			t.Fatal(err)
		}
		before := listing(t, path)
		if _, err := Open(path); err == nil || !strings.Contains(err.Error(), it.says) || !strings.Contains(err.Error(), path) {
			t.Errorf("%s: %v", name, err)
		}
		if after := listing(t, path); after != before {
			t.Errorf("%s: %s is %s now", name, before, after)
		}
	}
}

func TestAStartThatPowerCutShortIsMadeAgain(t *testing.T) {
	path := filepath.Join(t.TempDir(), "db")
	if err := withFile(markName+".new", "dsmdb da")(path); err != nil {
		t.Fatal(err)
	}
	f, err := Open(path)
	if err != nil {
		t.Fatal(err)
	}
	f.Close()
	if found := listing(t, path); found != markName {
		t.Error(found)
	}
}

func withFile(name, text string) func(path string) error {
	return func(path string) error {
		if err := os.Mkdir(path, 0o700); err != nil {
			return err
		}
		return os.WriteFile(filepath.Join(path, name), []byte(text), 0o600)
	}
}

// listing returns the names in a folder, or what else is there.
func listing(t *testing.T, path string) string {
	t.Helper()
	entries, err := os.ReadDir(path)
	if err != nil {
		return "nothing to list"
	}
	var names []string
	for _, entry := range entries {
		names = append(names, entry.Name())
	}
	return strings.Join(names, " ")
}
