package data

import (
	"errors"
	"fmt"
	"io/fs"
	"os"
	"path/filepath"
	"sort"
	"strconv"
	"strings"
)

const (
	orderPrefix = "order-" // of the folder of each order
	goneSuffix  = ".gone"  // of the mark beside the folder that an order had
	goneText    = "this order was forgotten\n"
)

func (f *Folder) order(number uint64) string {
	return filepath.Join(f.path, fmt.Sprintf("%s%010d", orderPrefix, number))
}

// Order returns the folder of the order of a number, which is made where it isn't there.
func (f *Folder) Order(number uint64) (string, error) {
	path := f.order(number)
	if err := os.Mkdir(path, 0o700); err == nil {
		err = Force(f.path)
		return path, err
	} else if !errors.Is(err, fs.ErrExist) {
		return "", err
	}
	return path, nil
}

// OrderFolders returns the numbers of the orders that have a folder, rising.
func (f *Folder) OrderFolders() ([]uint64, error) {
	entries, err := os.ReadDir(f.path)
	if err != nil {
		return nil, err
	}
	var found []uint64
	for _, entry := range entries {
		number, err := strconv.ParseUint(strings.TrimPrefix(entry.Name(), orderPrefix), 10, 64)
		if err == nil && entry.IsDir() && f.order(number) == filepath.Join(f.path, entry.Name()) {
			found = append(found, number)
		}
	}
	sort.Slice(found, func(a, b int) bool { return found[a] < found[b] })
	return found, nil
}

// RemoveOrder deletes the folder of an order with all that it holds.
func (f *Folder) RemoveOrder(number uint64) error {
	if err := os.RemoveAll(f.order(number)); err != nil {
		return err
	}
	return Force(f.path)
}

// MarkGone marks an order as gone, for good. The mark is on the disk before MarkGone returns.
func (f *Folder) MarkGone(number uint64) error {
	return Write(f.order(number)+goneSuffix, []byte(goneText))
}

// IsGone returns whether an order is marked as gone.
func (f *Folder) IsGone(number uint64) (bool, error) {
	_, err := os.Stat(f.order(number) + goneSuffix)
	if errors.Is(err, fs.ErrNotExist) {
		return false, nil
	}
	return err == nil, err
}
