package data

import (
	"bytes"
	"errors"
	"fmt"
	"io"
	"io/fs"
	"os"
	"path/filepath"
	"sort"
	"strconv"
	"strings"
	"time"
)

const (
	settingsPrefix = "settings-" // of the settings of each order that this server goes on with behind another
	fetchedSuffix  = ".fetched"  // of a file that says that they are another server's
	replacedSuffix = ".replaced" // of those that were there before others were fetched
)

func (f *Folder) settings(number uint64) string {
	return filepath.Join(f.path, fmt.Sprintf("%s%010d", settingsPrefix, number))
}

// SaveSettings keeps the settings of an order, whole or not at all.
func (f *Folder) SaveSettings(number uint64, text []byte) error {
	return Write(f.settings(number), text)
}

// SaveFetched keeps the settings of an order that another server has begun. Settings that were kept before under that
// number are kept beside.
func (f *Folder) SaveFetched(number uint64, text []byte) error {
	path := f.settings(number)
	if err := os.Rename(path, path+replacedSuffix); err != nil && !errors.Is(err, fs.ErrNotExist) {
		return err
	}
	if err := Write(path+fetchedSuffix, nil); err != nil {
		return err
	}
	return Write(path, text)
}

// WereFetched returns whether the settings of an order are another server's.
func (f *Folder) WereFetched(number uint64) (bool, error) {
	_, err := os.Stat(f.settings(number) + fetchedSuffix)
	if errors.Is(err, fs.ErrNotExist) {
		return false, nil
	}
	return err == nil, err
}

// Settings returns the settings of an order that are kept.
func (f *Folder) Settings(number uint64) ([]byte, error) { return os.ReadFile(f.settings(number)) }

// headSize is how many bytes of settings have all that stands before rows, but for long comments and many procedures.
const headSize = 1 << 16

// SettingsHead returns what the settings of an order begin with, in whole lines.
func (f *Folder) SettingsHead(number uint64) ([]byte, error) {
	opened, err := os.Open(f.settings(number))
	if err != nil {
		return nil, err
	}
	defer opened.Close()
	head, err := io.ReadAll(io.LimitReader(opened, headSize))
	return head[:bytes.LastIndexByte(head, '\n')+1], err
}

// KeptSettings returns the numbers of the orders whose settings are kept, rising.
func (f *Folder) KeptSettings() ([]uint64, error) {
	entries, err := os.ReadDir(f.path)
	if err != nil {
		return nil, err
	}
	var found []uint64
	for _, entry := range entries {
		digits := strings.TrimPrefix(entry.Name(), settingsPrefix)
		number, err := strconv.ParseUint(digits, 10, 64)
		if err == nil && f.settings(number) == filepath.Join(f.path, entry.Name()) {
			found = append(found, number)
		}
	}
	sort.Slice(found, func(a, b int) bool { return found[a] < found[b] })
	return found, nil
}

// ForgetSettings deletes the settings of orders below a number.
func (f *Folder) ForgetSettings(below uint64) error {
	found, err := f.KeptSettings()
	if err != nil {
		return err
	}
	for _, number := range found {
		if number >= below {
			break
		}
		for _, suffix := range []string{"", fetchedSuffix, replacedSuffix} {
			if err := os.Remove(f.settings(number) + suffix); err != nil && !errors.Is(err, fs.ErrNotExist) {
				return err
			}
		}
	}
	return Force(f.path)
}

// BeginFirst notes that the first order begins now, where there is no order yet.
func (f *Folder) BeginFirst() error {
	found, err := f.OrderFolders()
	if err != nil || len(found) > 0 {
		return err
	}
	now := time.Now()
	return os.Chtimes(filepath.Join(f.path, markName), now, now)
}

// BegunAt returns when the order of a number was begun at this server: when its settings were kept, or, of the first one,
// what BeginFirst has noted.
func (f *Folder) BegunAt(number uint64) (time.Time, error) {
	path := filepath.Join(f.path, markName)
	if number > 1 {
		path = f.settings(number)
	}
	found, err := os.Stat(path)
	if err != nil {
		return time.Time{}, err
	}
	return found.ModTime(), nil
}
