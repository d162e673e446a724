// Package data has a server's own folder: the server's identity, and the places of what the server keeps. One process
// at a time has a folder.
package data

import (
	"bytes"
	"crypto/rand"
	"encoding/hex"
	"errors"
	"fmt"
	"io/fs"
	"os"
	"path/filepath"
	"strings"
	"syscall"

	"dsmdb/server/batch"
)

const (
	markName = "dsmdb-data"
	markHead = "dsmdb data folder, form 1\nmaker "
)

// Folder is a data folder that this process has.
type Folder struct {
	path  string
	maker batch.ID
	mark  *os.File // locked as long as the process has the folder
}

// Open opens a data folder. Where the path isn't there, or is an empty folder, a new data folder is made; its parent has
// to be there. A folder that holds anything else is refused, and left as it was.
func Open(path string) (*Folder, error) {
	if err := prepare(path); err != nil {
		return nil, fmt.Errorf("data folder %s: %w", path, err)
	}
	f, err := open(path)
	if err != nil {
		return nil, fmt.Errorf("data folder %s: %w", path, err)
	}
	return f, nil
}

// prepare makes the folder and its mark, where neither is there.
func prepare(path string) error {
	err := os.Mkdir(path, 0o700)
	if err == nil {
		if err := Force(filepath.Dir(path)); err != nil {
			return err
		}
	} else if !errors.Is(err, fs.ErrExist) {
		return err
	}
	if err := check(path); err != nil {
		return err
	}
	locked, err := os.Open(path)
	if err != nil {
		return err
	}
	defer locked.Close()
	// of two processes that would begin one folder one waits for the other, and finds it begun
	if err := syscall.Flock(int(locked.Fd()), syscall.LOCK_EX); err != nil {
		return fmt.Errorf("locking it: %w", err)
	}
	if _, err := os.Stat(filepath.Join(path, markName)); !errors.Is(err, fs.ErrNotExist) {
		return err
	}
	return begin(path)
}

// check says why a path can't be a data folder.
func check(path string) error {
	found, err := os.Lstat(path)
	switch {
	case err != nil:
		return err
	case !found.IsDir():
		return errors.New("it is no folder")
	case found.Mode().Perm()&0o077 != 0:
		return fmt.Errorf("others may enter it (mode %04o): chmod 700 %s", found.Mode().Perm(), path)
	}
	return nil
}

// begin writes the mark of a new data folder into an empty one.
func begin(path string) error {
	entries, err := os.ReadDir(path)
	if err != nil {
		return err
	}
	for _, entry := range entries {
		if entry.Name() != markName+".new" { // of a start that power cut short
			return fmt.Errorf("it holds %s, and is no data folder of dsmdb: take another", entry.Name())
		}
	}
	var maker batch.ID
	if _, err := rand.Read(maker[:]); err != nil {
		return err
	}
	name := filepath.Join(path, markName)
	return Write(name, []byte(markHead+hex.EncodeToString(maker[:])+"\n"))
}

// Write writes a file that only this user can read, whole or not at all, and forces it to the disk.
func Write(path string, bytes []byte) error {
	if err := write(path+".new", bytes); err != nil {
		return err
	}
	if err := os.Rename(path+".new", path); err != nil {
		return err
	}
	return Force(filepath.Dir(path))
}

func write(name string, bytes []byte) error {
	made, err := os.OpenFile(name, os.O_WRONLY|os.O_CREATE|os.O_TRUNC, 0o600)
	if err != nil {
		return err
	}
	defer made.Close()
	if _, err := made.Write(bytes); err != nil {
		return err
	}
	return made.Sync()
}

// open locks a folder's mark, and reads who the server is.
func open(path string) (*Folder, error) {
	mark, err := os.OpenFile(filepath.Join(path, markName), os.O_RDWR, 0)
	if err != nil {
		return nil, err
	}
	if err := syscall.Flock(int(mark.Fd()), syscall.LOCK_EX|syscall.LOCK_NB); err != nil {
		mark.Close()
		if errors.Is(err, syscall.EWOULDBLOCK) {
			return nil, errors.New("another server has it")
		}
		return nil, err
	}
	maker, err := makerOf(mark)
	if err != nil {
		mark.Close()
		return nil, err
	}
	return &Folder{path: path, maker: maker, mark: mark}, nil
}

func makerOf(mark *os.File) (batch.ID, error) {
	var maker batch.ID
	text := make([]byte, 4*len(markHead))
	count, err := mark.ReadAt(text, 0)
	if count == 0 {
		return maker, fmt.Errorf("reading %s: %w", markName, err)
	}
	word := strings.TrimSuffix(string(bytes.TrimPrefix(text[:count], []byte(markHead))), "\n")
	found, err := hex.DecodeString(word)
	if err != nil || len(found) != len(maker) {
		return maker, fmt.Errorf("%s is none that this program knows: another version made it", markName)
	}
	copy(maker[:], found)
	return maker, nil
}

// Maker returns who this server is among those of its database.
func (f *Folder) Maker() batch.ID { return f.maker }

// Socket returns the path of the Unix socket of the server.
func (f *Folder) Socket() string { return filepath.Join(f.path, "socket") }

// Close lets another process have the folder.
func (f *Folder) Close() error { return f.mark.Close() }

// Force forces the names of a folder to the disk.
func Force(path string) error {
	opened, err := os.Open(path)
	if err != nil {
		return err
	}
	defer opened.Close()
	return opened.Sync()
}
