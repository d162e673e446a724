package segments

import (
	"errors"
	"io"
	"os"
	"path/filepath"
	"syscall"
)

// disk is what a log asks of a file system. Tests have one whose calls fail, and whose power goes.
type disk interface {
	// names returns the names of the files of the folder, in rising order.
	names() ([]string, error)
	// create makes an empty file, in place of one of that name.
	create(name string) (file, error)
	open(name string) (file, error)
	rename(from, to string) error
	remove(name string) error
	// force forces the folder's names to the disk.
	force() error
}

type file interface {
	io.ReaderAt
	io.WriterAt
	io.Closer
	size() (int64, error)
	// force forces the file's bytes to the disk.
	force() error
}

// IsFull returns whether something failed for want of room on the disk.
func IsFull(err error) bool {
	return errors.Is(err, ErrFull) || errors.Is(err, syscall.ENOSPC) || errors.Is(err, syscall.EDQUOT) || errors.Is(err, syscall.EFBIG)
}

// folder is a folder of the machine's file system.
type folder string

func (f folder) path(name string) string { return filepath.Join(string(f), name) }

func (f folder) names() ([]string, error) {
	entries, err := os.ReadDir(string(f))
	if err != nil {
		return nil, err
	}
	names := make([]string, 0, len(entries))
	for _, entry := range entries {
		names = append(names, entry.Name())
	}
	return names, nil
}

func (f folder) create(name string) (file, error) {
	opened, err := os.OpenFile(f.path(name), os.O_RDWR|os.O_CREATE|os.O_TRUNC, 0o600)
	return onDisk{opened}, err
}

func (f folder) open(name string) (file, error) {
	opened, err := os.OpenFile(f.path(name), os.O_RDWR, 0)
	return onDisk{opened}, err
}

func (f folder) rename(from, to string) error { return os.Rename(f.path(from), f.path(to)) }

func (f folder) remove(name string) error { return os.Remove(f.path(name)) }

func (f folder) force() error {
	opened, err := os.Open(string(f))
	if err != nil {
		return err
	}
	defer opened.Close()
	return opened.Sync()
}

type onDisk struct{ *os.File }

func (f onDisk) size() (int64, error) {
	found, err := f.Stat()
	if err != nil {
		return 0, err
	}
	return found.Size(), nil
}

// force forces the bytes alone where the length is as it was: a segment has its whole length before its first record.
func (f onDisk) force() error {
	for {
		if err := syscall.Fdatasync(int(f.Fd())); !errors.Is(err, syscall.EINTR) {
			return err
		}
	}
}
