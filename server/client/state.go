package client

import (
	"errors"
	"fmt"
	"io/fs"
	"os"
	"path/filepath"
	"regexp"
	"strconv"
	"syscall"

	"dsmdb/server/data"
)

// State is what a client keeps over its own restarts.
type State struct {
	Database string // in hex; empty before the first session
	Session  uint64 // 0 for none
	Next     uint64 // sequence number of the next call
	Call     string // the line of the call that isn't settled, up to its pair; empty where there is none
	Upto     uint64 // the greatest position up to which that call may run
}

// Store keeps a state. What Save was given is there after any end of the process.
type Store interface {
	Load() (State, error)
	Save(State) error
	Close() error
}

// Memory is a store that lasts as long as the process.
type Memory struct{ state State }

// Load implements Store.
func (m *Memory) Load() (State, error) { return m.state, nil }

// Save implements Store.
func (m *Memory) Save(state State) error {
	m.state = state
	return nil
}

// Close implements Store.
func (m *Memory) Close() error { return nil }

// File is a store in a file, which one process has.
type File struct {
	path string
	file *os.File
}

var stateForm = regexp.MustCompile(`^dsmdb client 1\ndatabase ([0-9a-f]{32})?\nsession (\d+)\nnext (\d+)\n(?:(call [!-~]* [!-~]+ \d+ \d+) upto (\d+)\n)?$`)

// OpenFile opens a client's file, which is made where it isn't there. Another process may not have it.
func OpenFile(path string) (*File, error) {
	for {
		file, err := os.OpenFile(path, os.O_RDWR|os.O_CREATE, 0o600)
		if err != nil {
			return nil, fmt.Errorf("opening the client's file: %w", err)
		}
		if err := lock(file, path); err != nil {
			file.Close()
			return nil, err
		}
		held, err := file.Stat()
		if err != nil {
			file.Close()
			return nil, fmt.Errorf("client's file %s: %w", path, err)
		}
		if named, err := os.Stat(path); err == nil && os.SameFile(held, named) {
			return &File{path, file}, nil
		}
		file.Close() // it was written anew by the client that had it
	}
}

func lock(file *os.File, path string) error {
	err := syscall.Flock(int(file.Fd()), syscall.LOCK_EX|syscall.LOCK_NB)
	if errors.Is(err, syscall.EWOULDBLOCK) {
		return fmt.Errorf("client's file %s: another client is at work with it", path)
	}
	if err != nil {
		return fmt.Errorf("client's file %s: %w", path, err)
	}
	return nil
}

// Load implements Store.
func (f *File) Load() (State, error) {
	state := State{Next: 1}
	text, err := os.ReadFile(f.path)
	if err != nil && !errors.Is(err, fs.ErrNotExist) {
		return state, fmt.Errorf("reading the client's file: %w", err)
	}
	if len(text) == 0 {
		return state, nil
	}
	found := stateForm.FindSubmatch(text)
	if found == nil {
		return state, fmt.Errorf("client's file %s: it is none of this version, and was left as it is", f.path)
	}
	numbers := [3]uint64{}
	for at, field := range [][]byte{found[2], found[3], found[5]} {
		if len(field) > 0 {
			if numbers[at], err = strconv.ParseUint(string(field), 10, 64); err != nil {
				return state, fmt.Errorf("client's file %s: %w", f.path, err)
			}
		}
	}
	return State{string(found[1]), numbers[0], numbers[1], string(found[4]), numbers[2]}, nil
}

// Save implements Store. The file is written anew, forced and renamed.
func (f *File) Save(state State) error {
	if err := f.save(state); err != nil {
		return fmt.Errorf("writing the client's file: %w", err)
	}
	return nil
}

func (f *File) save(state State) error {
	made, err := os.OpenFile(f.path+".new", os.O_RDWR|os.O_CREATE|os.O_TRUNC|syscall.O_NOFOLLOW, 0o600)
	if err != nil {
		return err
	}
	if err := f.replace(made, state); err != nil {
		made.Close()
		return err
	}
	f.file.Close()
	f.file = made
	return nil
}

func (f *File) replace(made *os.File, state State) error {
	if err := lock(made, f.path); err != nil {
		return err
	}
	text := fmt.Sprintf("dsmdb client 1\ndatabase %s\nsession %d\nnext %d\n", state.Database, state.Session, state.Next)
	if state.Call != "" {
		text += fmt.Sprintf("%s upto %d\n", state.Call, state.Upto)
	}
	if _, err := made.WriteString(text); err != nil {
		return err
	}
	if err := made.Sync(); err != nil {
		return err
	}
	if err := os.Rename(f.path+".new", f.path); err != nil {
		return err
	}
	return data.Force(filepath.Dir(f.path))
}

// Close implements Store.
func (f *File) Close() error { return f.file.Close() }
