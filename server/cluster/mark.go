package cluster

import (
	"errors"
	"fmt"
	"io/fs"
	"os"
	"path/filepath"
	"strings"

	"dsmdb/server/data"
	"go.etcd.io/etcd/wal"
)

const (
	markName   = "etcd-member"
	markHead   = "dsmdb member of a cluster, form 1"
	folderName = "etcd"
	socketName = "etcd.socket"
)

// state is what a folder is prepared for.
type state string

const (
	begun   state = "begun"   // for a new cluster
	invited state = "invited" // to be a member of a cluster that runs
	ran     state = "ran"     // its member has run, so its data have to be there
)

// mark says in a server's folder which member of which cluster it has.
type mark struct {
	name    string
	state   state
	members members // that the member is told of at its first start
}

func (m *mark) String() string {
	return fmt.Sprintf("%s\nname %s\nstate %s\nmembers %s\n", markHead, m.name, m.state, m.members)
}

// readMark returns the mark of a folder; nil where there is none.
func readMark(folder string) (*mark, error) {
	raw, err := os.ReadFile(filepath.Join(folder, markName))
	if errors.Is(err, fs.ErrNotExist) {
		return nil, nil
	}
	if err != nil {
		return nil, err
	}
	return markOf(string(raw))
}

// markOf reads a mark.
func markOf(text string) (*mark, error) {
	lines, err := strings.Split(text, "\n"), error(nil)
	if len(lines) != 5 || lines[0] != markHead || lines[4] != "" {
		return nil, fmt.Errorf("%s is none that this program knows", markName)
	}
	found := &mark{}
	for at, word := range []string{"name ", "state ", "members "} {
		value := strings.TrimPrefix(lines[at+1], word)
		if value == lines[at+1] {
			return nil, fmt.Errorf("%s is none that this program knows", markName)
		}
		switch at {
		case 0:
			found.name = value
		case 1:
			found.state = state(value)
		case 2:
			if found.members, err = membersOf(value); err != nil {
				return nil, fmt.Errorf("%s: %w", markName, err)
			}
		}
	}
	return found, nil
}

// write forces a mark to the disk, in place of another.
func (m *mark) write(folder string) error {
	name := filepath.Join(folder, markName)
	made, err := os.OpenFile(name+".new", os.O_WRONLY|os.O_CREATE|os.O_TRUNC, 0o600)
	if err != nil {
		return err
	}
	_, err = made.WriteString(m.String())
	if err == nil {
		err = made.Sync()
	}
	if fault := made.Close(); err == nil {
		err = fault
	}
	if err == nil {
		err = os.Rename(name+".new", name)
	}
	if err != nil {
		return err
	}
	return data.Force(folder)
}

// hasData returns whether a member's data are in a folder.
func hasData(folder string) bool {
	return wal.Exist(filepath.Join(folder, folderName, "member", "wal"))
}

// prepare writes the mark of a folder that has neither a mark nor data. An invitation may take the place of what was never
// followed.
func prepare(folder string, m *mark) error {
	before, err := readMark(folder)
	if err != nil {
		return err
	}
	again := m.state == invited && before != nil && before.state != ran && !hasData(folder) // it has never been a member
	if before != nil && !again {
		return fmt.Errorf("it already has member %s of %s", before.name, before.members)
	}
	entries, err := os.ReadDir(filepath.Join(folder, folderName))
	if err != nil && !errors.Is(err, fs.ErrNotExist) {
		return err
	}
	if len(entries) > 0 {
		return fmt.Errorf("it has data of a member in %s", folderName)
	}
	return m.write(folder)
}

// Begin prepares a server's folder for a member of a new cluster, whose members NAME=PEER-URL,.. the options name. All
// members of a cluster are begun alike. The folder has to be there.
func Begin(o Options) error {
	all, err := membersOf(o.Members)
	if err != nil {
		return err
	}
	if _, err := o.check(all); err != nil {
		return err
	}
	if err := prepare(o.Folder, &mark{o.Name, begun, all}); err != nil {
		return fmt.Errorf("beginning a cluster in %s: %w", o.Folder, err)
	}
	return nil
}

// Accept prepares a server's folder for a member that a running server has invited.
func Accept(o Options, invitation Invitation) error {
	all, err := membersOf(invitation.Members)
	if err != nil {
		return err
	}
	if o.Name != invitation.Name {
		return fmt.Errorf("the invitation is of member %s, and this server is %s", invitation.Name, o.Name)
	}
	if _, err := o.check(all); err != nil {
		return err
	}
	if err := prepare(o.Folder, &mark{o.Name, invited, all}); err != nil {
		return fmt.Errorf("joining a cluster in %s: %w", o.Folder, err)
	}
	return nil
}
