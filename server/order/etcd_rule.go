package order

import (
	"errors"
	"fmt"

	"dsmdb/server/batch"
)

// rule says which batches count. The rule depends on the batches before alone, and on the database's identity where that is
// known from the beginning. So all who read an order decide alike, as long as all know the identity, or nobody does.
type rule struct {
	secret   *batch.Secret
	counted  uint64 // batches
	position uint64 // strings
	database batch.ID
	known    bool // whether the identity is known: from the beginning, or since the first batch has counted
}

// newRule returns the rule of an order without batches.
func newRule(secret *batch.Secret, maker *Maker) rule {
	return rule{secret: secret, database: maker.Database, known: maker.isKnown()}
}

// admits returns whether a right batch of a hint would count next.
func (r *rule) admits(hint uint64) bool { return hint <= r.counted && hint >= floorOf(r.counted) }

// isVoid returns whether a batch of a hint can't count any more, even where it comes to stand in etcd.
func (r *rule) isVoid(hint uint64) bool { return hint < floorOf(r.counted) }

// stored is a key with what etcd keeps of it.
type stored struct {
	name
	key     string
	create  int64
	mod     int64
	version int64
	lease   int64
	value   []byte
}

func (s *stored) place() place { return place{s.create, s.key} }

var (
	// errNotRight says that a key isn't a batch of the order.
	errNotRight = errors.New("no batch of the order")
	// errSigned says besides that the secret has signed what was read, so no member has kept it wrongly.
	errSigned = fmt.Errorf("%w, though it is signed", errNotRight)
)

// unknownForms is how far the forms of batches may be beyond this program's to be taken for a newer program's. A
// stranger's bytes are no such form.
const unknownForms = 1 << 16

// read reads a right batch. What isn't right is an error that is errNotRight, or a *batch.FormError where the order's
// first batch is of a form that this program doesn't know.
func (r *rule) read(s *stored) (*batch.Batch, error) {
	if s.version != 1 || s.create != s.mod {
		return nil, fmt.Errorf("%w: it was written %d times", errNotRight, s.version)
	}
	if s.lease != 0 {
		return nil, fmt.Errorf("%w: it has a lease", errNotRight)
	}
	bytes, wrong := s.value, errNotRight
	if len(bytes) > batch.Longest {
		return nil, fmt.Errorf("%w: it has %d bytes", errNotRight, len(bytes))
	}
	if r.secret != nil {
		opened, err := r.secret.Open(s.key, bytes)
		if err != nil {
			return nil, fmt.Errorf("%w: %v", errNotRight, err)
		}
		bytes, wrong = opened, errSigned
	}
	found, err := batch.Read(bytes)
	var other *batch.FormError
	if errors.As(err, &other) && r.counted == 0 && (r.secret != nil || other.Form > 0 && other.Form < unknownForms) {
		return nil, other
	}
	if err != nil {
		return nil, fmt.Errorf("%w: %v", wrong, err)
	}
	if r.known && found.Database != r.database {
		return nil, fmt.Errorf("%w: it is of another database", wrong)
	}
	return found, nil
}

// count counts a right batch that the rule admits, and returns the position of its first string.
func (r *rule) count(found *batch.Batch) uint64 {
	first := r.position + 1
	r.database, r.known = found.Database, true
	r.counted++
	r.position += uint64(len(found.Strings))
	return first
}

// isOfAnother returns whether a key is a right batch but for its database.
func (r *rule) isOfAnother(s *stored) bool {
	if !r.known {
		return false
	}
	found, err := (&rule{secret: r.secret}).read(s)
	return err == nil && found.Database != r.database
}

// isSignedOtherwise returns whether a value is a batch but for its signature: of another secret, or of one where this
// server has none, or of none where this server has one.
func isSignedOtherwise(secret *batch.Secret, key string, value []byte) bool {
	if secret != nil {
		if _, err := secret.Open(key, value); err == nil {
			return false
		}
		if _, err := batch.Read(value); err == nil {
			return true
		}
	} else if _, err := batch.Read(value); err == nil {
		return false
	}
	var none batch.Secret
	at := len(value) - len(none.Sign("", nil))
	if at < 0 {
		return false
	}
	_, err := batch.Read(value[:at])
	return err == nil
}
