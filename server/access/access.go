// Package access says who may ask a server for what: by a roles file, or without one by the way on which somebody comes.
package access

import (
	"bytes"
	"crypto/rand"
	"crypto/sha256"
	"crypto/tls"
	"encoding/hex"
	"encoding/json"
	"errors"
	"fmt"
	"os"
	"sync"
	"time"

	"dsmdb/server/wire"
)

// Right is something besides calls that a role may have.
type Right string

// The rights of a roles file.
const (
	Add    Right = "add"    // procedures
	Read   Right = "rows"   // all rows, dumps and settings among them
	Roll   Right = "roll"   // an order
	Join   Right = "join"   // a member
	Forget Right = "forget" // old orders
)

var rights = []Right{Add, Read, Roll, Join, Forget}

// Refusal says why a request isn't taken.
type Refusal string

func (r Refusal) Error() string { return string(r) }

const (
	// NoRole says that nobody with that right asks.
	NoRole Refusal = "role"
	// TooMany says that a role has used up its calls of this second.
	TooMany Refusal = "rate"
)

// ErrNoToken says that a token is nobody's.
var ErrNoToken = errors.New("the token is nobody's")

// role is what the askers of one role may do.
type role struct {
	Name           string   `json:"name"`
	Certificates   []string `json:"certificates"` // DNS or URI names
	Tokens         []string `json:"tokens"`       // SHA-256 of tokens' words, in hex
	Call           []string `json:"call"`         // procedures; * for all
	CallsPerSecond float64  `json:"calls_per_second"`
	Rights         []Right  `json:"rights"`

	bucket bucket
}

// bucket has the calls that a role may make now: at most those of one second.
type bucket struct {
	mutex sync.Mutex
	left  float64
	at    time.Time
}

func (r *role) takeCall(now time.Time) bool {
	if r.CallsPerSecond == 0 {
		return true
	}
	b := &r.bucket
	b.mutex.Lock()
	defer b.mutex.Unlock()
	most := r.CallsPerSecond
	if most < 1 {
		most = 1
	}
	if b.at.IsZero() {
		b.left = most
	} else if b.left += now.Sub(b.at).Seconds() * r.CallsPerSecond; b.left > most {
		b.left = most
	}
	b.at = now
	if b.left < 1 {
		return false
	}
	b.left--
	return true
}

// Policy says who may do what.
type Policy struct {
	roles  []*role // nil without a roles file
	byName map[string]*role
	byHash map[string]*role
	open   bool
}

// Without returns the policy of a server without a roles file: whoever comes by the Unix socket may do all, who shows a
// certificate may call, and all others only where the server is open.
func Without(open bool) *Policy { return &Policy{open: open} }

// Load reads a roles file.
func Load(path string) (*Policy, error) {
	text, err := os.ReadFile(path)
	if err != nil {
		return nil, fmt.Errorf("reading the roles: %w", err)
	}
	p, err := parse(text)
	if err != nil {
		return nil, fmt.Errorf("roles file %s: %w", path, err)
	}
	return p, nil
}

func parse(text []byte) (*Policy, error) {
	var file struct {
		Roles []*role `json:"roles"`
	}
	decoder := json.NewDecoder(bytes.NewReader(text))
	decoder.DisallowUnknownFields()
	if err := decoder.Decode(&file); err != nil {
		return nil, err
	}
	p := &Policy{roles: []*role{}, byName: map[string]*role{}, byHash: map[string]*role{}}
	for _, it := range file.Roles {
		if err := p.add(it); err != nil {
			return nil, fmt.Errorf("role %q: %w", it.Name, err)
		}
	}
	return p, nil
}

func (p *Policy) add(it *role) error {
	if it.Name == "" {
		return errors.New("it has no name")
	}
	if it.CallsPerSecond < 0 {
		return errors.New("calls_per_second is below zero")
	}
	for _, right := range it.Rights {
		if !isRight(right) {
			return fmt.Errorf("there is no right %q: add, rows, roll, join, forget", right)
		}
	}
	for _, name := range it.Certificates {
		if p.byName[name] != nil {
			return fmt.Errorf("the certificate name %q is another role's", name)
		}
		p.byName[name] = it
	}
	for _, hash := range it.Tokens {
		raw, err := hex.DecodeString(hash)
		if err != nil || len(raw) != sha256.Size {
			return fmt.Errorf("%q is no SHA-256 of a token: `dsmdb token` prints one", hash)
		}
		if p.byHash[hex.EncodeToString(raw)] != nil {
			return errors.New("one of its tokens is another role's")
		}
		p.byHash[hex.EncodeToString(raw)] = it
	}
	p.roles = append(p.roles, it)
	return nil
}

func isRight(right Right) bool {
	for _, it := range rights {
		if it == right {
			return true
		}
	}
	return false
}

// Who is somebody who asks.
type Who struct {
	policy *Policy
	local  bool // by the server's Unix socket
	named  bool // by a certificate that was verified
	role   *role
}

// Local returns who comes by the server's own Unix socket, which only the server's user can reach: all is allowed.
func (p *Policy) Local() *Who { return &Who{policy: p, local: true} }

// Remote returns who comes over TCP, by the connection's TLS; nil where it has none.
func (p *Policy) Remote(state *tls.ConnectionState) *Who {
	who := &Who{policy: p}
	if state == nil || len(state.VerifiedChains) == 0 {
		return who
	}
	who.named = true
	certificate := state.PeerCertificates[0]
	names := append([]string(nil), certificate.DNSNames...)
	for _, it := range certificate.URIs {
		names = append(names, it.String())
	}
	for _, name := range names {
		if found := p.byName[name]; found != nil && who.role == nil {
			who.role = found
		}
	}
	return who
}

// WithToken returns who shows a token; ErrNoToken where it is nobody's.
func (w *Who) WithToken(word string) (*Who, error) {
	hash := sha256.Sum256([]byte(word))
	found := w.policy.byHash[hex.EncodeToString(hash[:])]
	if found == nil {
		return nil, ErrNoToken
	}
	it := *w
	it.role = found
	return &it, nil
}

// May returns whether a request is allowed now; a Refusal says why not. It counts calls.
func (w *Who) May(ask wire.Ask, now time.Time) error {
	switch it := ask.(type) {
	case *wire.Call:
		return w.mayCall(it.Name, now)
	case wire.NewSession:
		if err := w.mayBegin(); err != nil || w.role == nil {
			return err
		}
		if !w.role.takeCall(now) {
			return TooMany
		}
		return nil
	case *wire.Add:
		return w.Has(Add)
	case wire.Rows, *wire.Scan, wire.Dump, wire.Settings:
		return w.Has(Read)
	case *wire.Roll:
		return w.Has(Roll)
	}
	return nil
}

// Has returns whether somebody has a right; NoRole where not.
func (w *Who) Has(right Right) error {
	if w.local {
		return nil
	}
	if w.role != nil {
		for _, it := range w.role.Rights {
			if it == right {
				return nil
			}
		}
	}
	return NoRole
}

func (w *Who) mayBegin() error {
	switch {
	case w.local:
		return nil
	case w.role != nil && len(w.role.Call) > 0:
		return nil
	case w.role == nil && w.policy.roles == nil && (w.named || w.policy.open):
		return nil
	}
	return NoRole
}

// MayCall returns whether somebody may call anything.
func (w *Who) MayCall() bool { return w.mayBegin() == nil }

func (w *Who) mayCall(name string, now time.Time) error {
	if err := w.mayBegin(); err != nil || w.role == nil {
		return err
	}
	for _, it := range w.role.Call {
		if it != name && it != "*" {
			continue
		}
		if !w.role.takeCall(now) {
			return TooMany
		}
		return nil
	}
	return NoRole
}

// NewToken draws a token, and returns its word and the SHA-256 that a roles file has.
func NewToken() (word, hash string, err error) {
	var drawn [32]byte
	if _, err := rand.Read(drawn[:]); err != nil {
		return "", "", fmt.Errorf("drawing a token: %w", err)
	}
	word = hex.EncodeToString(drawn[:])
	sum := sha256.Sum256([]byte(word))
	return word, hex.EncodeToString(sum[:]), nil
}
