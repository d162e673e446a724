package access

import (
	"crypto/sha256"
	"crypto/tls"
	"crypto/x509"
	"encoding/hex"
	"fmt"
	"net/url"
	"os"
	"path/filepath"
	"strings"
	"testing"
	"time"

	"dsmdb/server/wire"
)

var (
	pay   = &wire.Call{Name: "pay"}
	other = &wire.Call{Name: "other"}
	begin = wire.NewSession{}
	add   = &wire.Add{}
	rows  = wire.Rows{}
	now   = time.Unix(1000, 0)
)

// may returns which of some requests somebody may ask.
func may(who *Who) string {
	var all []string
	for _, it := range []wire.Ask{pay, other, begin, add, rows, wire.Position{}} {
		if who.May(it, now) == nil {
			all = append(all, strings.Split(fmt.Sprintf("%T", it), ".")[1])
		}
	}
	return strings.Join(all, " ")
}

func shown(dns string, uris ...string) *tls.ConnectionState {
	certificate := &x509.Certificate{DNSNames: []string{dns}}
	for _, it := range uris {
		parsed, _ := url.Parse(it)
		certificate.URIs = append(certificate.URIs, parsed)
	}
	chain := []*x509.Certificate{certificate}
	return &tls.ConnectionState{PeerCertificates: chain, VerifiedChains: [][]*x509.Certificate{chain}}
}

func TestWithoutRoles(t *testing.T) {
	for _, it := range []struct {
		who  *Who
		want string
	}{
		{Without(false).Local(), "Call Call NewSession Add Rows Position"},
		{Without(false).Remote(nil), "Position"},
		{Without(false).Remote(&tls.ConnectionState{}), "Position"},
		{Without(false).Remote(shown("x")), "Call Call NewSession Position"},
		{Without(true).Remote(nil), "Call Call NewSession Position"},
	} {
		if found := may(it.who); found != it.want {
			t.Errorf("%s, and not %s", found, it.want)
		}
	}
}

func TestRoles(t *testing.T) {
	hash := sha256.Sum256([]byte("word"))
	p, err := parse([]byte(fmt.Sprintf(`{"roles": [
		{"name": "till", "certificates": ["till.example", "spiffe://x/till"], "call": ["pay"]},
		{"name": "clerk", "tokens": ["%x"], "call": ["*"], "rights": ["rows", "add"], "calls_per_second": 10},
		{"name": "none"}]}`, hash)))
	if err != nil {
		t.Fatal(err)
	}
	token, err := p.Remote(nil).WithToken("word")
	if err != nil {
		t.Fatal(err)
	}
	for _, it := range []struct {
		who  *Who
		want string
	}{
		{p.Local(), "Call Call NewSession Add Rows Position"},
		{p.Remote(nil), "Position"},
		{p.Remote(shown("till.example")), "Call NewSession Position"},
		{p.Remote(shown("y", "spiffe://x/till")), "Call NewSession Position"},
		{p.Remote(shown("stranger")), "Position"},
		{token, "Call Call NewSession Add Rows Position"},
	} {
		if found := may(it.who); found != it.want {
			t.Errorf("%s, and not %s", found, it.want)
		}
	}
	if _, err := p.Local().WithToken("another"); err != ErrNoToken {
		t.Error(err)
	}
	if token.Has(Roll) != NoRole || token.Has(Add) != nil {
		t.Error("rights")
	}
}

func TestCallsASecond(t *testing.T) {
	hash := sha256.Sum256([]byte("word"))
	p, _ := parse([]byte(fmt.Sprintf(`{"roles": [{"name": "a", "tokens": ["%x"], "call": ["*"], "calls_per_second": 2}]}`, hash)))
	who, _ := p.Remote(nil).WithToken("word")
	at, allowed := now, 0
	for tenth := 0; tenth < 50; tenth++ { // five seconds
		if who.May(pay, at) == nil {
			allowed++
		} else if who.May(pay, at) != TooMany {
			t.Fatal("another refusal")
		}
		at = at.Add(100 * time.Millisecond)
	}
	if allowed < 11 || allowed > 12 { // two at once, and two a second
		t.Errorf("%d calls", allowed)
	}
}

func TestRolesAtFault(t *testing.T) {
	hash := strings.Repeat("0", 64)
	for text, why := range map[string]string{
		`{`:               "EOF",
		`{"rolls": []}`:   "unknown field",
		`{"roles": [{}]}`: "no name",
		`{"roles": [{"name": "a", "rights": ["fly"]}]}`:                          `no right "fly"`,
		`{"roles": [{"name": "a", "tokens": ["12"]}]}`:                           "no SHA-256",
		`{"roles": [{"name": "a", "calls_per_second": -1}]}`:                     "below zero",
		`{"roles": [{"name": "a", "certificates": ["x", "x"]}]}`:                 "another role's",
		`{"roles": [{"name": "a", "tokens": ["` + hash + `", "` + hash + `"]}]}`: "another role's",
	} {
		if _, err := parse([]byte(text)); err == nil || !strings.Contains(err.Error(), why) {
			t.Errorf("%s: %v", text, err)
		}
	}
	path := filepath.Join(t.TempDir(), "roles")
	if _, err := Load(path); err == nil {
		t.Error("a file that isn't there")
	}
	os.WriteFile(path, []byte(`{"roles": []}`), 0o600)
	if _, err := Load(path); err != nil {
		t.Error(err)
	}
}

func TestATokenIsThatOfItsSum(t *testing.T) {
	word, hash, err := NewToken()
	if err != nil || len(word) != 64 {
		t.Fatal(word, err)
	}
	if sum := sha256.Sum256([]byte(word)); hex.EncodeToString(sum[:]) != hash {
		t.Error(hash)
	}
	if again, _, _ := NewToken(); again == word {
		t.Error("the same again")
	}
}
