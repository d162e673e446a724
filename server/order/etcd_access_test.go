package order

import (
	"crypto/ecdsa"
	"crypto/elliptic"
	"crypto/rand"
	"crypto/x509"
	"crypto/x509/pkix"
	"encoding/pem"
	"fmt"
	"math/big"
	"net"
	"os"
	"path/filepath"
	"strings"
	"testing"
	"time"
)

// authority makes certificates for a test.
type authority struct {
	t      *testing.T
	folder string
	cert   *x509.Certificate
	key    *ecdsa.PrivateKey
}

func newAuthority(t *testing.T, name string) *authority {
	a := &authority{t: t, folder: t.TempDir()}
	a.cert, a.key = a.make(name, nil)
	return a
}

// make writes NAME.crt and NAME.key, for the loopback address.
func (a *authority) make(name string, change func(*x509.Certificate)) (*x509.Certificate, *ecdsa.PrivateKey) {
	a.t.Helper()
	key, err := ecdsa.GenerateKey(elliptic.P256(), rand.Reader)
	if err != nil {
		a.t.Fatal(err)
	}
	serial, _ := rand.Int(rand.Reader, big.NewInt(1<<60))
	it := &x509.Certificate{
		SerialNumber: serial, Subject: pkix.Name{CommonName: name},
		NotBefore: time.Now().Add(-time.Hour), NotAfter: time.Now().Add(time.Hour),
		KeyUsage: x509.KeyUsageDigitalSignature | x509.KeyUsageCertSign, BasicConstraintsValid: true, IsCA: a.cert == nil,
		ExtKeyUsage: []x509.ExtKeyUsage{x509.ExtKeyUsageServerAuth, x509.ExtKeyUsageClientAuth},
		IPAddresses: []net.IP{net.IPv4(127, 0, 0, 1)},
	}
	if change != nil {
		change(it)
	}
	parent, signer := a.cert, a.key
	if parent == nil {
		parent, signer = it, key
	}
	raw, err := x509.CreateCertificate(rand.Reader, it, parent, &key.PublicKey, signer)
	if err != nil {
		a.t.Fatal(err)
	}
	secret, err := x509.MarshalECPrivateKey(key)
	if err != nil {
		a.t.Fatal(err)
	}
	a.write(name+".crt", pem.EncodeToMemory(&pem.Block{Type: "CERTIFICATE", Bytes: raw}))
	a.write(name+".key", pem.EncodeToMemory(&pem.Block{Type: "EC PRIVATE KEY", Bytes: secret}))
	return it, key
}

func (a *authority) write(name string, text []byte) {
	a.t.Helper()
	if err := os.WriteFile(a.path(name), text, 0o600); err != nil {
		a.t.Fatal(err)
	}
}

func (a *authority) path(name string) string { return filepath.Join(a.folder, name) }

// An etcd that wants certificates of clients, and has users. A small time to live has tokens be refused.
func TestEtcdIsReachedByCertificatesAndALogin(t *testing.T) {
	t.Parallel()
	a, foreign := newAuthority(t, "ca"), newAuthority(t, "foreign")
	for _, it := range []string{"server", "client"} {
		// etcd takes a certificate's common name for a user, where a request has no token
		a.make(it, func(made *x509.Certificate) { made.Subject.CommonName = "" })
	}
	foreign.make("client", nil)
	etcd := runEtcdTLS(t, a, "--auth-token-ttl", "1")
	access := func(o *EtcdOptions) {
		o.CA, o.Cert, o.Key = a.path("ca.crt"), a.path("client.crt"), a.path("client.key")
	}
	plain := etcd.opened(access)
	plain.appended("1")

	for _, it := range []struct {
		name   string
		change func(*EtcdOptions)
		want   string
	}{
		{"another CA", func(o *EtcdOptions) { access(o); o.CA = foreign.path("foreign.crt") },
			"authentication handshake failed: x509: certificate signed by unknown authority"},
		{"no certificate", func(o *EtcdOptions) { access(o); o.Cert, o.Key = "", "" }, "certificate"},
		{"nobody", func(o *EtcdOptions) { o.Endpoints = []string{"http://127.0.0.1:1"} },
			"127.0.0.1:1: dial tcp 127.0.0.1:1: connect: connection refused"},
	} {
		w := etcd.opened(it.change)
		w.until(it.name, func() bool {
			since, why := w.Reached()
			return why != nil && strings.Contains(why.Error(), it.want) && time.Since(since) < 30*time.Second
		})
		w.Close()
	}

	etcd.ctl("user", "add", "root:rootpass")
	etcd.ctl("user", "grant-role", "root", "root")
	etcd.ctl("role", "add", "orders")
	etcd.ctl("role", "grant-permission", "orders", "readwrite", "--prefix=true", "dsmdb/")
	etcd.ctl("user", "add", "server:pass word")
	etcd.ctl("user", "grant-role", "server", "orders")
	etcd.ctl("user", "add", "other:pass")
	etcd.ctl("auth", "enable")
	plain.AskEnd()
	plain.until("refused", func() bool { _, why := plain.Reached(); return why != nil })
	for name, text := range map[string]string{"login": "server\npass word\n", "other": "other\npass\n", "wrong": "server\npass\n"} {
		a.write(name, []byte(text))
	}
	with := func(login string) func(*EtcdOptions) {
		return func(o *EtcdOptions) { access(o); o.Login = a.path(login) }
	}
	w := etcd.opened(with("login"))
	w.untilBegun()
	w.appended("2")
	time.Sleep(2500 * time.Millisecond) // the token is refused now
	w.appended("3")
	w.untilEnd()
	if w.sound(); fmt.Sprint(w.read()) != "[1 2 3]" {
		t.Errorf("%v", w.read())
	}
	for login, want := range map[string]string{
		"other": "permission denied: the login's user may not read or write the order's keys",
		"wrong": "authentication failed, invalid user ID or password",
	} {
		w := etcd.opened(with(login))
		w.until(login, func() bool { _, why := w.Reached(); return why != nil && strings.HasSuffix(why.Error(), want) })
	}
}

func TestOptionsThatCannotBeAreRefused(t *testing.T) {
	t.Parallel()
	a := newAuthority(t, "ca")
	a.make("client", nil)
	a.write("login", []byte("a\nb\n"))
	a.write("line", []byte("a"))
	a.write("open", []byte("a\nb\n"))
	if err := os.Chmod(a.path("open"), 0o640); err != nil {
		t.Fatal(err)
	}
	for _, it := range []struct {
		change func(*EtcdOptions)
		want   string
	}{
		{func(o *EtcdOptions) { o.Endpoints = nil }, "no endpoint of etcd is given"},
		{func(o *EtcdOptions) { o.Endpoints = []string{"127.0.0.1:1"} }, "is no endpoint of etcd"},
		{func(o *EtcdOptions) { o.Endpoints = []string{"http://127.0.0.1"} }, "is no endpoint of etcd"},
		{func(o *EtcdOptions) { o.Endpoints = []string{"http://127.0.0.1:1/x"} }, "is no endpoint of etcd"},
		{func(o *EtcdOptions) { o.Endpoints = []string{"http://a:1", "https://a:1"} }, "all http or all https"},
		{func(o *EtcdOptions) { o.Prefix = "" }, "wants a prefix"},
		{func(o *EtcdOptions) { o.Number = 0 }, "numbered from 1"},
		{func(o *EtcdOptions) { o.Cert = "x" }, "go together"},
		{func(o *EtcdOptions) { o.CA = a.path("login") }, "login has no certificate"},
		{func(o *EtcdOptions) { o.CA = a.path("none") }, "no such file"},
		{func(o *EtcdOptions) { o.Cert, o.Key = a.path("client.crt"), a.path("ca.key") }, "private key does not match public key"},
		{func(o *EtcdOptions) { o.Endpoints, o.Login = []string{"http://a:1"}, a.path("login") }, "a password goes to endpoints that are https alone"},
		{func(o *EtcdOptions) { o.Login = a.path("open") }, "others may read it (mode 0640): chmod 600"},
		{func(o *EtcdOptions) { o.Login = a.path("line") }, "a line with a user and a line with a password are wanted"},
		{func(o *EtcdOptions) { o.Login = a.path("none") }, "no such file"},
	} {
		options := EtcdOptions{Endpoints: []string{"https://127.0.0.1:1"}, Prefix: "p", Number: 1, Journal: t.TempDir()}
		it.change(&options)
		opened, err := OpenEtcd(options)
		if err == nil {
			opened.Close()
		}
		if err == nil || !strings.Contains(err.Error(), it.want) {
			t.Errorf("%s: %v", it.want, err)
		}
	}
}
