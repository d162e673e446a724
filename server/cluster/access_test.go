package cluster

import (
	"bytes"
	"context"
	"crypto/ecdsa"
	"crypto/elliptic"
	"crypto/rand"
	"crypto/tls"
	"crypto/x509"
	"crypto/x509/pkix"
	"encoding/pem"
	"errors"
	"math/big"
	"net"
	"os"
	"path/filepath"
	"testing"
	"time"

	"dsmdb/server/order"
	bbolt "go.etcd.io/bbolt"
	pb "go.etcd.io/etcd/etcdserver/etcdserverpb"
)

// certified has a CA make certificates of some names in a folder, for the loopback address.
func certified(t *testing.T, names ...string) string {
	t.Helper()
	folder := t.TempDir()
	var ca *x509.Certificate
	var caKey *ecdsa.PrivateKey
	for at, name := range append([]string{"ca"}, names...) {
		key, err := ecdsa.GenerateKey(elliptic.P256(), rand.Reader)
		if err != nil {
			t.Fatal(err)
		}
		it := &x509.Certificate{
			SerialNumber: big.NewInt(int64(at) + 1), Subject: pkix.Name{CommonName: name},
			NotBefore: time.Now().Add(-time.Hour), NotAfter: time.Now().Add(time.Hour),
			KeyUsage: x509.KeyUsageDigitalSignature | x509.KeyUsageCertSign, BasicConstraintsValid: true, IsCA: at == 0,
			ExtKeyUsage: []x509.ExtKeyUsage{x509.ExtKeyUsageServerAuth, x509.ExtKeyUsageClientAuth},
			IPAddresses: []net.IP{net.IPv4(127, 0, 0, 1)},
		}
		if at == 0 {
			ca, caKey = it, key
		}
		raw, err := x509.CreateCertificate(rand.Reader, it, ca, &key.PublicKey, caKey)
		if err != nil {
			t.Fatal(err)
		}
		secret, err := x509.MarshalECPrivateKey(key)
		if err != nil {
			t.Fatal(err)
		}
		write(t, filepath.Join(folder, name+".crt"), "CERTIFICATE", raw)
		write(t, filepath.Join(folder, name+".key"), "EC PRIVATE KEY", secret)
	}
	return folder
}

func write(t *testing.T, path, kind string, bytes []byte) {
	t.Helper()
	if err := os.WriteFile(path, pem.EncodeToMemory(&pem.Block{Type: kind, Bytes: bytes}), 0o600); err != nil {
		t.Fatal(err)
	}
}

// secured starts servers whose members speak by mutual TLS.
func secured(t *testing.T, names ...string) []*server {
	t.Helper()
	folder := certified(t, names...)
	all := prepared(t, "https", func(_ int, o *Options) {
		o.CA = filepath.Join(folder, "ca.crt")
		o.Cert, o.Key = filepath.Join(folder, o.Name+".crt"), filepath.Join(folder, o.Name+".key")
	}, names...)
	for _, s := range all {
		s.start()
	}
	for _, s := range all {
		select {
		case <-s.member.Ready():
		case <-time.After(20 * time.Second):
			t.Fatal("the members don't come together")
		}
		s.open()
	}
	return all
}

func TestMembersSpeakByMutualTLS(t *testing.T) {
	t.Parallel()
	all := secured(t, "a", "b")
	all[0].append("1")
	all[1].append("2")
	all[0].has("1", "2")

	// a stranger, whose certificate is another CA's, or who has none
	place, _ := peerOf(urlOf(all[0]))
	foreign := certified(t, "foreign")
	pair, err := tls.LoadX509KeyPair(filepath.Join(foreign, "foreign.crt"), filepath.Join(foreign, "foreign.key"))
	if err != nil {
		t.Fatal(err)
	}
	for _, certificates := range [][]tls.Certificate{nil, {pair}} {
		conn, err := tls.Dial("tcp", place.Host, &tls.Config{InsecureSkipVerify: true, Certificates: certificates})
		if err == nil {
			conn.Write([]byte("GET /members HTTP/1.1\r\nHost: a\r\n\r\n"))
			conn.SetReadDeadline(time.Now().Add(5 * time.Second))
			_, err = conn.Read(make([]byte, 1))
			conn.Close()
		}
		if err == nil {
			t.Error("a stranger is answered")
		}
	}
}

// A server whose member has kept a batch wrongly ends, where its journal hasn't the batch; a stranger's key ends nobody.
func TestADamagedMemberEndsItsServer(t *testing.T) {
	t.Parallel()
	all := secured(t, "a", "b", "c")
	a := all[0]
	a.append("one string", "another one")
	key := "dsmdb/1/0000000002-00000000000000000000000000000000"
	_, err := all[1].member.Embedded().KV.Put(context.Background(), &pb.PutRequest{Key: []byte(key), Value: []byte("a stranger's")})
	if err != nil {
		t.Fatal(err)
	}
	a.append("a third")
	a.has("one string", "another one", "a third")
	a.stop()
	db, err := bbolt.Open(filepath.Join(a.options.Folder, "etcd", "member", "snap", "db"), 0o600, nil)
	if err != nil {
		t.Fatal(err)
	}
	flipped := 0
	err = db.Update(func(tx *bbolt.Tx) error {
		bucket := tx.Bucket([]byte("key"))
		return bucket.ForEach(func(key, value []byte) error {
			at := bytes.Index(value, []byte("another one"))
			if at < 0 {
				return nil
			}
			flipped++
			changed := append([]byte(nil), value...)
			changed[at-4] ^= 1 // its length
			return bucket.Put(append([]byte(nil), key...), changed)
		})
	})
	if err != nil || flipped != 1 {
		t.Fatal(flipped, err)
	}
	db.Close()
	a.start()
	a.open() // the journal has it
	a.has("one string", "another one", "a third")
	a.append("a fourth")
	a.order.Close()
	a.journal = t.TempDir()
	a.open()
	a.until("ended", func() bool { return a.closed })
	if why := a.order.Err(); !errors.Is(why, order.ErrDamaged) {
		t.Errorf("%v", why)
	}
	all[2].has("one string", "another one", "a third", "a fourth")
}
