package order

import (
	"crypto/tls"
	"crypto/x509"
	"errors"
	"fmt"
	"net/url"
	"os"
	"strings"

	"dsmdb/server/batch"
)

// EtcdOptions say where an order in etcd is, and how etcd is reached. A Place sets Number, Maker and Journal for each of its
// orders.
type EtcdOptions struct {
	Endpoints []string // http://HOST:PORT or https://HOST:PORT each
	Prefix    string
	Number    uint64 // of the order, from 1
	// CA is the path of the certificates that etcd's certificate has to come from; the system's where it is empty.
	CA string
	// Cert and Key are the paths of this server's certificate and key towards etcd; empty for none.
	Cert, Key string
	// Login is the path of a file with a user and a password of etcd, a line each; empty for none.
	Login string
	// Secret signs all batches; nil for none.
	Secret *batch.Secret
	Maker  Maker
	// Journal is the path of the folder of the journal, which has to be there and to hold nothing else.
	Journal string
	// Log is told of what an administrator wants to know; nil for nobody.
	Log func(format string, args ...any)
}

// login is a user of etcd.
type login struct{ user, password string }

// longestPrefix is the most bytes of a prefix.
const longestPrefix = 512

func (o *EtcdOptions) check() error {
	if o.Prefix == "" || len(o.Prefix) > longestPrefix || strings.Contains(o.Prefix, "\x00") {
		return fmt.Errorf("an order in etcd wants a prefix of 1 to %d bytes", longestPrefix)
	}
	if o.Number == 0 {
		return errNumber
	}
	if (o.Cert == "") != (o.Key == "") {
		return errors.New("a certificate towards etcd and its key go together")
	}
	if len(o.Maker.Version) > 255 {
		return errors.New("a version of more than 255 bytes")
	}
	return nil
}

// members returns the members of etcd at the endpoints.
func (o *EtcdOptions) members() (*nodes, error) {
	hosts, secure, err := hostsOf(o.Endpoints)
	if err != nil {
		return nil, err
	}
	template := remote{}
	if secure {
		if template.tls, err = o.tlsOf(); err != nil {
			return nil, err
		}
	}
	if o.Login != "" {
		if template.login, err = loginOf(o.Login, secure); err != nil {
			return nil, err
		}
	}
	all := &nodes{}
	for _, host := range hosts {
		all.all = append(all.all, &remote{host: host, tls: template.tls, login: template.login})
	}
	return all, nil
}

// hostsOf returns the hosts of endpoints, and whether they are reached by TLS.
func hostsOf(endpoints []string) (hosts []string, secure bool, err error) {
	if len(endpoints) == 0 {
		return nil, false, errors.New("no endpoint of etcd is given")
	}
	for at, it := range endpoints {
		found, err := url.Parse(it)
		if err != nil || found.Host == "" || found.Port() == "" || strings.Trim(found.Path, "/") != "" || found.User != nil ||
			found.Scheme != "http" && found.Scheme != "https" {
			return nil, false, fmt.Errorf("%s is no endpoint of etcd: http://HOST:PORT or https://HOST:PORT", it)
		}
		if at > 0 && secure != (found.Scheme == "https") {
			return nil, false, errors.New("endpoints of etcd are all http or all https")
		}
		secure = found.Scheme == "https"
		hosts = append(hosts, found.Host)
	}
	return hosts, secure, nil
}

// tlsOf returns how etcd is reached by TLS.
func (o *EtcdOptions) tlsOf() (*tls.Config, error) {
	config := &tls.Config{MinVersion: tls.VersionTLS12}
	if o.CA != "" {
		raw, err := os.ReadFile(o.CA)
		if err != nil {
			return nil, fmt.Errorf("the certificates for etcd: %w", err)
		}
		config.RootCAs = x509.NewCertPool()
		if !config.RootCAs.AppendCertsFromPEM(raw) {
			return nil, fmt.Errorf("%s has no certificate", o.CA)
		}
	}
	if o.Cert != "" {
		pair, err := tls.LoadX509KeyPair(o.Cert, o.Key)
		if err != nil {
			return nil, fmt.Errorf("the certificate towards etcd in %s: %w", o.Cert, err)
		}
		config.Certificates = []tls.Certificate{pair}
	}
	return config, nil
}

// loginOf reads a user and a password from a file that its owner alone may read. They go to endpoints with TLS alone.
func loginOf(path string, secure bool) (*login, error) {
	if !secure {
		return nil, fmt.Errorf("%s: a password goes to endpoints that are https alone", path)
	}
	opened, err := os.Open(path)
	if err != nil {
		return nil, fmt.Errorf("the login for etcd: %w", err)
	}
	defer opened.Close()
	about, err := opened.Stat()
	if err != nil {
		return nil, fmt.Errorf("the login for etcd: %w", err)
	}
	if about.Mode().Perm()&0o077 != 0 {
		return nil, fmt.Errorf("%s: others may read it (mode %04o): chmod 600 %s", path, about.Mode().Perm(), path)
	}
	raw, err := os.ReadFile(path)
	if err != nil {
		return nil, fmt.Errorf("the login for etcd: %w", err)
	}
	user, password, ok := strings.Cut(strings.TrimSuffix(string(raw), "\n"), "\n")
	if !ok || user == "" || password == "" || strings.Contains(password, "\n") {
		return nil, fmt.Errorf("%s: a line with a user and a line with a password are wanted", path)
	}
	return &login{user, password}, nil
}
