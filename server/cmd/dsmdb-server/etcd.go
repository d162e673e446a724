package main

import (
	"errors"
	"fmt"
	"os"
	"path/filepath"
	"regexp"
	"strings"

	"dsmdb/server/batch"
	"dsmdb/server/cluster"
	"dsmdb/server/order"
	"github.com/spf13/pflag"
)

// etcdOptions are the words of `serve` for an order in etcd, outside or its own.
type etcdOptions struct {
	place         string
	secret        string
	ca, cert, key string
	login         string
	peers         peerOptions
}

// peerOptions are the words for members of a cluster.
type peerOptions struct {
	name          string
	ca, cert, key string
}

var etcdPlace = regexp.MustCompile(`^(https?://[^/,]+(?:,https?://[^/,]+)*)/(.+)$`)

func (o *etcdOptions) add(flags *pflag.FlagSet) {
	flags.StringVar(&o.place, "etcd", "", "an order in an etcd that runs elsewhere: URL,URL/PREFIX")
	flags.StringVar(&o.secret, "secret", "", "a file of 32 bytes, the same at all servers, which signs what they append; DIR/secret where it is there")
	flags.StringVar(&o.ca, "etcd-ca", "", "a PEM file of who signs etcd's certificates")
	flags.StringVar(&o.cert, "etcd-cert", "", "this server's certificate towards etcd")
	flags.StringVar(&o.key, "etcd-key", "", "its key")
	flags.StringVar(&o.login, "login", "", "a file with a user of etcd and the password, a line each")
	flags.StringVar(&o.peers.name, "name", "", "the member that `dsmdb begin` or `dsmdb join` has prepared DIR for")
	o.peers.add(flags)
}

func (o *peerOptions) add(flags *pflag.FlagSet) {
	flags.StringVar(&o.cert, "peer-cert", "", "this member's certificate towards the others of its cluster")
	flags.StringVar(&o.key, "peer-key", "", "its key")
	flags.StringVar(&o.ca, "peer-ca", "", "a PEM file of who signs members' certificates")
}

func (o *etcdOptions) check() error {
	switch {
	case o.place == "" && (o.ca != "" || o.cert != "" || o.login != ""):
		return words("--etcd-ca, --etcd-cert and --login go with --etcd")
	case o.place != "" && !etcdPlace.MatchString(o.place):
		return words("--etcd %s: URL,URL/PREFIX, each URL http://HOST:PORT or https://HOST:PORT", o.place)
	}
	return nil
}

// options returns what orders in etcd are opened with.
func (o *etcdOptions) options(folder string, say func(string, ...any)) (order.EtcdOptions, error) {
	options := order.EtcdOptions{Prefix: "dsmdb", CA: o.ca, Cert: o.cert, Key: o.key, Login: o.login, Log: say}
	if o.place != "" {
		found := etcdPlace.FindStringSubmatch(o.place)
		options.Endpoints, options.Prefix = strings.Split(found[1], ","), found[2]
	}
	path := o.secret
	if path == "" {
		path = filepath.Join(folder, secretName)
		if _, err := os.Stat(path); errors.Is(err, os.ErrNotExist) {
			return options, nil
		}
	}
	secret, err := secretOf(path)
	options.Secret = secret
	return options, err
}

// openEtcd opens where orders lie in etcd: outside, or at the member that runs in this server.
func (s *server) openEtcd(name string) (order.Place, error) {
	options, err := s.etcd.options(s.data, s.log.warn)
	if err != nil {
		return nil, err
	}
	if name == "" {
		return order.InEtcd(options, s.folder)
	}
	if s.member, err = cluster.Start(cluster.Options{
		Folder: s.data, Name: name, Cert: s.etcd.peers.cert, Key: s.etcd.peers.key, CA: s.etcd.peers.ca, Insecure: s.insecure, Log: s.log,
	}); err != nil {
		return nil, err
	}
	go func() {
		<-s.member.Ended()
		s.failures <- errors.New("the cluster's member has stopped: another one took its place, or its disk failed")
	}()
	return order.InCluster(options, s.folder, s.member.Embedded())
}

// memberName returns the name of the member that this server runs; empty where it runs none.
func (s *server) memberName() (string, error) {
	name, err := cluster.Prepared(s.data)
	switch {
	case err != nil:
		return "", err
	case name != "" && s.etcd.place != "":
		return "", words("%s is prepared for member %s of a cluster: leave --etcd out", s.data, name)
	case name == "" && s.etcd.peers.name != "":
		return "", words("%s isn't prepared for a member: `dsmdb begin` or `dsmdb join` does", s.data)
	case s.etcd.peers.name != "" && name != s.etcd.peers.name:
		return "", words("%s is prepared for member %s, and not for %s", s.data, name, s.etcd.peers.name)
	}
	return name, nil
}

const secretName = "secret"

// secretOf reads a secret, which nobody but its owner may read.
func secretOf(path string) (*batch.Secret, error) {
	about, err := os.Stat(path)
	if err != nil {
		return nil, fmt.Errorf("reading the secret: %w", err)
	}
	if about.Mode().Perm()&0o077 != 0 {
		return nil, fmt.Errorf("secret %s: its group or others can reach it: chmod 600 %s", path, path)
	}
	text, err := os.ReadFile(path)
	if err != nil {
		return nil, fmt.Errorf("reading the secret: %w", err)
	}
	var secret batch.Secret
	if len(text) != len(secret) {
		return nil, fmt.Errorf("secret %s has %d bytes, and 32 are wanted: head -c 32 /dev/urandom > %s", path, len(text), path)
	}
	copy(secret[:], text)
	return &secret, nil
}
