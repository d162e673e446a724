package cluster

import (
	"errors"
	"fmt"
	"net"
	"net/url"
	"sort"
	"strings"
)

// members are the peer URLs of the members of a cluster, by name.
type members map[string]string

// membersOf reads NAME=PEER-URL,NAME=PEER-URL..
func membersOf(text string) (members, error) {
	found := members{}
	for _, it := range strings.Split(text, ",") {
		name, place, ok := strings.Cut(it, "=")
		if !ok || name == "" || strings.ContainsAny(name, " \n") {
			return nil, fmt.Errorf("%q is no member of a cluster: NAME=PEER-URL", it)
		}
		if _, ok := found[name]; ok {
			return nil, fmt.Errorf("the cluster has two members %s", name)
		}
		if _, err := peerOf(place); err != nil {
			return nil, err
		}
		found[name] = place
	}
	return found, nil
}

func (m members) String() string {
	var all []string
	for name, place := range m {
		all = append(all, name+"="+place)
	}
	sort.Strings(all)
	return strings.Join(all, ",")
}

// peerOf reads a peer URL.
func peerOf(place string) (*url.URL, error) {
	found, err := url.Parse(place)
	if err != nil || found.Hostname() == "" || found.Port() == "" || strings.Trim(found.Path, "/") != "" ||
		found.Scheme != "http" && found.Scheme != "https" {
		return nil, fmt.Errorf("%q is no peer URL: https://HOST:PORT, or http://HOST:PORT between loopback addresses", place)
	}
	return found, nil
}

// isLoopback returns whether a URL leads to this machine alone.
func isLoopback(place *url.URL) bool {
	if place.Hostname() == "localhost" {
		return true
	}
	address := net.ParseIP(place.Hostname())
	return address != nil && address.IsLoopback()
}

// listenOf returns where a member listens that others reach at a URL: there, or at all addresses where the URL has a
// name.
func listenOf(place *url.URL) url.URL {
	host := place.Hostname()
	if host != "localhost" && net.ParseIP(host) == nil {
		host = "0.0.0.0"
	}
	return url.URL{Scheme: place.Scheme, Host: net.JoinHostPort(host, place.Port())}
}

// check says what is wrong with a member's options, and returns its peer URL.
func (o *Options) check(all members) (*url.URL, error) {
	own, ok := all[o.Name]
	if !ok {
		return nil, fmt.Errorf("the cluster has no member %q, which is this server's name", o.Name)
	}
	secure := false
	for name, it := range all {
		place, err := peerOf(it)
		if err != nil {
			return nil, err
		}
		if place.Scheme == "https" {
			secure = true
		} else if !isLoopback(place) && !o.Insecure {
			return nil, fmt.Errorf("member %s is reached without TLS at %s: take https, or --insecure", name, it)
		}
	}
	if secure && (o.Cert == "" || o.Key == "" || o.CA == "") {
		return nil, errors.New("members speak by mutual TLS: a certificate, its key and the members' CA are wanted")
	}
	return peerOf(own)
}
