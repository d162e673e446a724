package cluster

import (
	"bytes"
	"context"
	"fmt"
	"net"
	"os"
	"os/exec"
	"path/filepath"
	"reflect"
	"strings"
	"sync"
	"testing"
	"time"

	"dsmdb/server/batch"
	"dsmdb/server/order"
	"dsmdb/server/ports"
)

// server is what a server has of a cluster: a folder, a member and an order.
type server struct {
	t       *testing.T
	options Options
	member  *Member
	order   *order.Etcd
	journal string
	log     *lines

	mutex   sync.Mutex
	strings []string
	own     map[*order.String]bool
	closed  bool
}

// lines are what a member tells.
type lines struct {
	mutex sync.Mutex
	text  bytes.Buffer
}

func (l *lines) Write(some []byte) (int, error) {
	l.mutex.Lock()
	defer l.mutex.Unlock()
	return l.text.Write(some)
}

func (l *lines) String() string {
	l.mutex.Lock()
	defer l.mutex.Unlock()
	return l.text.String()
}

func freePort(t *testing.T) int {
	t.Helper()
	port, err := ports.Free()
	if err != nil {
		t.Fatal(err)
	}
	return port
}

// prepared returns the servers of a new cluster, whose folders are begun.
func prepared(t *testing.T, scheme string, access func(at int, o *Options), names ...string) []*server {
	t.Helper()
	var all []*server
	var urls []string
	for _, name := range names {
		s := &server{t: t, options: Options{Folder: t.TempDir(), Name: name}, journal: t.TempDir(), log: &lines{}}
		s.options.Log = s.log
		all = append(all, s)
		urls = append(urls, fmt.Sprintf("%s=%s://127.0.0.1:%d", name, scheme, freePort(t)))
	}
	for at, s := range all {
		s.options.Members = strings.Join(urls, ",")
		if access != nil {
			access(at, &s.options)
		}
		if err := Begin(s.options); err != nil {
			t.Fatal(err)
		}
	}
	return all
}

func (s *server) start() {
	s.t.Helper()
	started, err := Start(s.options)
	if err != nil {
		s.t.Fatal(err)
	}
	s.member = started
	s.t.Cleanup(func() { started.Stop() })
}

// open opens the server's order.
func (s *server) open() {
	s.t.Helper()
	options := order.EtcdOptions{
		Prefix: "dsmdb", Number: 1, Journal: s.journal,
		Maker: order.Maker{ID: batch.ID{byte(len(s.options.Name)), s.options.Name[0]}, Version: "0.1"},
	}
	opened, err := order.OpenEmbedded(options, s.member.Embedded())
	if err != nil {
		s.t.Fatal(err)
	}
	s.mutex.Lock()
	s.order, s.strings, s.own, s.closed = opened, nil, map[*order.String]bool{}, false
	s.mutex.Unlock()
	s.t.Cleanup(func() { opened.Close() })
	go func() {
		for some := range opened.Events() {
			s.mutex.Lock()
			for _, event := range some {
				if it, ok := event.(*order.Counted); ok && s.order == opened {
					for _, text := range it.Strings {
						s.strings = append(s.strings, string(text))
					}
					for _, own := range it.Own {
						s.own[own] = true
					}
				}
			}
			s.mutex.Unlock()
		}
		s.mutex.Lock()
		s.closed = s.closed || s.order == opened
		s.mutex.Unlock()
	}()
}

func (s *server) until(what string, holds func() bool) {
	s.t.Helper()
	for end := time.Now().Add(40 * time.Second); ; time.Sleep(5 * time.Millisecond) {
		s.mutex.Lock()
		ok := holds()
		s.mutex.Unlock()
		if ok {
			return
		}
		if time.Now().After(end) {
			_, why := s.order.Reached()
			s.t.Fatalf("%s: not in time: %s (%v; %s)", s.options.Name, what, why, s.log)
		}
	}
}

func (s *server) append(texts ...string) {
	s.t.Helper()
	for _, text := range texts {
		it := &order.String{Text: []byte(text)}
		s.order.Append([]*order.String{it})
		s.until("appended "+text, func() bool { return s.own[it] })
	}
}

func (s *server) has(texts ...string) {
	s.t.Helper()
	s.until("as many strings", func() bool { return len(s.strings) >= len(texts) })
	s.mutex.Lock()
	defer s.mutex.Unlock()
	if !reflect.DeepEqual(s.strings, texts) {
		s.t.Errorf("%s has %v", s.options.Name, s.strings)
	}
}

func (s *server) stop() {
	s.t.Helper()
	s.order.Close()
	if err := s.member.Stop(); err != nil {
		s.t.Error(err)
	}
}

// Three servers are a cluster: one stops and comes again, one loses its disk, is refused, and joins as a new member.
func TestThreeServersAreACluster(t *testing.T) {
	all := prepared(t, "http", nil, "a", "b", "c")
	for _, s := range all {
		s.start()
		s.open()
	}
	a, b, c := all[0], all[1], all[2]
	a.append("1")
	b.append("2")
	c.append("3")
	for _, s := range all {
		s.has("1", "2", "3")
	}
	c.stop()
	a.append("4")
	c.start()
	c.open()
	c.has("1", "2", "3", "4")
	c.append("5")

	// an empty disk
	c.stop()
	if err := os.RemoveAll(filepath.Join(c.options.Folder, "etcd", "member")); err != nil {
		t.Fatal(err)
	}
	if _, err := Start(c.options); err == nil || !strings.HasSuffix(err.Error(),
		"the data of a member that ran are gone: have a running server replace it, and `join`") {
		t.Fatalf("%v", err)
	}
	lost := c.options.Folder
	c.options.Folder, c.journal = t.TempDir(), t.TempDir()
	if _, err := Start(c.options); err == nil || !strings.HasSuffix(err.Error(), "an empty disk mustn't vote") {
		t.Fatalf("%v", err)
	}
	b.append("6")
	ctx, cancel := context.WithTimeout(context.Background(), 30*time.Second)
	defer cancel()
	if _, err := b.member.Invite(ctx, "a", urlOf(a)); err == nil || !strings.Contains(err.Error(), "it still runs") {
		t.Errorf("a member that runs is replaced: %v", err)
	}
	for again := 0; again < 2; again++ { // the second time nothing changes
		invitation, err := b.member.Invite(ctx, "c", urlOf(c))
		if err != nil {
			t.Fatal(err)
		}
		if again == 0 {
			if err := Accept(Options{Folder: lost, Name: "c"}, invitation); err == nil {
				t.Error("a folder that has a member is prepared for another")
			}
		} else if err := Accept(c.options, invitation); err != nil {
			t.Fatal(err)
		}
	}
	c.start()
	c.open()
	c.has("1", "2", "3", "4", "5", "6")
	c.append("7")
	c.until("a vote", func() bool {
		own := c.member.etcd.Server.Cluster().Member(c.member.etcd.Server.ID())
		return own != nil && !own.IsLearner
	})
	a.stop() // so the new one's vote is wanted
	c.append("8")
	b.has("1", "2", "3", "4", "5", "6", "7", "8")
	if text := b.log.String(); strings.Contains(text, "panic") {
		t.Error(text)
	}
}

func urlOf(s *server) string {
	all, _ := membersOf(s.options.Members)
	return all[s.options.Name]
}

func TestEtcdctlAsksTheSocket(t *testing.T) {
	if _, err := exec.LookPath("etcdctl"); err != nil {
		t.Skip("etcdctl isn't installed")
	}
	s := prepared(t, "http", nil, "only")[0]
	s.start()
	s.open()
	s.append("1")
	ctl := exec.Command("etcdctl", "--endpoints", "unix://"+s.member.Socket(), "get", "--prefix", "--keys-only", "dsmdb/")
	ctl.Env = append(os.Environ(), "ETCDCTL_API=3")
	told, err := ctl.CombinedOutput()
	if err != nil || !strings.HasPrefix(string(told), "dsmdb/1/0000000000-") {
		t.Errorf("%s, %v", told, err)
	}
	s.stop()
	if err := os.WriteFile(filepath.Join(s.options.Folder, socketName), nil, 0o600); err != nil {
		t.Fatal(err)
	}
	if _, err := Start(s.options); err == nil || !strings.HasSuffix(err.Error(), "etcd.socket is no socket") {
		t.Errorf("%v", err)
	}
}

// A folder whose path is too long for a socket has none, and etcdctl can't ask its member.
func TestALongPathHasNoSocket(t *testing.T) {
	s := prepared(t, "http", nil, "only")[0]
	long := filepath.Join(s.options.Folder, strings.Repeat("x", 100))
	if err := os.Mkdir(long, 0o700); err != nil {
		t.Fatal(err)
	}
	s.options.Folder = long
	if err := Begin(s.options); err != nil {
		t.Fatal(err)
	}
	s.start()
	s.open()
	if s.append("1"); s.member.Socket() != "" {
		t.Errorf("%s is a socket", s.member.Socket())
	}
}

func TestWhatIsNoClusterIsRefused(t *testing.T) {
	for _, it := range []struct {
		o    Options
		want string
	}{
		{Options{Name: "a", Members: "b=http://127.0.0.1:1"}, `the cluster has no member "a", which is this server's name`},
		{Options{Name: "a", Members: "a=http://127.0.0.1:1,b"}, `"b" is no member of a cluster: NAME=PEER-URL`},
		{Options{Name: "a", Members: "a=http://127.0.0.1:1,a=http://127.0.0.1:2"}, "the cluster has two members a"},
		{Options{Name: "a", Members: "a=http://127.0.0.1"}, `"http://127.0.0.1" is no peer URL: https://HOST:PORT, or http://HOST:PORT between loopback addresses`},
		{Options{Name: "a", Members: "a=http://127.0.0.1:1,b=http://10.0.0.1:1"}, "member b is reached without TLS at http://10.0.0.1:1: take https, or --insecure"},
		{Options{Name: "a", Members: "a=https://127.0.0.1:1"}, "members speak by mutual TLS: a certificate, its key and the members' CA are wanted"},
		{Options{Name: "a", Members: "a=http://10.0.0.1:1", Insecure: true}, ""},
	} {
		it.o.Folder = t.TempDir()
		err := Begin(it.o)
		if it.want == "" && err != nil || it.want != "" && (err == nil || err.Error() != it.want) {
			t.Errorf("%s: %v", it.o.Members, err)
		}
		entries, _ := os.ReadDir(it.o.Folder)
		if len(entries) > 0 != (it.want == "") {
			t.Errorf("%s: %v", it.o.Members, entries)
		}
	}
}

func TestAFolderIsPreparedOnce(t *testing.T) {
	s := prepared(t, "http", nil, "a")[0]
	if err := Begin(s.options); err == nil || !strings.Contains(err.Error(), "it already has member a of a=http://127.0.0.1:") {
		t.Errorf("%v", err)
	}
	other := s.options
	other.Name = "b"
	if _, err := Start(other); err == nil || !strings.HasSuffix(err.Error(), "it has member a, and this server is b") {
		t.Errorf("%v", err)
	}
	// a start that fails leaves the folder as it was prepared
	place, _ := peerOf(urlOf(s))
	taken, err := net.Listen("tcp", place.Host)
	if err != nil {
		t.Fatal(err)
	}
	if _, err := Start(s.options); err == nil {
		t.Error("a member starts at an address that is taken")
	}
	taken.Close()
	s.start()
	s.open()
	s.append("1")
	s.stop()
	if err := os.Remove(filepath.Join(s.options.Folder, markName)); err != nil {
		t.Fatal(err)
	}
	if _, err := Start(s.options); err == nil || !strings.Contains(err.Error(), "there are data of a member, and no file etcd-member") {
		t.Errorf("%v", err)
	}
	if err := Begin(s.options); err == nil || !strings.HasSuffix(err.Error(), "it has data of a member in etcd") {
		t.Errorf("%v", err)
	}
}

func FuzzMarks(f *testing.F) {
	f.Add((&mark{"a", begun, members{"a": "http://127.0.0.1:1", "b": "https://b:2"}}).String())
	f.Add("dsmdb member of a cluster, form 1\nname a\nstate ran\nmembers b=http://127.0.0.1:1,a=http://c:1\n")
	f.Fuzz(func(t *testing.T, text string) {
		found, err := markOf(text)
		if err != nil {
			return
		}
		again, err := markOf(found.String())
		if err != nil || !reflect.DeepEqual(again, found) {
			t.Errorf("%q is read as %v, and again as %v, %v", text, found, again, err)
		}
	})
}
