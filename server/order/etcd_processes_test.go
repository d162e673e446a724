package order

import (
	"bytes"
	"context"
	"fmt"
	"os"
	"os/exec"
	"path/filepath"
	"runtime"
	"strings"
	"syscall"
	"testing"
	"time"

	"dsmdb/server/ports"

	pb "go.etcd.io/etcd/etcdserver/etcdserverpb"
	"google.golang.org/grpc"
	"google.golang.org/grpc/backoff"
	"google.golang.org/grpc/credentials"
)

// starts are processes to be started from a thread that never ends, for they are killed when their thread is.
var starts = func() chan func() {
	wanted := make(chan func())
	go func() {
		runtime.LockOSThread()
		for it := range wanted {
			it()
		}
	}()
	return wanted
}()

// etcds are members of etcd that run for a test.
type etcds struct {
	t       *testing.T
	all     []*etcdProcess
	cluster string
	more    []string   // arguments
	access  *authority // where it is reached by TLS
}

type etcdProcess struct {
	name, folder string
	client, peer int // ports
	running      *exec.Cmd
}

// runEtcd starts a cluster of some members, which ends with the test.
func runEtcd(t *testing.T, count int, more ...string) *etcds {
	t.Helper()
	return run(&etcds{t: t, more: more}, count)
}

// runEtcdTLS starts a member that wants certificates of an authority, which has made some for server and client.
func runEtcdTLS(t *testing.T, access *authority, more ...string) *etcds {
	t.Helper()
	more = append(more, "--cert-file", access.path("server.crt"), "--key-file", access.path("server.key"),
		"--trusted-ca-file", access.path("ca.crt"), "--client-cert-auth")
	return run(&etcds{t: t, more: more, access: access}, 1)
}

func run(c *etcds, count int) *etcds {
	t := c.t
	t.Helper()
	if _, err := exec.LookPath("etcd"); err != nil {
		t.Skip("etcd isn't installed")
	}
	folder := t.TempDir()
	var urls []string
	for at := 0; at < count; at++ {
		it := &etcdProcess{name: fmt.Sprintf("m%d", at), client: freePort(t), peer: freePort(t)}
		it.folder = filepath.Join(folder, it.name)
		c.all = append(c.all, it)
		urls = append(urls, fmt.Sprintf("%s=http://127.0.0.1:%d", it.name, it.peer))
	}
	c.cluster = strings.Join(urls, ",")
	for at := range c.all {
		c.start(at)
	}
	t.Cleanup(func() {
		for at := range c.all {
			c.kill(at)
		}
	})
	c.awaitAll()
	return c
}

func freePort(t *testing.T) int {
	t.Helper()
	port, err := ports.Free()
	if err != nil {
		t.Fatal(err)
	}
	return port
}

func (c *etcds) start(at int) {
	c.t.Helper()
	it := c.all[at]
	client, peer := c.endpoints()[at], fmt.Sprintf("http://127.0.0.1:%d", it.peer)
	args := append([]string{
		"--name", it.name, "--data-dir", it.folder, "--listen-client-urls", client, "--advertise-client-urls", client,
		"--listen-peer-urls", peer, "--initial-advertise-peer-urls", peer, "--initial-cluster", c.cluster,
		"--initial-cluster-state", "new", "--logger", "zap", "--log-level", "fatal", "--log-outputs", "stderr",
		"--unsafe-no-fsync",
	}, c.more...)
	command := exec.Command("etcd", args...)
	command.Stderr = os.Stderr
	command.SysProcAttr = &syscall.SysProcAttr{Pdeathsig: syscall.SIGKILL}
	failed := make(chan error)
	starts <- func() { failed <- command.Start() }
	if err := <-failed; err != nil {
		c.t.Fatal(err)
	}
	it.running = command
}

func (c *etcds) kill(at int) {
	if it := c.all[at].running; it != nil {
		it.Process.Kill()
		it.Wait()
		c.all[at].running = nil
	}
}

func (c *etcds) signal(at int, what syscall.Signal) { c.all[at].running.Process.Signal(what) }

func (c *etcds) endpoints() []string {
	var all []string
	scheme := "http"
	if c.access != nil {
		scheme = "https"
	}
	for _, it := range c.all {
		all = append(all, fmt.Sprintf("%s://127.0.0.1:%d", scheme, it.client))
	}
	return all
}

// awaitAll waits for each member to answer.
func (c *etcds) awaitAll() {
	c.t.Helper()
	for at := range c.all {
		c.await(at)
	}
}

func (c *etcds) await(at int) {
	c.t.Helper()
	kv := c.kv(at)
	for end := time.Now().Add(30 * time.Second); ; {
		ctx, cancel := context.WithTimeout(context.Background(), time.Second)
		_, err := kv.Range(ctx, &pb.RangeRequest{Key: []byte("a")})
		cancel()
		if err == nil {
			return
		}
		if time.Now().After(end) {
			c.t.Fatalf("member %d: %v", at, err)
		}
		time.Sleep(30 * time.Millisecond)
	}
}

// kv asks one member.
func (c *etcds) kv(at int) pb.KVClient {
	c.t.Helper()
	option := grpc.WithInsecure()
	if c.access != nil {
		options := EtcdOptions{CA: c.access.path("ca.crt"), Cert: c.access.path("client.crt"), Key: c.access.path("client.key")}
		config, err := options.tlsOf()
		if err != nil {
			c.t.Fatal(err)
		}
		option = grpc.WithTransportCredentials(credentials.NewTLS(config))
	}
	quick := grpc.ConnectParams{
		Backoff:           backoff.Config{BaseDelay: firstPause, Multiplier: 1, MaxDelay: firstPause},
		MinConnectTimeout: 5 * time.Second,
	}
	conn, err := grpc.Dial(fmt.Sprintf("127.0.0.1:%d", c.all[at].client), option, grpc.WithConnectParams(quick))
	if err != nil {
		c.t.Fatal(err)
	}
	c.t.Cleanup(func() { conn.Close() })
	return pb.NewKVClient(conn)
}

// put puts a key as a stranger would.
func (c *etcds) put(key, value string) {
	c.t.Helper()
	if _, err := c.kv(0).Put(within(c.t), &pb.PutRequest{Key: []byte(key), Value: []byte(value)}); err != nil {
		c.t.Fatal(err)
	}
}

func (c *etcds) remove(key string) {
	c.t.Helper()
	answer, err := c.kv(0).DeleteRange(within(c.t), &pb.DeleteRangeRequest{Key: []byte(key)})
	if err != nil || answer.Deleted != 1 {
		c.t.Fatal(answer, err)
	}
}

// keys returns all keys under a prefix, as they were made.
func (c *etcds) keys(prefix string) []string {
	c.t.Helper()
	answer, err := c.kv(0).Range(within(c.t), &pb.RangeRequest{
		Key: []byte(prefix), RangeEnd: []byte(prefix[:len(prefix)-1] + "0"),
		SortTarget: pb.RangeRequest_CREATE, SortOrder: pb.RangeRequest_ASCEND,
	})
	if err != nil {
		c.t.Fatal(err)
	}
	var all []string
	for _, it := range answer.Kvs {
		all = append(all, string(it.Key))
	}
	return all
}

func (c *etcds) value(key string) string {
	c.t.Helper()
	answer, err := c.kv(0).Range(within(c.t), &pb.RangeRequest{Key: []byte(key)})
	if err != nil || len(answer.Kvs) != 1 {
		c.t.Fatal(answer, err)
	}
	return string(answer.Kvs[0].Value)
}

func within(t *testing.T) context.Context {
	ctx, cancel := context.WithTimeout(context.Background(), 20*time.Second)
	t.Cleanup(cancel)
	return ctx
}

// ctl runs etcdctl.
func (c *etcds) ctl(args ...string) string {
	c.t.Helper()
	with := []string{"--endpoints", c.endpoints()[0]}
	if c.access != nil {
		with = append(with, "--cacert", c.access.path("ca.crt"), "--cert", c.access.path("client.crt"),
			"--key", c.access.path("client.key"))
	}
	ctl := exec.Command("etcdctl", append(with, args...)...)
	ctl.Env = append(os.Environ(), "ETCDCTL_API=3")
	var told bytes.Buffer
	ctl.Stdout, ctl.Stderr = &told, &told
	if err := ctl.Run(); err != nil {
		c.t.Fatalf("etcdctl %v: %v: %s", args, err, told.String())
	}
	return told.String()
}
