// Package cluster runs a member of etcd inside a server, so that some servers are a cluster with nothing else.
//
// A folder is prepared for its member, by Begin or Accept, before the member starts. A member that has voted has its data,
// or never starts again: on an empty disk it would vote for what it has forgotten.
package cluster

import (
	"context"
	"errors"
	"fmt"
	"io"
	"io/fs"
	"net/url"
	"os"
	"path/filepath"
	"time"

	"dsmdb/server/order"
	"go.etcd.io/etcd/embed"
	"go.etcd.io/etcd/etcdserver/api/v3rpc"
	"go.etcd.io/etcd/pkg/transport"
	"go.etcd.io/etcd/proxy/grpcproxy/adapter"
	"go.uber.org/zap"
	"go.uber.org/zap/zapcore"
)

const (
	quota           = 8 << 30 // bytes of a member's data
	entriesInMemory = 10_000  // each a batch, before a member keeps them on its disk alone
	token           = "dsmdb" // of a new cluster
	stopIn          = 10 * time.Second
	promoteIn       = 2 * time.Second // between looks for members that have caught up
	longSocket      = 107             // bytes of a Unix socket's path
)

// Options say which member a server has.
type Options struct {
	Folder  string // of the server, which others may not enter
	Name    string
	Members string // NAME=PEER-URL,..: for Begin alone
	// Cert, Key and CA are the paths of what members show each other.
	Cert, Key, CA string
	// Insecure lets members speak without TLS over other addresses than the loopback's.
	Insecure bool
	// Log is told of errors; nil for nobody.
	Log io.Writer
}

// Member is a member of etcd that runs in this process.
type Member struct {
	etcd    *embed.Etcd
	options Options
	stop    context.CancelFunc
	stopped chan struct{} // closed once the goroutine that promotes has ended
}

// Start starts the member for which the folder was prepared. It doesn't wait for other members.
func Start(o Options) (*Member, error) {
	m, err := start(o)
	if err != nil {
		return nil, fmt.Errorf("the cluster's member in %s: %w", o.Folder, err)
	}
	return m, nil
}

func start(o Options) (*Member, error) {
	found, err := readMark(o.Folder)
	if err != nil {
		return nil, err
	}
	if err := mayStart(found, &o); err != nil {
		return nil, err
	}
	config, err := o.config(found)
	if err != nil {
		return nil, err
	}
	if err := clearSocket(filepath.Join(o.Folder, socketName)); err != nil {
		return nil, err
	}
	before := *found
	if found.state != ran {
		found.state = ran
		if err := found.write(o.Folder); err != nil {
			return nil, err
		}
	}
	running, err := embed.StartEtcd(config)
	if err != nil {
		if before.state != ran && !hasData(o.Folder) { // it has never been a member
			if fault := before.write(o.Folder); fault != nil {
				return nil, fmt.Errorf("%v; and %w", err, fault)
			}
		}
		return nil, err
	}
	ctx, cancel := context.WithCancel(context.Background())
	m := &Member{etcd: running, options: o, stop: cancel, stopped: make(chan struct{})}
	go m.promote(ctx)
	return m, nil
}

// mayStart says why a folder's member mustn't start.
func mayStart(found *mark, o *Options) error {
	switch {
	case found == nil && hasData(o.Folder):
		return fmt.Errorf("there are data of a member, and no file %s that says whose", markName)
	case found == nil:
		return errors.New("it was prepared by neither `begin` nor `join`: an empty disk mustn't vote")
	case found.name != o.Name:
		return fmt.Errorf("it has member %s, and this server is %s", found.name, o.Name)
	case found.state == ran && !hasData(o.Folder):
		return errors.New("the data of a member that ran are gone: have a running server replace it, and `join`")
	case found.state != ran && found.state != begun && found.state != invited:
		return fmt.Errorf("%s has the state %q, which this program doesn't know", markName, found.state)
	}
	return nil
}

// clearSocket removes a socket that a server has left, and nothing else.
func clearSocket(path string) error {
	found, err := os.Lstat(path)
	if errors.Is(err, fs.ErrNotExist) {
		return nil
	}
	if err != nil {
		return err
	}
	if found.Mode()&fs.ModeSocket == 0 {
		return fmt.Errorf("%s is no socket", path)
	}
	return os.Remove(path)
}

// config returns how etcd is started.
func (o *Options) config(found *mark) (*embed.Config, error) {
	own, err := o.check(found.members)
	if err != nil {
		return nil, err
	}
	config := embed.NewConfig()
	config.Name, config.Dir = o.Name, filepath.Join(o.Folder, folderName)
	config.InitialCluster, config.InitialClusterToken = found.members.String(), token
	if found.state == invited {
		config.ClusterState = embed.ClusterStateFlagExisting
	}
	config.LPUrls, config.APUrls = []url.URL{listenOf(own)}, []url.URL{*own}
	config.LCUrls = nil
	// nobody asks there: a URL has to be told
	config.ACUrls = []url.URL{{Scheme: "http", Host: "socket.invalid:1"}}
	if path, err := filepath.Abs(filepath.Join(o.Folder, socketName)); err == nil && len(path) <= longSocket {
		config.LCUrls = []url.URL{{Scheme: "unix", Path: path}}
	}
	if own.Scheme == "https" {
		config.PeerTLSInfo = transport.TLSInfo{
			CertFile: o.Cert, KeyFile: o.Key, TrustedCAFile: o.CA, ClientCertAuth: true,
		}
	}
	config.QuotaBackendBytes, config.SnapshotCount = quota, entriesInMemory
	config.PreVote, config.EnableGRPCGateway, config.EnableV2 = true, false, false
	config.Logger, config.LogLevel = "zap", "error"
	config.ZapLoggerBuilder = loggerTo(o.Log)
	return config, nil
}

// loggerTo has etcd's errors be written, a line each.
func loggerTo(to io.Writer) func(*embed.Config) error {
	if to == nil {
		to = io.Discard
	}
	form := zap.NewProductionEncoderConfig()
	form.EncodeTime = zapcore.ISO8601TimeEncoder
	syncer := zapcore.Lock(zapcore.AddSync(to))
	core := zapcore.NewCore(zapcore.NewJSONEncoder(form), syncer, zap.NewAtomicLevelAt(zap.ErrorLevel))
	return embed.NewZapCoreLoggerBuilder(zap.New(core), core, syncer)
}

// Embedded returns how this process asks the member.
func (m *Member) Embedded() order.Embedded {
	return order.Embedded{
		KV:      adapter.KvServerToKvClient(v3rpc.NewQuotaKVServer(m.etcd.Server)),
		Watch:   adapter.WatchServerToWatchClient(v3rpc.NewWatchServer(m.etcd.Server)),
		Compare: m.compare,
	}
}

// Ready returns a channel that is closed once the member has joined its cluster, which takes most of its members.
func (m *Member) Ready() <-chan struct{} { return m.etcd.Server.ReadyNotify() }

// Ended returns a channel that is closed once the member has stopped, by itself or by Stop. A member stops by itself where
// it was replaced.
func (m *Member) Ended() <-chan struct{} { return m.etcd.Server.StopNotify() }

// Socket returns the path of the Unix socket at which etcdctl asks the member; empty where its path would be too long.
func (m *Member) Socket() string {
	if len(m.etcd.Config().LCUrls) == 0 {
		return ""
	}
	return m.etcd.Config().LCUrls[0].Path
}

// Stop stops the member, and waits for it for at most ten seconds.
func (m *Member) Stop() error {
	m.stop()
	done := make(chan struct{})
	go func() {
		defer close(done)
		<-m.stopped
		m.etcd.Close()
	}()
	select {
	case <-done:
		return nil
	case <-time.After(stopIn):
		return errors.New("the cluster's member didn't stop in time")
	}
}
