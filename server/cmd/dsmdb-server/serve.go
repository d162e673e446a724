package main

import (
	"context"
	"crypto/tls"
	"errors"
	"fmt"
	"net"
	"net/http"
	"os"
	"os/signal"
	"path/filepath"
	"runtime/debug"
	"strings"
	"sync"
	"syscall"
	"time"

	"dsmdb/server/access"
	"dsmdb/server/api"
	"dsmdb/server/cluster"
	"dsmdb/server/data"
	"dsmdb/server/layout"
	"dsmdb/server/lineserver"
	"dsmdb/server/order"
	"dsmdb/server/site"
	"github.com/spf13/cobra"
)

// drainFor is for how long a server that ends answers what is out.
const drainFor = 10 * time.Second

// serveOptions are the words of `serve`.
type serveOptions struct {
	settings, data     string
	engine             string
	listen             []string
	http               string
	cert, key, clients string
	roles, layout      string
	open, insecure     bool
	overrule           bool
	patience           time.Duration
	rollAt             uint64
	keep               time.Duration
	dieAt              string
	connections        int
	served             []string // names of HTTP's hosts
	pprof              string
	etcd               etcdOptions
}

const serveText = `Keeps a replica of the database of SETTINGS in the folder DIR, and answers clients.

The order of calls lies in DIR, which is one server's. Several servers share an order in etcd: in one that runs elsewhere
(--etcd), or in their own, for which 'dsmdb begin' has prepared each DIR. Who comes by the Unix socket DIR/socket, which
this user alone can reach, may do everything. Others come by --listen and --http; without --roles those with a
certificate may call, or all with --open.`

func serveCommand() *cobra.Command {
	o := &serveOptions{}
	command := &cobra.Command{
		Use: "serve SETTINGS --data DIR", Short: "keeps a replica, and answers clients", Long: serveText,
		Example: "  dsmdb serve examples/counter.settings --data db",
		Args:    exactly(1, "SETTINGS"),
		RunE: func(_ *cobra.Command, given []string) error {
			o.settings = given[0]
			if err := o.check(); err != nil {
				return err
			}
			return o.run()
		},
	}
	flags := command.Flags()
	flags.StringVar(&o.data, "data", "", "the server's own folder, made where it isn't there")
	flags.StringArrayVar(&o.listen, "listen", nil, "where clients ask too: tls://HOST:PORT, tcp://HOST:PORT, or a Unix socket's path; may be given again")
	flags.StringVar(&o.http, "http", "", "where HTTP is answered: HOST:PORT, with TLS where there is --cert")
	flags.StringVar(&o.cert, "cert", "", "this server's certificate, a PEM file")
	flags.StringVar(&o.key, "key", "", "its key")
	flags.StringVar(&o.clients, "clients", "", "a PEM file of who signs clients' certificates")
	flags.StringVar(&o.roles, "roles", "", "a file that says who may do what")
	flags.StringVar(&o.layout, "layout", "", "a file of fields' names and types, by `sdk/c/build --layout`")
	flags.BoolVar(&o.open, "open", false, "without --roles: all who come may call")
	flags.BoolVar(&o.insecure, "insecure", false, "take TCP without TLS on addresses that aren't loopback")
	flags.BoolVar(&o.overrule, "overrule", false, "go on whatever other servers voted before this start")
	flags.DurationVar(&o.patience, "patience", 30*time.Second, "for how long a call is tried that doesn't say for how long")
	flags.Uint64Var(&o.rollAt, "roll-at", 0, "end the order where it has this many strings, and go on in another one; 0 for never")
	flags.DurationVar(&o.keep, "keep", 24*time.Hour, "how old an order is before its end may close the sessions that did nothing in it")
	flags.StringVar(&o.dieAt, "die-at", "", "for tests: end without further ado at a step of a roll")
	flags.MarkHidden("die-at")
	flags.IntVar(&o.connections, "connections", lineserver.DefaultLimits.Connections, "clients at once")
	flags.StringArrayVar(&o.served, "served", nil, "a name under which HTTP is reached, besides loopback; may be given again")
	flags.StringVar(&o.engine, "engine", os.Getenv("DSMDB"), "the program dsmdb")
	flags.StringVar(&o.pprof, "pprof", "", "where Go's profiles are given: HOST:PORT on loopback")
	flags.MarkHidden("pprof")
	o.etcd.add(flags)
	return command
}

func exactly(count int, usage string) cobra.PositionalArgs {
	return func(command *cobra.Command, given []string) error {
		if len(given) != count {
			return words("`dsmdb %s` takes %s: `dsmdb %s --help`", command.Name(), usage, command.Name())
		}
		return nil
	}
}

// check returns what is wrong with the words.
func (o *serveOptions) check() error {
	switch {
	case o.data == "":
		return words("--data DIR is missing: the server's own folder")
	case o.engine == "":
		return words("no engine: --engine PATH or DSMDB=PATH is the program dsmdb, as ./dsmdb gives it")
	case (o.cert == "") != (o.key == ""):
		return words("--cert and --key go together")
	case o.clients != "" && o.cert == "":
		return words("--clients asks for --cert and --key")
	case o.roles != "" && o.open:
		return words("--open is for servers without --roles")
	case o.patience < time.Second || o.patience > 24*time.Hour:
		return words("--patience is from 1s to 24h")
	case o.connections < 1:
		return words("--connections is at least 1")
	case o.rollAt == 1:
		return words("--roll-at is 0, or from 2 on: the first string of an order ends none")
	case o.keep < 0:
		return words("--keep is 0s or more")
	}
	if err := o.etcd.check(); err != nil {
		return err
	}
	return o.checkPlaces()
}

// checkPlaces returns what is wrong with the places at which clients are to be answered.
func (o *serveOptions) checkPlaces() error {
	for _, it := range o.listen {
		if strings.HasPrefix(it, "tls://") && o.cert == "" {
			return words("%s asks for --cert and --key", it)
		}
		if err := o.checkPlain("tcp://", it); err != nil {
			return err
		}
	}
	if o.http != "" && o.cert == "" {
		if err := o.checkPlain("", o.http); err != nil {
			return err
		}
	}
	if o.pprof != "" && !isLoopback(o.pprof) {
		return words("--pprof %s: on loopback alone", o.pprof)
	}
	return nil
}

// checkPlain returns why a place may not be reached without TLS.
func (o *serveOptions) checkPlain(prefix, place string) error {
	address := strings.TrimPrefix(place, prefix)
	if prefix != "" && address == place || o.insecure {
		return nil
	}
	if _, _, err := net.SplitHostPort(address); err != nil {
		return words("%s: HOST:PORT", place)
	}
	if isLoopback(address) {
		return nil
	}
	return words("%s isn't loopback, and without TLS everybody on the way reads along: take tls:// with --cert, or --insecure", place)
}

func isLoopback(address string) bool {
	host, _, err := net.SplitHostPort(address)
	ip := net.ParseIP(host)
	return err == nil && (host == "localhost" || ip != nil && ip.IsLoopback())
}

// server is a server that runs.
type server struct {
	*serveOptions
	log      *logger
	folder   *data.Folder
	place    order.Place
	database *site.Database
	policy   *access.Policy
	layout   *layout.Layout
	lines    *lineserver.Server
	member   *cluster.Member // nil where the order isn't in a cluster of the servers' own
	web      *http.Server
	handler  *api.Handler
	failures chan error
	began    time.Time
}

func (o *serveOptions) run() error {
	debug.SetGCPercent(400)
	raiseFileLimit()
	signal.Ignore(syscall.SIGPIPE) // of a log that nobody reads any more
	if o.pprof != "" {
		profile(o.pprof)
	}
	s := &server{serveOptions: o, log: newLogger(os.Stderr), failures: make(chan error, 8), began: time.Now()}
	settings, err := s.prepare()
	if err != nil {
		return err
	}
	defer s.folder.Close()
	ctx, stop := signal.NotifyContext(context.Background(), syscall.SIGTERM, syscall.SIGINT)
	defer stop()
	err = s.openDatabase(settings)
	defer s.stopMember()
	if err != nil {
		return err
	}
	return s.answer(ctx)
}

// answer answers clients until the context is over, where it lets what is out end, or the site or a listener fails.
func (s *server) answer(ctx context.Context) error {
	running, end := context.WithCancel(context.Background())
	defer end()
	ended := make(chan error, 1)
	go func() { ended <- s.database.Run(running) }()
	listening, stopListening := context.WithCancel(running)
	defer stopListening()
	if err := s.listenAll(listening); err != nil {
		end()
		<-ended
		return err
	}
	defer s.close()
	go s.tellSystem(running)
	select {
	case err := <-ended:
		end()
		return err
	case err := <-s.failures:
		end()
		<-ended
		return err
	case <-ctx.Done():
		s.log.say("stopping: no more calls are taken")
		notify("STOPPING=1")
		stopListening()
		s.drain()
		end()
		return <-ended
	}
}

// prepare reads what the words name, and opens the folder.
func (s *server) prepare() ([]byte, error) {
	settings, err := os.ReadFile(s.settings)
	if err != nil {
		return nil, fmt.Errorf("reading the settings: %w", err)
	}
	if s.policy = access.Without(s.open); s.roles != "" {
		if s.policy, err = access.Load(s.roles); err != nil {
			return nil, err
		}
	}
	if s.serveOptions.layout != "" {
		if s.layout, err = layout.Load(s.serveOptions.layout); err != nil {
			return nil, err
		}
	}
	s.folder, err = data.Open(s.data)
	return settings, err
}

// listenAll opens all doors.
func (s *server) listenAll(ctx context.Context) error {
	limits := lineserver.DefaultLimits
	limits.Connections = s.connections
	s.lines = &lineserver.Server{Site: s.database, Policy: s.policy, Layout: s.layout, Limits: limits, Forget: s.forget, Warn: s.log.warn}
	if s.member != nil {
		s.lines.Invite = func(ctx context.Context, name, place string) (string, error) {
			found, err := s.member.Invite(ctx, name, place)
			return found.Members, err
		}
	}
	for _, place := range append([]string{s.folder.Socket()}, s.listen...) {
		listener, err := s.listenAt(place)
		if err != nil {
			return fmt.Errorf("listening at %s: %w", place, err)
		}
		s.log.say("clients are answered at %s", place)
		go func() {
			if err := s.lines.Serve(ctx, listener); err != nil {
				s.failures <- err
			}
		}()
	}
	if s.http == "" {
		return nil
	}
	return s.listenHTTP(ctx)
}

func (s *server) listenAt(place string) (net.Listener, error) {
	if address := strings.TrimPrefix(place, "tcp://"); address != place {
		return net.Listen("tcp", address)
	}
	if address := strings.TrimPrefix(place, "tls://"); address != place {
		config, err := s.tlsConfig()
		if err != nil {
			return nil, err
		}
		return tls.Listen("tcp", address, config)
	}
	return lineserver.ListenUnix(strings.TrimPrefix(place, "unix:"))
}

// drain takes no more calls, and waits until what is out is answered, for some seconds.
func (s *server) drain() {
	s.lines.Drain()
	s.handler.Drain()
	until := time.Now().Add(drainFor - time.Second)
	for time.Now().Before(until) {
		if found, err := s.database.Look(time.Second); errors.Is(err, site.ErrEnded) || err == nil && found.Waiting == 0 {
			return
		}
		time.Sleep(20 * time.Millisecond)
	}
}

// stopMember ends the member that keeps the order, where this server runs one.
func (s *server) stopMember() {
	if s.member != nil {
		if err := s.member.Stop(); err != nil {
			s.log.warn("%v", err)
		}
	}
}

// close gives up what is open.
func (s *server) close() {
	var all sync.WaitGroup
	all.Add(1)
	go func() {
		defer all.Done()
		s.lines.Close()
	}()
	if s.web != nil {
		limited, cancel := context.WithTimeout(context.Background(), time.Second)
		defer cancel()
		s.web.Shutdown(limited)
	}
	all.Wait()
	os.Remove(s.folder.Socket())
	for _, it := range s.listen {
		if !strings.Contains(it, "://") {
			os.Remove(filepath.Clean(strings.TrimPrefix(it, "unix:")))
		}
	}
}

func raiseFileLimit() {
	var limit syscall.Rlimit
	if syscall.Getrlimit(syscall.RLIMIT_NOFILE, &limit) == nil {
		limit.Cur = limit.Max
		syscall.Setrlimit(syscall.RLIMIT_NOFILE, &limit)
	}
}
