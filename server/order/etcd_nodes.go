package order

import (
	"context"
	"crypto/tls"
	"errors"
	"fmt"
	"math"
	"strings"
	"sync"
	"sync/atomic"
	"time"

	pb "go.etcd.io/etcd/etcdserver/etcdserverpb"
	"google.golang.org/grpc"
	"google.golang.org/grpc/backoff"
	"google.golang.org/grpc/codes"
	"google.golang.org/grpc/credentials"
	"google.golang.org/grpc/keepalive"
	"google.golang.org/grpc/status"
)

const (
	answerIn   = 3 * time.Second // that an answer may take
	firstPause = 20 * time.Millisecond
	longPause  = time.Second
)

// node is a member of etcd that can be asked.
type node interface {
	name() string
	// clients returns how the member is asked now, connected and logged in where need be.
	clients(ctx context.Context) (pb.KVClient, pb.WatchClient, error)
	// explain says more of a request that wasn't answered, where there is more to say.
	explain(ctx context.Context, err error) error
	// refuseToken has the next clients be logged in anew.
	refuseToken()
	close()
}

// member is a member of etcd in this process.
type member struct {
	kv    pb.KVClient
	watch pb.WatchClient
}

func (m *member) name() string { return "the member in this process" }
func (m *member) clients(context.Context) (pb.KVClient, pb.WatchClient, error) {
	return m.kv, m.watch, nil
}
func (m *member) explain(_ context.Context, err error) error { return err }
func (m *member) refuseToken()                               {}
func (m *member) close()                                     {}

// remote is a member of etcd that is asked over the network, by a connection of its own. A request to a member that is
// away fails at once: etcd's client would wait, and ask another member.
type remote struct {
	host  string
	tls   *tls.Config // nil for none
	login *login      // nil for none

	mutex sync.Mutex
	conn  *grpc.ClientConn
	token token
}

func (r *remote) name() string { return r.host }

func (r *remote) clients(ctx context.Context) (pb.KVClient, pb.WatchClient, error) {
	r.mutex.Lock()
	defer r.mutex.Unlock()
	if r.conn == nil {
		conn, err := grpc.Dial("passthrough:///"+r.host, r.options()...)
		if err != nil {
			return nil, nil, err
		}
		r.conn = conn
	}
	if r.login != nil && r.token.get() == "" {
		asked := &pb.AuthenticateRequest{Name: r.login.user, Password: r.login.password}
		answer, err := pb.NewAuthClient(r.conn).Authenticate(ctx, asked)
		if err != nil {
			return nil, nil, err
		}
		r.token.set(answer.Token)
	}
	return pb.NewKVClient(r.conn), pb.NewWatchClient(r.conn), nil
}

func (r *remote) options() []grpc.DialOption {
	pause := backoff.Config{BaseDelay: firstPause, Multiplier: 1.5, Jitter: 0.2, MaxDelay: longPause}
	options := []grpc.DialOption{
		grpc.WithConnectParams(grpc.ConnectParams{Backoff: pause, MinConnectTimeout: answerIn}),
		grpc.WithKeepaliveParams(keepalive.ClientParameters{Time: 10 * time.Second, Timeout: answerIn}),
		grpc.WithDefaultCallOptions(grpc.MaxCallRecvMsgSize(math.MaxInt32), grpc.MaxCallSendMsgSize(math.MaxInt32)),
		grpc.WithReadBufferSize(1 << 16), grpc.WithWriteBufferSize(1 << 16),
		grpc.WithDisableRetry(), grpc.WithDisableServiceConfig(),
	}
	if r.tls == nil {
		return append(options, grpc.WithInsecure())
	}
	options = append(options, grpc.WithTransportCredentials(credentials.NewTLS(r.tls)))
	if r.login != nil {
		options = append(options, grpc.WithPerRPCCredentials(&r.token))
	}
	return options
}

// explain asks a member that only ends connections why: it may refuse this server's certificate, which gRPC keeps to
// itself.
func (r *remote) explain(ctx context.Context, err error) error {
	if r.tls == nil || status.Code(err) != codes.Unavailable || strings.Contains(wordsOf(err), "refused") {
		return err
	}
	ctx, cancel := context.WithTimeout(ctx, longPause)
	defer cancel()
	config := r.tls.Clone()
	config.NextProtos = []string{"h2"}
	conn, fault := (&tls.Dialer{Config: config}).DialContext(ctx, "tcp", r.host)
	if fault == nil {
		go func() { // ends the read
			<-ctx.Done()
			conn.Close()
		}()
		_, fault = conn.Read(make([]byte, 1))
	}
	if fault != nil && strings.Contains(fault.Error(), "tls: ") {
		return status.Error(codes.Unavailable, fault.Error())
	}
	return err
}

func (r *remote) refuseToken() { r.token.set("") }

func (r *remote) close() {
	r.mutex.Lock()
	defer r.mutex.Unlock()
	if r.conn != nil {
		r.conn.Close()
	}
}

// token is what etcd has given for a login. Its zero value is none.
type token struct {
	mutex sync.Mutex
	text  string
}

func (t *token) get() string {
	t.mutex.Lock()
	defer t.mutex.Unlock()
	return t.text
}

func (t *token) set(text string) {
	t.mutex.Lock()
	defer t.mutex.Unlock()
	t.text = text
}

// GetRequestMetadata implements credentials.PerRPCCredentials.
func (t *token) GetRequestMetadata(context.Context, ...string) (map[string]string, error) {
	text := t.get()
	if text == "" {
		return nil, nil
	}
	return map[string]string{"token": text}, nil
}

// RequireTransportSecurity implements credentials.PerRPCCredentials.
func (t *token) RequireTransportSecurity() bool { return true }

// nodes are the members of etcd that an order can ask. One that works is asked until it fails.
type nodes struct {
	all      []node
	home     bool          // whether they are the one in this process
	at       atomic.Int32  // which one is asked
	seen     atomic.Int64  // the greatest revision of a linearizable answer, or of a key
	reach    reach         // whether etcd answers
	failures atomic.Uint64 // of requests
	log      func(format string, args ...any)
	left     func(at int32) // is told which one isn't asked any more
	// compare says whether the member in this process has kept what the others have; nil for yes.
	compare func(ctx context.Context, revision int64) error
}

// errPast says that etcd doesn't have what it had.
var errPast = errors.New("somebody changed the past")

func (n *nodes) now() (node, int32) {
	at := n.at.Load()
	return n.all[at], at
}

// leave goes on with the next member, where the one that failed is still asked.
func (n *nodes) leave(at int32) {
	if len(n.all) > 1 && n.at.CompareAndSwap(at, (at+1)%int32(len(n.all))) {
		n.left(at)
	}
}

// question asks a member, and returns the header of its answer.
type question func(ctx context.Context, kv pb.KVClient) (*pb.ResponseHeader, error)

// ask asks the member whose turn it is a linearizable question, once.
func (n *nodes) ask(ctx context.Context, ask question) error {
	it, at := n.now()
	before := n.seen.Load()
	err := n.askAt(ctx, it, before, ask)
	if err == nil || errors.Is(err, errPast) {
		return err
	}
	if faultOf(ctx, err) == lost {
		n.leave(at)
	}
	return err
}

// askAt asks a member a linearizable question, whose answer has to be of a revision from one on.
func (n *nodes) askAt(ctx context.Context, it node, least int64, ask question) error {
	within, cancel := context.WithTimeout(ctx, answerIn)
	defer cancel()
	kv, _, err := it.clients(within)
	if err != nil {
		return n.failed(ctx, it, err)
	}
	header, err := ask(within, kv)
	if err != nil {
		return n.failed(ctx, it, err)
	}
	n.reach.succeeded()
	if header.Revision < least {
		return fmt.Errorf("%w: etcd is at revision %d, and was at %d", errPast, header.Revision, least)
	}
	n.saw(header.Revision)
	return nil
}

// rangeOf asks for keys, linearizably.
func (n *nodes) rangeOf(ctx context.Context, asked *pb.RangeRequest) (answer *pb.RangeResponse, err error) {
	err = n.ask(ctx, func(ctx context.Context, kv pb.KVClient) (*pb.ResponseHeader, error) {
		if answer, err = kv.Range(ctx, asked); err != nil {
			return nil, err
		}
		return answer.Header, nil
	})
	return answer, err
}

// txn asks for a transaction. A transaction that only reads is linearizable, too, and reads all at one revision.
func (n *nodes) txn(ctx context.Context, asked *pb.TxnRequest) (answer *pb.TxnResponse, err error) {
	err = n.ask(ctx, func(ctx context.Context, kv pb.KVClient) (*pb.ResponseHeader, error) {
		if answer, err = kv.Txn(ctx, asked); err != nil {
			return nil, err
		}
		return answer.Header, nil
	})
	return answer, err
}

// again asks at each member once or twice, since much may depend on one answer.
func (n *nodes) again(ctx context.Context, ask func() error) error {
	for failures := 1; ; failures++ {
		err := ask()
		if err == nil || isEnd(err) || failures > 2*len(n.all) || faultOf(ctx, err) == compacted || !n.pause(ctx, failures) {
			return err
		}
	}
}

// rangeAgain asks for keys as rangeOf does, again where need be.
func (n *nodes) rangeAgain(ctx context.Context, asked *pb.RangeRequest) (answer *pb.RangeResponse, err error) {
	err = n.again(ctx, func() error {
		answer, err = n.rangeOf(ctx, asked)
		return err
	})
	return answer, err
}

// rangeAt asks a member for keys as it has kept them, as far as the others have come.
func (n *nodes) rangeAt(ctx context.Context, at node, asked *pb.RangeRequest) (answer *pb.RangeResponse, err error) {
	least := n.seen.Load()
	err = n.askAt(ctx, at, least, func(ctx context.Context, kv pb.KVClient) (*pb.ResponseHeader, error) {
		if answer, err = kv.Range(ctx, asked); err != nil {
			return nil, err
		}
		return answer.Header, nil
	})
	return answer, err
}

func (n *nodes) failed(ctx context.Context, it node, err error) error {
	if ctx.Err() != nil {
		return err
	}
	switch faultOf(ctx, err) {
	case badToken:
		it.refuseToken()
	case full, tooLarge, compacted: // it has answered
		n.reach.succeeded()
		return err
	}
	n.failures.Add(1)
	why := explained(it.name(), it.explain(ctx, err))
	if n.reach.failed(why) {
		n.log("etcd: %v", why)
	}
	return why
}

// saw notes a revision that etcd has come to.
func (n *nodes) saw(revision int64) {
	for {
		before := n.seen.Load()
		if revision <= before || n.seen.CompareAndSwap(before, revision) {
			return
		}
	}
}

func (n *nodes) close() {
	for _, it := range n.all {
		it.close()
	}
}

// reach says since when etcd doesn't answer, and why.
type reach struct {
	mutex sync.Mutex
	since time.Time
	why   error
	told  map[string]time.Time // what was said, and when
}

func (r *reach) succeeded() {
	r.mutex.Lock()
	defer r.mutex.Unlock()
	r.why = nil
}

// failed returns whether the reason wasn't told in the last minute.
func (r *reach) failed(why error) bool {
	r.mutex.Lock()
	defer r.mutex.Unlock()
	now := time.Now()
	if r.why == nil {
		r.since = now
	}
	r.why = why
	if len(r.told) > 1000 || r.told == nil {
		r.told = map[string]time.Time{}
	}
	told, is := r.told[why.Error()]
	if is && now.Sub(told) < time.Minute {
		return false
	}
	r.told[why.Error()] = now
	return true
}

func (r *reach) get() (time.Time, error) {
	r.mutex.Lock()
	defer r.mutex.Unlock()
	if r.why == nil {
		return time.Time{}, nil
	}
	return r.since, r.why
}

// pause waits before what failed so many times is asked again: longer after each round over all members, up to a second.
// It returns false where the context is over.
func (n *nodes) pause(ctx context.Context, failures int) bool {
	if failures%len(n.all) != 0 {
		return ctx.Err() == nil
	}
	return rest(ctx, backOff(failures/len(n.all)))
}

// backOff returns how long to wait before what failed so many times is tried again.
func backOff(failures int) time.Duration {
	if failures < 6 {
		return firstPause << uint(failures)
	}
	return longPause
}

// rest waits; false where the context is over first.
func rest(ctx context.Context, wait time.Duration) bool {
	timer := time.NewTimer(wait)
	defer timer.Stop()
	select {
	case <-ctx.Done():
		return false
	case <-timer.C:
		return true
	}
}
