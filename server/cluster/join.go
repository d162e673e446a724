package cluster

import (
	"context"
	"crypto/tls"
	"errors"
	"fmt"
	"strings"
	"time"

	"go.etcd.io/etcd/etcdserver/api/v3rpc"
	pb "go.etcd.io/etcd/etcdserver/etcdserverpb"
	"go.etcd.io/etcd/pkg/transport"
	"google.golang.org/grpc"
	"google.golang.org/grpc/credentials"
)

// Invitation is what a running server tells one that joins its cluster.
type Invitation struct {
	Name    string // of the new member
	Members string // NAME=PEER-URL,.., of all members with the new one
}

const (
	callIn    = 2 * time.Second // that a member that runs answers in
	healthyIn = 10 * time.Second
)

// Invite replaces the lost member of a name by a new one, which is reached at a peer URL, or adds a member where there is
// none of the name. The new one is a learner until it has caught up. A member that still answers isn't replaced.
func (m *Member) Invite(ctx context.Context, name, place string) (Invitation, error) {
	found, err := m.invite(ctx, name, place)
	if err != nil {
		return Invitation{}, fmt.Errorf("inviting member %s: %w", name, err)
	}
	return found, nil
}

func (m *Member) invite(ctx context.Context, name, place string) (Invitation, error) {
	if _, err := membersOf(name + "=" + place); err != nil {
		return Invitation{}, err
	}
	server := v3rpc.NewClusterServer(m.etcd.Server)
	list, err := server.MemberList(ctx, &pb.MemberListRequest{})
	if err != nil {
		return Invitation{}, err
	}
	all, before := members{}, (*pb.Member)(nil)
	for _, it := range list.Members {
		switch {
		case it.Name == name, it.Name == "" && contains(it.PeerURLs, place):
			before = it
		case it.Name == "":
			return Invitation{}, fmt.Errorf("another member, at %s, was invited and hasn't started", strings.Join(it.PeerURLs, " "))
		default:
			all[it.Name] = it.PeerURLs[0]
		}
	}
	all[name] = place
	made := Invitation{Name: name, Members: all.String()}
	if before != nil && before.Name == "" { // invited already
		return made, nil
	}
	if before != nil {
		if err := m.remove(ctx, server, before); err != nil {
			return Invitation{}, err
		}
	}
	asked := &pb.MemberAddRequest{PeerURLs: []string{place}, IsLearner: true}
	return made, untilHealthy(ctx, func() error {
		_, err := server.MemberAdd(ctx, asked)
		return err
	})
}

func contains(all []string, wanted string) bool {
	for _, it := range all {
		if it == wanted {
			return true
		}
	}
	return false
}

// remove removes a member that doesn't answer any more.
func (m *Member) remove(ctx context.Context, server pb.ClusterServer, lost *pb.Member) error {
	if lost.ID == uint64(m.etcd.Server.ID()) {
		return errors.New("it is the member that was asked")
	}
	for _, it := range lost.PeerURLs {
		if m.answers(ctx, it) {
			return fmt.Errorf("it still runs, and answers at %s", it)
		}
	}
	return untilHealthy(ctx, func() error {
		_, err := server.MemberRemove(ctx, &pb.MemberRemoveRequest{ID: lost.ID})
		return err
	})
}

// untilHealthy tries for a while to change the members: etcd wants all that vote to have been connected for some seconds.
func untilHealthy(ctx context.Context, change func() error) error {
	for end := time.Now().Add(healthyIn); ; {
		err := change()
		if err == nil || time.Now().After(end) || !strings.Contains(err.Error(), "unhealthy cluster") {
			return err
		}
		select {
		case <-ctx.Done():
			return ctx.Err()
		case <-time.After(300 * time.Millisecond):
		}
	}
}

// answers returns whether a member answers at its peer URL.
func (m *Member) answers(ctx context.Context, place string) bool {
	found, err := peerOf(place)
	if err != nil {
		return false
	}
	option := grpc.WithInsecure()
	if found.Scheme == "https" {
		info := transport.TLSInfo{CertFile: m.options.Cert, KeyFile: m.options.Key, TrustedCAFile: m.options.CA}
		config, err := info.ClientConfig()
		if err != nil {
			return false
		}
		// it runs whatever its certificate says
		option = grpc.WithTransportCredentials(credentials.NewTLS(withoutCheck(config)))
	}
	within, cancel := context.WithTimeout(ctx, callIn)
	defer cancel()
	conn, err := grpc.DialContext(within, "passthrough:///"+found.Host, option, grpc.WithBlock(), grpc.FailOnNonTempDialError(true))
	if err != nil {
		return false
	}
	return conn.Close() == nil
}

func withoutCheck(config *tls.Config) *tls.Config {
	config.InsecureSkipVerify = true
	return config
}

// promote has members vote that were invited and have caught up, as long as this one leads.
func (m *Member) promote(ctx context.Context) {
	defer close(m.stopped)
	server := v3rpc.NewClusterServer(m.etcd.Server)
	for {
		select {
		case <-ctx.Done():
			return
		case <-m.etcd.Server.StopNotify():
			return
		case <-time.After(promoteIn):
		}
		if m.etcd.Server.Leader() != m.etcd.Server.ID() {
			continue
		}
		for _, it := range m.etcd.Server.Cluster().Members() {
			if it.IsLearner {
				within, cancel := context.WithTimeout(ctx, promoteIn)
				server.MemberPromote(within, &pb.MemberPromoteRequest{ID: uint64(it.ID)}) // else it is tried again
				cancel()
			}
		}
	}
}
