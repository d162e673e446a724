package cluster

import (
	"bytes"
	"context"
	"encoding/json"
	"errors"
	"fmt"
	"io"
	"net/http"
	"time"

	"dsmdb/server/order"
	"go.etcd.io/etcd/etcdserver"
	pb "go.etcd.io/etcd/etcdserver/etcdserverpb"
	"go.etcd.io/etcd/mvcc"
	"go.etcd.io/etcd/pkg/transport"
)

// compareIn is how long a member may take to read all that it has kept.
const compareIn = 5 * time.Minute

// sum is a hash of all that a member has kept up to a revision, from another on.
type sum struct {
	hash      uint32
	compacted int64
}

// compare says whether this member has kept all up to a revision as most members have. Members don't show each other
// single keys.
func (m *Member) compare(ctx context.Context, revision int64) error {
	ctx, cancel := context.WithTimeout(ctx, compareIn)
	defer cancel()
	hash, _, compacted, err := m.etcd.Server.KV().HashByRev(revision)
	if errors.Is(err, mvcc.ErrCompacted) {
		return nil // nobody has kept it
	}
	if err != nil {
		return fmt.Errorf("reading all that the member has kept: %w", err)
	}
	own := sum{hash, compacted}
	client, err := m.peerClient()
	if err != nil {
		return err
	}
	all := m.etcd.Server.Cluster().Members()
	found, answers := map[sum]int{own: 1}, 1
	for _, it := range all {
		if it.ID == m.etcd.Server.ID() {
			continue
		}
		for _, place := range it.PeerURLs {
			if other, err := sumAt(ctx, client, place, revision); err == nil {
				found[other]++
				answers++
				break
			}
		}
	}
	return judge(own, found, answers, len(all))
}

// judge says of a member's own sum what the sums of all that answered say.
func judge(own sum, found map[sum]int, answers, members int) error {
	for it, count := range found {
		if 2*count > members && it == own {
			return nil
		}
		if 2*count > members {
			return fmt.Errorf("%w: most members have kept something else; replace it by a new one", order.ErrDamaged)
		}
	}
	if answers < members {
		return fmt.Errorf("%d of %d members say what they have kept", answers, members)
	}
	return fmt.Errorf("%w, or those of another: they differ, and no most members agree", order.ErrDamaged)
}

func (m *Member) peerClient() (*http.Client, error) {
	info := transport.TLSInfo{CertFile: m.options.Cert, KeyFile: m.options.Key, TrustedCAFile: m.options.CA}
	if m.options.Cert == "" {
		info = transport.TLSInfo{}
	}
	made, err := transport.NewTransport(info, callIn)
	if err != nil {
		return nil, fmt.Errorf("asking other members: %w", err)
	}
	return &http.Client{Transport: made}, nil
}

// sumAt asks another member for its sum.
func sumAt(ctx context.Context, client *http.Client, place string, revision int64) (sum, error) {
	asked, err := json.Marshal(&pb.HashKVRequest{Revision: revision})
	if err != nil {
		return sum{}, err
	}
	request, err := http.NewRequestWithContext(ctx, http.MethodGet, place+etcdserver.PeerHashKVPath, bytes.NewReader(asked))
	if err != nil {
		return sum{}, err
	}
	answer, err := client.Do(request)
	if err != nil {
		return sum{}, err
	}
	defer answer.Body.Close()
	text, err := io.ReadAll(io.LimitReader(answer.Body, 1<<16))
	if err != nil {
		return sum{}, err
	}
	if answer.StatusCode != http.StatusOK {
		return sum{}, fmt.Errorf("%s: %s", place, text)
	}
	var told pb.HashKVResponse
	if err := json.Unmarshal(text, &told); err != nil {
		return sum{}, err
	}
	return sum{told.Hash, told.CompactRevision}, nil
}
