package order

import (
	"context"
	"fmt"
)

// etcdPlace has orders in the keys of etcd, and a journal of each in a folder of this machine.
type etcdPlace struct {
	options EtcdOptions
	folders Folders
	members func() (*nodes, error)
}

// InEtcd returns where the orders of several servers lie, in an etcd that runs elsewhere. Each order's journal is in its
// folder of this machine. The number, the maker and the journal of the options aren't used.
func InEtcd(options EtcdOptions, folders Folders) (Place, error) {
	return newEtcdPlace(options, folders, options.members)
}

// InCluster returns where the orders of several servers lie that are a cluster of etcd themselves. This server asks the
// member in its process, so the endpoints, the certificates and the login of the options aren't used either.
func InCluster(options EtcdOptions, folders Folders, embedded Embedded) (Place, error) {
	return newEtcdPlace(options, folders, func() (*nodes, error) { return embedded.members(), nil })
}

func newEtcdPlace(options EtcdOptions, folders Folders, members func() (*nodes, error)) (Place, error) {
	p := &etcdPlace{options, folders, members}
	p.options.Number = 1 // any, for the check
	if err := p.options.check(); err != nil {
		return nil, err
	}
	found, err := members()
	if err != nil {
		return nil, err
	}
	found.close()
	return p, nil
}

// Open implements Place. The journal's folder is made where it isn't there, though the order may be gone.
func (p *etcdPlace) Open(number uint64, maker Maker) (Order, error) {
	options := p.options
	options.Number, options.Maker = number, maker
	if err := options.check(); err != nil {
		return nil, err
	}
	path, err := p.folders.Order(number)
	if err != nil {
		return nil, fmt.Errorf("the folder of the journal of order %d: %w", number, err)
	}
	options.Journal = path
	all, err := p.members()
	if err != nil {
		return nil, err
	}
	opened, err := openEtcd(options, all)
	if err != nil {
		return nil, err
	}
	return opened, nil
}

// Forget implements Place. Orders are deleted in etcd, and their journals here: those of other servers are deleted by the
// next Forget there.
func (p *etcdPlace) Forget(ctx context.Context, below uint64) (deleted []uint64, err error) {
	all, err := p.members()
	if err != nil {
		return nil, err
	}
	defer all.close()
	all.log, all.left = p.options.Log, func(int32) {}
	if all.log == nil {
		all.log = func(string, ...any) {}
	}
	f := &forgetting{nodes: all, prefix: p.options.Prefix, folders: p.folders}
	if f.journals, err = p.folders.OrderFolders(); err != nil {
		return nil, fmt.Errorf("looking for journals: %w", err)
	}
	numbers, err := f.find(ctx, below)
	if err != nil {
		return nil, err
	}
	for _, number := range numbers {
		some, err := f.forget(ctx, number)
		if err != nil {
			return deleted, fmt.Errorf("forgetting order %d: %w", number, err)
		}
		if some {
			deleted = append(deleted, number)
		}
	}
	return deleted, nil
}
