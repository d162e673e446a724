package main

import (
	"context"
	"fmt"
	"time"

	"go.etcd.io/etcd/clientv3"
)

// overEtcd makes transactions of etcd, one at a time, each of which puts a key that isn't there: what an append costs at
// least.
func overEtcd(address string, number int, until time.Time, found *counted) error {
	client, err := clientv3.New(clientv3.Config{Endpoints: []string{"http://" + address}, DialTimeout: 5 * time.Second})
	if err != nil {
		return err
	}
	defer client.Close()
	value := string(make([]byte, 300)) // a batch of one call
	for turn := 0; time.Now().Before(until); turn++ {
		key := fmt.Sprintf("load/%d/%d/%d", number, until.UnixNano(), turn)
		asked := time.Now()
		put := clientv3.OpPut(key, value)
		if _, err := client.Txn(context.Background()).If(clientv3.Compare(clientv3.Version(key), "=", 0)).Then(put).Commit(); err != nil {
			return err
		}
		found.add("committed", time.Since(asked))
	}
	return nil
}
