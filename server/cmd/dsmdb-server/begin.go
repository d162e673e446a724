package main

import (
	"context"
	"crypto/rand"
	"fmt"
	"path/filepath"
	"strings"
	"time"

	"dsmdb/server/cluster"
	"dsmdb/server/data"
	"github.com/spf13/cobra"
)

// clusterOptions are the words of `begin` and `join`.
type clusterOptions struct {
	members, name, peer string
	data                string
	secret              string
	peers               peerOptions
	insecure            bool
}

func clusterCommands(o *clientOptions) []*cobra.Command {
	c := &clusterOptions{}
	begin := &cobra.Command{
		Use: "begin DIR .. --cluster NAME=PEER-URL,..", Short: "prepares folders for the servers of a new cluster",
		Long: `Prepares folders for the servers of a new cluster, each of which runs a member of etcd. A folder's last name is its
member's; --name says another for a single folder. Folders that are prepared together get one secret. One that is
prepared on its own machine gets --secret FILE, the same at all.`,
		Example: "  dsmdb begin a b c --cluster a=http://127.0.0.1:7001,b=http://127.0.0.1:7002,c=http://127.0.0.1:7003",
		Args: func(_ *cobra.Command, given []string) error {
			if len(given) == 0 {
				return words("`dsmdb begin` takes a folder for each server: `dsmdb begin --help`")
			}
			return nil
		},
		RunE: func(_ *cobra.Command, given []string) error { return c.begin(given) },
	}
	begin.Flags().StringVar(&c.members, "cluster", "", "all members: NAME=PEER-URL,..")
	join := &cobra.Command{
		Use: "join SERVER --data DIR --name NAME --peer URL", Short: "prepares a folder for a member that takes a lost one's place, or comes new",
		Long: `Asks a running server to take a new member into its cluster, in the place of the lost member of that name, and prepares
a folder for its server. The new member learns what the others have before it votes.`,
		Args: exactly(1, "SERVER"),
		RunE: func(_ *cobra.Command, given []string) error { return c.join(o, given[0]) },
	}
	join.Flags().StringVar(&c.data, "data", "", "the new server's own folder")
	join.Flags().StringVar(&c.peer, "peer", "", "where the new member is reached by the others: https://HOST:PORT")
	for _, command := range []*cobra.Command{begin, join} {
		flags := command.Flags()
		flags.StringVar(&c.name, "name", "", "the member's name")
		flags.StringVar(&c.secret, "secret", "", "a file of 32 bytes that signs what servers append, copied into the folder")
		flags.BoolVar(&c.insecure, "insecure", false, "let members speak without TLS on addresses that aren't loopback")
		c.peers.add(flags)
	}
	return []*cobra.Command{begin, join}
}

func (c *clusterOptions) begin(folders []string) error {
	if c.members == "" {
		return words("--cluster NAME=PEER-URL,.. is missing")
	}
	if c.name != "" && len(folders) > 1 {
		return words("--name is for a single folder")
	}
	secret, err := c.secretFor(len(folders) > 1)
	if err != nil {
		return err
	}
	for _, folder := range folders {
		name := c.name
		if name == "" {
			name = filepath.Base(filepath.Clean(folder))
		}
		err := c.prepare(folder, secret, func(options cluster.Options) error {
			options.Name, options.Members = name, c.members
			return cluster.Begin(options)
		})
		if err != nil {
			return err
		}
		fmt.Printf("%s is prepared for member %s\n", folder, name)
	}
	return nil
}

// secretFor returns the secret that the folders get: the one of a file, or one that is drawn; nil for none.
func (c *clusterOptions) secretFor(draws bool) ([]byte, error) {
	if c.secret != "" {
		secret, err := secretOf(c.secret)
		if err != nil {
			return nil, err
		}
		return secret[:], nil
	}
	if !draws {
		return nil, nil
	}
	drawn := make([]byte, 32)
	if _, err := rand.Read(drawn); err != nil {
		return nil, fmt.Errorf("drawing a secret: %w", err)
	}
	return drawn, nil
}

// prepare makes a data folder, with its secret, and has it marked.
func (c *clusterOptions) prepare(path string, secret []byte, mark func(cluster.Options) error) error {
	folder, err := data.Open(path)
	if err != nil {
		return err
	}
	defer folder.Close()
	options := cluster.Options{Folder: path, Cert: c.peers.cert, Key: c.peers.key, CA: c.peers.ca, Insecure: c.insecure}
	if err := mark(options); err != nil {
		return err
	}
	if secret == nil {
		return nil
	}
	if err := data.Write(filepath.Join(path, secretName), secret); err != nil {
		return fmt.Errorf("keeping the secret: %w", err)
	}
	return nil
}

func (c *clusterOptions) join(o *clientOptions, server string) error {
	if c.data == "" || c.name == "" || c.peer == "" {
		return words("`dsmdb join` takes --data DIR, --name NAME and --peer URL")
	}
	secret, err := c.secretFor(false)
	if err != nil {
		return err
	}
	dialer, err := o.dialer()
	if err != nil {
		return err
	}
	ctx, cancel := context.WithTimeout(context.Background(), time.Minute)
	defer cancel()
	reached, err := dialer.Dial(ctx, server)
	if err != nil {
		return &status{statusNotSent, err}
	}
	defer reached.Close()
	answer, err := reached.Ask(ctx, "join "+c.name+" "+c.peer)
	if err != nil {
		return err
	}
	members := strings.TrimPrefix(answer, "invited ")
	if members == answer {
		return fmt.Errorf("%s: %s", server, answer)
	}
	err = c.prepare(c.data, secret, func(options cluster.Options) error {
		options.Name = c.name
		return cluster.Accept(options, cluster.Invitation{Name: c.name, Members: members})
	})
	if err != nil {
		return err
	}
	fmt.Printf("%s is prepared for member %s of %s\n", c.data, c.name, members)
	return nil
}
