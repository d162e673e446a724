package main

import (
	"context"
	"encoding/hex"
	"errors"
	"fmt"
	"os"
	"os/exec"
	"path/filepath"
	"strconv"
	"strings"
	"sync"
	"syscall"
	"time"

	"dsmdb/server/client"
	"dsmdb/server/layout"
	"dsmdb/server/ports"
	"github.com/spf13/cobra"
)

const (
	demoAccounts = 32
	demoClients  = 6
	demoMoney    = 1_000_00 // cents that each account begins with
	killEvery    = 4 * time.Second
	downFor      = 2 * time.Second
)

func demoCommand() *cobra.Command {
	seconds, examples := 0, ""
	command := &cobra.Command{
		Use: "demo", Short: "runs three servers and a load on a ledger, and kills one of them now and then",
		Long: `Runs three servers with a cluster of their own in a scratch folder, the ledger of examples/ on them, and clients that
transfer money between its accounts. A line a second says how many transfers were committed, and the sum of all
accounts, which no transfer changes. In a terminal the key k kills a server, which comes back, and q ends it all.
With --seconds N servers are killed by themselves, and it ends after N seconds.`,
		Args: exactly(0, "nothing else"),
		RunE: func(*cobra.Command, []string) error { return runDemo(time.Duration(seconds)*time.Second, examples) },
	}
	command.Flags().IntVar(&seconds, "seconds", 0, "for how long; 0 until q is pressed")
	command.Flags().StringVar(&examples, "examples", os.Getenv("DSMDB_EXAMPLES"), "the folder examples/ of dsmdb")
	return command
}

// demo is a demonstration that runs.
type demo struct {
	folder  string
	self    string
	servers []*demoServer
	layout  *layout.Layout

	mutex     sync.Mutex
	committed int
	fault     error
}

// demoServer is one of its servers.
type demoServer struct {
	name, data, http string
	words            []string
	mutex            sync.Mutex
	process          *exec.Cmd
}

func runDemo(lasts time.Duration, examples string) error {
	if examples == "" {
		return words("--examples DIR is missing: ./dsmdb demo knows where it is")
	}
	folder, err := os.MkdirTemp("", "dsmdb-demo-")
	if err != nil {
		return fmt.Errorf("making a scratch folder: %w", err)
	}
	defer os.RemoveAll(folder)
	d := &demo{folder: folder}
	defer d.end()
	if err := d.start(filepath.Join(examples, "ledger")); err != nil {
		return err
	}
	keys, restore := readKeys(lasts == 0)
	defer restore()
	ctx, stop := context.WithCancel(context.Background())
	defer stop()
	if lasts > 0 {
		ctx, stop = context.WithTimeout(ctx, lasts)
		defer stop()
	}
	return d.show(ctx, lasts > 0, keys)
}

// start starts the servers, and opens the accounts.
func (d *demo) start(example string) error {
	var err error
	if d.self, err = os.Executable(); err != nil {
		return fmt.Errorf("finding this program: %w", err)
	}
	if d.layout, err = layout.Load(filepath.Join(example, "layout.json")); err != nil {
		return err
	}
	var members, folders []string
	for _, name := range []string{"one", "two", "three"} {
		peer, err := ports.Free()
		if err != nil {
			return err
		}
		web, err := ports.Free()
		if err != nil {
			return err
		}
		data := filepath.Join(d.folder, name)
		members, folders = append(members, fmt.Sprintf("%s=http://127.0.0.1:%d", name, peer)), append(folders, data)
		http := fmt.Sprintf("127.0.0.1:%d", web)
		d.servers = append(d.servers, &demoServer{name: name, data: data, http: http, words: []string{
			"serve", filepath.Join(example, "settings"), "--data", data, "--layout", filepath.Join(example, "layout.json"),
			"--http", http, "--open",
		}})
	}
	begin := &clusterOptions{members: strings.Join(members, ",")}
	if err := begin.begin(folders); err != nil {
		return err
	}
	for _, it := range d.servers {
		if err := it.start(d.self, filepath.Join(d.folder, it.name+".log")); err != nil {
			return err
		}
	}
	for _, it := range d.servers {
		fmt.Printf("console of server %s: http://%s/\n", it.name, it.http)
	}
	return d.openAccounts()
}

func (s *demoServer) start(program, log string) error {
	s.mutex.Lock()
	defer s.mutex.Unlock()
	to, err := os.OpenFile(log, os.O_CREATE|os.O_APPEND|os.O_WRONLY, 0o600)
	if err != nil {
		return fmt.Errorf("starting server %s: %w", s.name, err)
	}
	defer to.Close()
	s.process = exec.Command(program, s.words...)
	s.process.Stderr = to
	s.process.SysProcAttr = &syscall.SysProcAttr{Pdeathsig: syscall.SIGKILL, Setpgid: true}
	if err := s.process.Start(); err != nil {
		return fmt.Errorf("starting server %s: %w", s.name, err)
	}
	return nil
}

func (s *demoServer) kill() {
	s.mutex.Lock()
	defer s.mutex.Unlock()
	if s.process != nil && s.process.Process != nil {
		s.process.Process.Kill()
		s.process.Wait()
		s.process = nil
	}
}

func (d *demo) end() {
	for _, it := range d.servers {
		it.kill()
	}
}

// client opens a client whose first server is one of the three.
func (d *demo) client(first int) (*client.Client, error) {
	var places []string
	for at := range d.servers {
		places = append(places, filepath.Join(d.servers[(first+at)%len(d.servers)].data, "socket"))
	}
	return client.Open(client.Options{Servers: places, Within: 5 * time.Second})
}

func (d *demo) call(ctx context.Context, c *client.Client, name string, values ...any) (client.Answer, error) {
	given := map[string]string{}
	for at := 0; at < len(values); at += 2 {
		given[values[at].(string)] = fmt.Sprint(values[at+1])
	}
	args, err := d.layout.Procedure(name).Pack(given)
	if err != nil {
		return client.Answer{}, err
	}
	if _, is := c.Unsettled(); is {
		if answer, err := c.Settle(ctx); err != nil {
			return answer, err
		}
	}
	return c.Call(ctx, name, args, client.When{})
}

func (d *demo) openAccounts() error {
	ctx, cancel := context.WithTimeout(context.Background(), time.Minute)
	defer cancel()
	c, err := d.client(0)
	if err != nil {
		return err
	}
	defer c.Close()
	for account := 1; account <= demoAccounts; account++ {
		if _, err := d.call(ctx, c, "open", "account", account); err != nil {
			return fmt.Errorf("opening account %d: %w", account, err)
		}
		if _, err := d.call(ctx, c, "deposit", "account", account, "amount", demoMoney, "day", 1); err != nil {
			return fmt.Errorf("filling account %d: %w", account, err)
		}
	}
	fmt.Printf("%d accounts of %s each, which makes %s\n", demoAccounts, money(demoMoney), money(demoAccounts*demoMoney))
	return nil
}

func money(cents int64) string { return fmt.Sprintf("%d.%02d", cents/100, cents%100) }

// work transfers money until the context ends.
func (d *demo) work(ctx context.Context, number int) {
	c, err := d.client(number)
	if err != nil {
		d.fail(err)
		return
	}
	defer c.Close()
	for turn := number; ctx.Err() == nil; turn++ {
		from, to := turn*7%demoAccounts+1, turn*5%demoAccounts+1
		answer, err := d.call(ctx, c, "transfer", "from", from, "to", to, "amount", turn%100+1, "day", 1)
		if err == nil && answer.Word == "committed" {
			d.mutex.Lock()
			d.committed++
			d.mutex.Unlock()
		}
	}
}

func (d *demo) fail(err error) {
	d.mutex.Lock()
	defer d.mutex.Unlock()
	d.fault = err
}

// show prints a line a second until the context ends.
func (d *demo) show(ctx context.Context, kills bool, keys <-chan byte) error {
	var working sync.WaitGroup
	for number := 0; number < demoClients; number++ {
		working.Add(1)
		go func(number int) {
			defer working.Done()
			d.work(ctx, number)
		}(number)
	}
	ticks, next, before, begun := time.NewTicker(time.Second), time.Now().Add(killEvery), 0, time.Now()
	defer ticks.Stop()
	victim := -1
	for {
		select {
		case <-ctx.Done():
			working.Wait()
			return d.sumUp()
		case key := <-keys:
			switch key {
			case 'k':
				victim = d.killOne(victim)
			case 'q', 3:
				return d.sumUp()
			}
		case <-ticks.C:
			if kills && time.Now().After(next) {
				next = time.Now().Add(killEvery)
				victim = d.killOne(victim)
			}
			d.mutex.Lock()
			count, fault := d.committed, d.fault
			d.mutex.Unlock()
			if fault != nil {
				return fault
			}
			fmt.Printf("%3d s: %5d transfers committed, %6d in all; %s\n", int(time.Since(begun).Seconds()), count-before, count, d.sumText(ctx))
			before = count
		}
	}
}

// killOne kills the next server, which is started again after a while.
func (d *demo) killOne(before int) int {
	victim := (before + 1) % len(d.servers)
	it := d.servers[victim]
	it.kill()
	fmt.Printf("       server %s is killed\n", it.name)
	time.AfterFunc(downFor, func() {
		if _, err := os.Stat(d.folder); err == nil {
			if err := it.start(d.self, filepath.Join(d.folder, it.name+".log")); err != nil {
				d.fail(err)
			}
		}
	})
	return victim
}

func (d *demo) sumText(ctx context.Context) string {
	limited, cancel := context.WithTimeout(ctx, 900*time.Millisecond)
	defer cancel()
	sum, place, err := d.sum(limited)
	if err != nil {
		return "no server answers for the sum now"
	}
	return fmt.Sprintf("sum of all accounts %s at server %s", money(sum), place)
}

// sum adds up all accounts at the first server that answers, on rows of one position.
func (d *demo) sum(ctx context.Context) (int64, string, error) {
	var last error = errors.New("no server")
	table := d.layout.Table(1)
	for _, it := range d.servers {
		reached, err := (&client.Dialer{}).Dial(ctx, filepath.Join(it.data, "socket"))
		if err != nil {
			last = err
			continue
		}
		sum := int64(0)
		take := func(row string) error {
			fields := strings.Fields(row)
			if len(fields) != 3 || fields[0] != "1" {
				return nil
			}
			value, err := hex.DecodeString(fields[2])
			if err != nil {
				return err
			}
			balance, err := strconv.ParseInt(table.Values(value)[0].Text, 10, 64)
			sum += balance
			return err
		}
		line, err := reached.Lines(ctx, "scan 1 0 18446744073709551615 1000", take)
		reached.Close()
		if err == nil && strings.HasPrefix(line, "position ") {
			return sum, it.name, nil
		}
		last = err
	}
	return 0, "", last
}

// sumUp says what it came to, once all servers that were killed are back.
func (d *demo) sumUp() error {
	ctx, cancel := context.WithTimeout(context.Background(), 30*time.Second)
	defer cancel()
	sum, place, err := d.sum(ctx)
	if err != nil {
		return fmt.Errorf("adding up the accounts: %w", err)
	}
	fmt.Printf("%d transfers were committed; the sum of all accounts is %s at server %s\n", d.committed, money(sum), place)
	if sum != demoAccounts*demoMoney {
		return fmt.Errorf("it was %s", money(demoAccounts*demoMoney))
	}
	return nil
}
