package main

import (
	"bytes"
	"context"
	"crypto/sha256"
	"encoding/hex"
	"fmt"
	"os"
	"path/filepath"
	"strings"
	"time"

	"dsmdb/server/client"
	"dsmdb/server/data"
	"dsmdb/server/ends"
	"dsmdb/server/wire"
	"github.com/spf13/cobra"
)

// rollOptions are the words of `roll`.
type rollOptions struct {
	window uint32
	tables []string
	idle   bool
	about  string
}

func (o *clientOptions) rollCommand() *cobra.Command {
	r := &rollOptions{}
	command := &cobra.Command{
		Use: "roll", Short: "ends the order, and has the database go on in another one",
		Long: `Ends the order that the servers share. The database goes on in the next one with the same rows, procedures and sessions,
and with the changes that are given. Prints which order goes on, and whether by this end (own) or another one (other): of
two the first counts.`,
		Example: "  dsmdb roll --at db --window 1024 --table 3:16",
		Args:    exactly(0, "nothing else"),
		RunE:    func(*cobra.Command, []string) error { return o.roll(r) },
	}
	flags := command.Flags()
	flags.Uint32Var(&r.window, "window", 0, "the window from now on, 1 to 4096")
	flags.StringArrayVar(&r.tables, "table", nil, "a table more: NUMBER:WIDTH; may be given again")
	flags.BoolVar(&r.idle, "idle", false, "close the sessions that did nothing in this order, which has to be as old as the server's --keep")
	flags.StringVar(&r.about, "about", "", "a remark that stands at the order's end")
	return command
}

// end returns how an order is to end.
func (r *rollOptions) end() (ends.End, error) {
	end := ends.End{Window: r.window, Idle: r.idle}
	for _, it := range r.tables {
		if !end.Read("table " + strings.Replace(it, ":", " ", 1)) {
			return end, words("--table %s: NUMBER:WIDTH, the number 1 to 64 and the width 1 to 128 bytes, each table once", it)
		}
	}
	if r.about != "" {
		end.About = []string{hex.EncodeToString([]byte(r.about))}
	}
	if _, is := ends.Of(end.Bytes(), nil); !is {
		return end, words("a window is 1 to 4096, and a remark has at most some 34,000 bytes")
	}
	return end, nil
}

// rollCures says what to do against a refusal.
var rollCures = map[string]string{
	"form":  "the settings have no `origin`, so the order can't end: docs/SITES.md says how such a database goes on",
	"keep":  "the order isn't as old as the server's --keep asks for before idle sessions are closed: leave --idle out",
	"S3":    "the table is there already",
	"order": "the server hasn't come to that order: ask it again",
	"role":  "who asks hasn't the right `roll`",
}

func (o *clientOptions) roll(r *rollOptions) error {
	end, err := r.end()
	if err != nil {
		return err
	}
	return o.with(func(ctx context.Context, c *client.Client) error {
		answer, err := rollPresent(ctx, c, end)
		if err != nil {
			return failed(err)
		}
		return o.told(answer, "rolled", rollCures)
	})
}

// rollPresent ends the present order, as the server says that is asked first. Another server may not have come there yet.
func rollPresent(ctx context.Context, c *client.Client, end ends.End) (string, error) {
	_, number, err := helloOf(ctx, c)
	for err == nil {
		var answer string
		answer, err = c.Ask(ctx, (&wire.Roll{Order: number, End: end}).String())
		if answer != "refused order" || err != nil || ctx.Err() != nil {
			return answer, err
		}
		time.Sleep(100 * time.Millisecond)
	}
	return "", err
}

// helloOf asks for the identity of a server's database, and for the number of its order.
func helloOf(ctx context.Context, c *client.Client) (database string, number uint64, err error) {
	line, err := c.Ask(ctx, "hello")
	if err != nil {
		return "", 0, err
	}
	if _, err := fmt.Sscanf(line, "hello %s %d", &database, &number); err != nil {
		return "", 0, fmt.Errorf("the server says %q: it is no server of dsmdb, or of another version", line)
	}
	return database, number, nil
}

// told prints an answer, and says what to do where it isn't of the word that is wanted.
func (o *clientOptions) told(answer, want string, cures map[string]string) error {
	if _, err := fmt.Println(answer); err != nil {
		return err
	}
	word, why, _ := strings.Cut(answer, " ")
	if word == want {
		return nil
	}
	known := ended(client.Answer{Word: word, Why: why})
	if cure := cures[why]; cure != "" {
		fmt.Fprintln(os.Stderr, "dsmdb:", cure)
	}
	return known
}

func (o *clientOptions) forgetCommand() *cobra.Command {
	return &cobra.Command{
		Use: "forget ORDER", Short: "deletes the orders below one",
		Long: `Deletes all orders below one, in the server's folder or in etcd, where the server has that order's settings. Prints which
it deleted. A server that is behind then asks for 'dsmdb fetch'.`,
		Example: "  dsmdb forget 3 --at db",
		Args:    exactly(1, "ORDER"),
		RunE: func(_ *cobra.Command, given []string) error {
			line := "forget " + given[0]
			if _, err := wire.Read(line); err != nil {
				return words("%s: the number of an order, from 1 on", given[0])
			}
			return o.with(func(ctx context.Context, c *client.Client) error {
				answer, err := c.Ask(ctx, line)
				if err != nil {
					return failed(err)
				}
				return o.told(answer, "forgot", nil)
			})
		},
	}
}

func (o *clientOptions) dumpCommand() *cobra.Command {
	to := ""
	command := &cobra.Command{
		Use: "dump", Short: "prints the settings of a database that goes on from where a server is",
		Long: `Prints settings that begin with the rows, procedures and sessions that the server has now: a backup, and what another
database can begin with. Says on standard error at which position that is.`,
		Example: "  dsmdb dump --at db --to monday.settings",
		Args:    exactly(0, "nothing else"),
		RunE:    func(*cobra.Command, []string) error { return o.dump(to) },
	}
	command.Flags().StringVar(&to, "to", "", "a file that is written, whole or not at all; else standard output")
	return command
}

func (o *clientOptions) dump(to string) error {
	return o.with(func(ctx context.Context, c *client.Client) error {
		database, _, err := helloOf(ctx, c)
		if err != nil {
			return failed(err)
		}
		out, err := newDumpOutput(to)
		if err != nil {
			return err
		}
		defer out.abandon()
		if err := out.line("# database " + database); err != nil {
			return err
		}
		last, err := c.LinesUntil(ctx, "dump", "position", out.line)
		if err != nil {
			return failed(err)
		}
		word, why, _ := strings.Cut(last, " ")
		if word != "position" {
			fmt.Fprintln(os.Stderr, "dsmdb:", last)
			return ended(client.Answer{Word: word, Why: why})
		}
		if err := out.keep(); err != nil {
			return err
		}
		fmt.Fprintln(os.Stderr, "dsmdb:", last)
		return nil
	})
}

// dumpOutput is where a dump goes: standard output, or a file that is renamed once the dump is whole.
type dumpOutput struct {
	*output
	file *os.File // nil for standard output
	path string
}

func newDumpOutput(path string) (*dumpOutput, error) {
	if path == "" {
		return &dumpOutput{output: newOutput()}, nil
	}
	made, err := os.OpenFile(path+".new", os.O_WRONLY|os.O_CREATE|os.O_TRUNC, 0o600)
	if err != nil {
		return nil, fmt.Errorf("making the dump's file: %w", err)
	}
	return &dumpOutput{output: outputTo(made), file: made, path: path}, nil
}

// keep writes what is left, and gives the file its name.
func (d *dumpOutput) keep() error {
	if err := d.flush(); err != nil || d.file == nil {
		return err
	}
	if err := d.file.Sync(); err != nil {
		return fmt.Errorf("forcing the dump to the disk: %w", err)
	}
	if err := os.Rename(d.path+".new", d.path); err != nil {
		return fmt.Errorf("naming the dump's file: %w", err)
	}
	return data.Force(filepath.Dir(d.path))
}

// abandon removes a file that wasn't kept.
func (d *dumpOutput) abandon() {
	if d.file != nil {
		d.file.Close()
		os.Remove(d.path + ".new")
	}
}

func (o *clientOptions) fetchCommand() *cobra.Command {
	folder := ""
	command := &cobra.Command{
		Use: "fetch --data DIR", Short: "gets the settings of the present order for a server that lacks them",
		Long: `Gets the settings of the order at which another server is, for a server whose own orders were deleted, or that is new
and needn't read them all. DIR is that server's folder; the server doesn't run meanwhile. Whether the settings are right is
seen when it starts: other servers' votes have to agree.`,
		Example: "  dsmdb fetch --at tls://one.example:7000 --data db",
		Args:    exactly(0, "nothing else"),
		RunE: func(*cobra.Command, []string) error {
			if folder == "" {
				return words("--data DIR is missing: the folder of the server that lacks settings")
			}
			return o.fetch(folder)
		},
	}
	command.Flags().StringVar(&folder, "data", "", "the folder of the server that lacks settings")
	return command
}

func (o *clientOptions) fetch(path string) error {
	return o.with(func(ctx context.Context, c *client.Client) error {
		number, text, err := settingsOf(ctx, c)
		if err != nil {
			return err
		}
		if number == 1 {
			return fmt.Errorf("the other server is at order 1, whose settings are its own file: serve a copy of that")
		}
		folder, err := data.Open(path)
		if err != nil {
			return err
		}
		defer folder.Close()
		if err := checkFetched(folder, number, text); err != nil {
			return fmt.Errorf("%s: %w", path, err)
		}
		if err := folder.SaveFetched(number, text); err != nil {
			return fmt.Errorf("keeping the settings: %w", err)
		}
		_, err = fmt.Printf("%s has the settings of order %d\n", path, number)
		return err
	})
}

// checkFetched returns why settings that were fetched aren't for a folder: it is of another database, or further.
func checkFetched(folder *data.Folder, number uint64, text []byte) error {
	kept, err := folder.KeptSettings()
	if err != nil {
		return err
	}
	for _, other := range kept {
		head, err := folder.SettingsHead(other)
		if err != nil {
			return err
		}
		if own, found := ends.Read(head).Of, ends.Read(text).Of; own != found {
			return fmt.Errorf("it is of database %x, and the other server of database %x", own, found)
		}
		if other > number {
			return fmt.Errorf("it has the settings of order %d, and the other server is at order %d: ask one that is further", other, number)
		}
	}
	return nil
}

// settingsOf asks for the settings of a server's order, and checks that they came whole.
func settingsOf(ctx context.Context, c *client.Client) (number uint64, text []byte, err error) {
	var whole bytes.Buffer
	last, err := c.LinesUntil(ctx, "settings", "settings", func(line string) error {
		whole.WriteString(line)
		return whole.WriteByte('\n')
	})
	if err != nil {
		return 0, nil, failed(err)
	}
	var size int
	var sum string
	if _, err := fmt.Sscanf(last, "settings %d %d %s", &number, &size, &sum); err != nil {
		word, why, _ := strings.Cut(last, " ")
		fmt.Fprintln(os.Stderr, "dsmdb:", last)
		return 0, nil, ended(client.Answer{Word: word, Why: why})
	}
	text = whole.Bytes()
	if size == len(text)-1 { // their last line has no LF
		text = text[:size]
	}
	if found := sha256.Sum256(text); size != len(text) || hex.EncodeToString(found[:]) != sum {
		return 0, nil, fmt.Errorf("the settings came otherwise than they were sent")
	}
	return number, text, nil
}
