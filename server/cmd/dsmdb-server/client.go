package main

import (
	"context"
	"crypto/tls"
	"encoding/hex"
	"errors"
	"fmt"
	"os"
	"strconv"
	"strings"
	"time"

	"dsmdb/server/client"
	"dsmdb/server/layout"
	"dsmdb/server/wire"
	"github.com/spf13/cobra"
)

// clientOptions are the words that all commands of clients have.
type clientOptions struct {
	at            []string
	file          string
	ca, cert, key string
	token         string
	patience      time.Duration
	within        time.Duration
	after         uint64
	fresh, asHex  bool
	table         uint8
	from, to      uint64
	limit         uint32
}

func (o *clientOptions) commands() []*cobra.Command {
	all := []*cobra.Command{
		o.callCommand(), o.addCommand(), o.rowsCommand(), o.sessionCommand(), o.statusCommand(), o.dumpCommand(), o.rollCommand(),
		o.fetchCommand(), o.forgetCommand(),
	}
	for _, command := range all {
		flags := command.Flags()
		flags.StringArrayVar(&o.at, "at", nil, "a server: its data folder, a Unix socket's path, tcp://HOST:PORT or tls://HOST:PORT; may be given again")
		flags.StringVar(&o.ca, "ca", "", "a PEM file of who signs servers' certificates")
		flags.StringVar(&o.cert, "cert", "", "this client's certificate, a PEM file")
		flags.StringVar(&o.key, "key", "", "its key")
		flags.StringVar(&o.token, "token", "", "a file with this client's token")
		flags.DurationVar(&o.patience, "patience", time.Minute, "for how long servers are asked")
	}
	return all
}

func (o *clientOptions) callCommand() *cobra.Command {
	command := &cobra.Command{
		Use: "call PROCEDURE FIELD=VALUE ..", Short: "calls a procedure, which is done once, whatever ends meanwhile",
		Long: `Calls a procedure. Its arguments are given by name where the server has a layout, else as hex digits, - for none.

Exit status: 0 committed or read; 1 cancelled; 2 words or arguments at fault; 3 no server was asked; 4 settled, and not
done, or the session was lost, which is said: then it may have been done before; 5 it may have been done, or may still be:
the same command with the same --file asks on.`,
		Example: "  dsmdb call --at db --file me pay account=7 amount=100",
		Args: func(_ *cobra.Command, given []string) error {
			if len(given) == 0 {
				return words("`dsmdb call` takes a procedure and its arguments: `dsmdb call --help`")
			}
			return nil
		},
		RunE: func(_ *cobra.Command, given []string) error { return o.call(given[0], given[1:]) },
	}
	flags := command.Flags()
	flags.StringVar(&o.file, "file", "", "a file that keeps the session and a call that isn't answered")
	flags.DurationVar(&o.within, "within", 10*time.Second, "for how long one server tries it")
	flags.Uint64Var(&o.after, "after", 0, "on rows that are at least those after this position")
	flags.BoolVar(&o.fresh, "fresh", false, "on rows of the order's end as it is now")
	return command
}

func (o *clientOptions) addCommand() *cobra.Command {
	return &cobra.Command{
		Use: "add NAME NUMBER ARGSLEN HEX", Short: "adds a procedure at all servers", Args: exactly(4, "NAME NUMBER ARGSLEN HEX"),
		RunE: func(_ *cobra.Command, given []string) error { return o.once("add " + strings.Join(given, " ")) },
	}
}

func (o *clientOptions) statusCommand() *cobra.Command {
	return &cobra.Command{
		Use: "status", Short: "prints what a server says of itself", Args: exactly(0, "nothing else"),
		RunE: func(*cobra.Command, []string) error { return o.once("status") },
	}
}

func (o *clientOptions) sessionCommand() *cobra.Command {
	command := &cobra.Command{
		Use: "session", Short: "prints the session of a client's file, and begins one where there is none", Args: exactly(0, "nothing else"),
		RunE: func(*cobra.Command, []string) error { return o.session() },
	}
	command.Flags().StringVar(&o.file, "file", "", "the client's file")
	return command
}

func (o *clientOptions) rowsCommand() *cobra.Command {
	command := &cobra.Command{
		Use: "rows", Short: "prints rows, by field where the server has a layout", Args: exactly(0, "nothing else"),
		RunE: func(command *cobra.Command, _ []string) error {
			if command.Flags().Changed("table") {
				return o.rows(&wire.Scan{Table: o.table, First: o.from, Last: o.to, Most: o.limit})
			}
			return o.rows(wire.Rows{})
		},
	}
	flags := command.Flags()
	flags.Uint8Var(&o.table, "table", 0, "of this table alone")
	flags.Uint64Var(&o.from, "from", 0, "with --table: from this key on")
	flags.Uint64Var(&o.to, "to", 1<<64-1, "with --table: up to this key")
	flags.Uint32Var(&o.limit, "limit", 1000, "with --table: at most this many rows")
	flags.BoolVar(&o.asHex, "hex", false, "as hex digits in any case")
	return command
}

// context is over when the patience is.
func (o *clientOptions) context() (context.Context, context.CancelFunc) {
	return context.WithTimeout(context.Background(), o.patience)
}

// open opens a client.
func (o *clientOptions) open() (*client.Client, error) {
	if len(o.at) == 0 {
		return nil, words("--at is missing: a server's data folder, or where it listens")
	}
	if o.patience <= 0 {
		return nil, words("--patience is above zero")
	}
	options := client.Options{Within: o.within}
	for _, place := range o.at {
		options.Servers = append(options.Servers, place)
	}
	var err error
	if options.Dialer, err = o.dialer(); err != nil {
		return nil, err
	}
	if o.file != "" {
		if options.Store, err = client.OpenFile(o.file); err != nil {
			return nil, err
		}
	}
	return client.Open(options)
}

// with opens a client for what is asked once.
func (o *clientOptions) with(do func(ctx context.Context, c *client.Client) error) error {
	c, err := o.open()
	if err != nil {
		return failed(err)
	}
	defer c.Close()
	ctx, cancel := o.context()
	defer cancel()
	return do(ctx, c)
}

func (o *clientOptions) dialer() (client.Dialer, error) {
	found := client.Dialer{TLS: &tls.Config{}}
	if o.token != "" {
		text, err := os.ReadFile(o.token)
		if err != nil {
			return found, fmt.Errorf("reading the token: %w", err)
		}
		found.Token = strings.TrimSpace(string(text))
	}
	if o.ca != "" {
		pool, err := poolOf(o.ca)
		if err != nil {
			return found, err
		}
		found.TLS.RootCAs = pool
	}
	if o.cert != "" {
		pair, err := tls.LoadX509KeyPair(o.cert, o.key)
		if err != nil {
			return found, fmt.Errorf("reading the certificate: %w", err)
		}
		found.TLS.Certificates = []tls.Certificate{pair}
	}
	return found, nil
}

// layoutOf asks for the server's layout; nil where it has none.
func layoutOf(ctx context.Context, c *client.Client) (*layout.Layout, error) {
	line, err := c.Ask(ctx, "layout")
	if err != nil {
		return nil, err
	}
	return layout.FromString(strings.TrimPrefix(line, "layout "))
}

func (o *clientOptions) call(name string, given []string) error {
	c, err := o.open()
	if err != nil {
		return failed(err)
	}
	defer c.Abandon()
	ctx, cancel := o.context()
	defer cancel()
	known := &lateLayout{ctx: ctx, client: c}
	args, err := argumentsOf(known, name, given)
	if err != nil {
		return failed(err)
	}
	asksOn := c.IsUnsettled(name, args) // the same command goes on with its call
	if line, is := c.Unsettled(); is && !asksOn {
		if err := settleEarlier(ctx, c, line, known); err != nil {
			return err
		}
	}
	var answer client.Answer
	if asksOn {
		answer, err = c.Settle(ctx)
	} else {
		answer, err = c.Call(ctx, name, args, client.When{After: o.after, Fresh: o.fresh})
	}
	return handOn(c, known, answer, err)
}

// handOn prints what a call was answered, and has the client's file forget the call, where it is settled.
func handOn(c *client.Client, known *lateLayout, answer client.Answer, err error) error {
	if answer.Line != "" {
		if _, fault := fmt.Println(known.said(answer)); fault != nil {
			return unsaid(c, fault)
		}
	}
	isLost := errors.Is(err, client.ErrSessionLost)
	if err != nil && !isLost {
		return failed(err)
	}
	if err := c.Close(); err != nil {
		return &status{statusAskAgain, err}
	}
	if isLost {
		return &status{statusNotDone, err}
	}
	return ended(answer)
}

// settleEarlier settles a call that the client's file has, and says what became of it.
func settleEarlier(ctx context.Context, c *client.Client, line string, known *lateLayout) error {
	answer, err := c.Settle(ctx)
	isLost := errors.Is(err, client.ErrSessionLost)
	if err != nil && !isLost {
		return failed(fmt.Errorf("earlier %s: %w", line, err))
	}
	if _, err := fmt.Printf("earlier %s: %s\n", line, known.said(answer)); err != nil {
		return unsaid(c, err)
	}
	if isLost {
		fmt.Fprintln(os.Stderr, "dsmdb: earlier call:", err)
	}
	return nil
}

// unsaid ends a command whose answer couldn't be handed on: the client's file keeps the call.
func unsaid(c *client.Client, err error) error {
	c.Abandon()
	return &status{statusAskAgain, fmt.Errorf("printing the answer: %w", err)}
}

// lateLayout is the server's layout, which is asked for once it is needed.
type lateLayout struct {
	ctx    context.Context
	client *client.Client
	asked  bool
	found  *layout.Layout
}

func (l *lateLayout) get() (*layout.Layout, error) {
	if l.asked {
		return l.found, nil
	}
	found, err := layoutOf(l.ctx, l.client)
	if err == nil {
		l.asked, l.found = true, found
	}
	return found, err
}

// said returns an answer as people read it: codes by name.
func (l *lateLayout) said(answer client.Answer) string {
	if answer.Word == "cancelled" {
		if found, err := l.get(); err == nil {
			return fmt.Sprintf("cancelled %d code %s", answer.At, found.Code(answer.Value))
		}
	}
	return answer.Line
}

// argumentsOf returns the bytes of arguments that are given by name, or as hex digits.
func argumentsOf(known *lateLayout, name string, given []string) ([]byte, error) {
	if len(given) == 1 && !strings.Contains(given[0], "=") {
		if given[0] == "-" {
			return nil, nil
		}
		args, err := hex.DecodeString(given[0])
		if err != nil {
			return nil, words("%s: hex digits, or FIELD=VALUE", given[0])
		}
		return args, nil
	}
	found, err := known.get()
	if err != nil {
		return nil, err
	}
	fields := found.Procedure(name)
	if fields == nil {
		if len(given) == 0 {
			return nil, nil
		}
		return nil, words("the server has no layout of %s: give its arguments as hex digits", name)
	}
	values := map[string]string{}
	for _, word := range given {
		field, value, is := strings.Cut(word, "=")
		if _, twice := values[field]; !is || twice {
			return nil, words("%s: FIELD=VALUE, each field once", word)
		}
		values[field] = value
	}
	args, err := fields.Pack(values)
	if err != nil {
		return nil, &status{statusWords, err}
	}
	return args, nil
}

// ended returns the exit status of an answer.
func ended(answer client.Answer) error {
	code := statusNotDone
	switch answer.Word {
	case "committed", "read", "added", "session", "position", "status", "hello":
		return nil
	case "cancelled":
		code = statusCancelled
	case "fault":
		code = statusWords
	case "unknown", "full", "late":
		code = statusAskAgain
	case "refused":
		switch answer.Why {
		case "P9":
			code = statusAskAgain
		case "role", "rate", "token":
			return &status{statusNotSent, fmt.Errorf("the server refuses it: %s", answer.Why)}
		}
	}
	return &status{code, nil}
}

// failed returns the exit status of an error.
func failed(err error) error {
	var known *status
	switch {
	case errors.As(err, &known):
		return err
	case errors.Is(err, client.ErrUnsettled):
		return &status{statusAskAgain, err}
	case errors.Is(err, client.ErrNoName):
		return &status{statusWords, err}
	}
	return &status{statusNotSent, err}
}

func (o *clientOptions) once(line string) error {
	if _, err := wire.Read(line); err != nil {
		return words("%s: %v", line, err)
	}
	return o.with(func(ctx context.Context, c *client.Client) error {
		answer, err := c.Ask(ctx, line)
		if err != nil {
			return failed(err)
		}
		if _, err := fmt.Println(answer); err != nil {
			return err
		}
		word, why, _ := strings.Cut(answer, " ")
		return ended(client.Answer{Word: word, Why: why})
	})
}

func (o *clientOptions) session() error {
	if o.file == "" {
		return words("--file is missing: what keeps the session")
	}
	return o.with(func(ctx context.Context, c *client.Client) error {
		session, err := c.Session(ctx)
		if err != nil {
			return failed(err)
		}
		_, err = fmt.Printf("session %d\n", session)
		return err
	})
}

func (o *clientOptions) rows(ask fmt.Stringer) error {
	return o.with(func(ctx context.Context, c *client.Client) error { return o.rowsOf(ctx, c, ask) })
}

func (o *clientOptions) rowsOf(ctx context.Context, c *client.Client, ask fmt.Stringer) error {
	var known *layout.Layout
	if !o.asHex {
		found, err := layoutOf(ctx, c)
		if err != nil {
			return failed(err)
		}
		known = found
	}
	out := newOutput()
	last, err := c.Lines(ctx, ask.String(), func(row string) error { return out.line(rowOf(known, row)) })
	if err != nil {
		return failed(err)
	}
	if err := out.line(last); err != nil {
		return err
	}
	if err := out.flush(); err != nil {
		return err
	}
	word, why, _ := strings.Cut(last, " ")
	return ended(client.Answer{Word: word, Why: why})
}

// rowOf returns a row as people read it: by field where the table has a layout.
func rowOf(known *layout.Layout, row string) string {
	fields := strings.Fields(row)
	if known == nil || len(fields) != 3 {
		return row
	}
	number, err := strconv.ParseUint(fields[0], 10, 8)
	table := known.Table(uint8(number))
	value, fault := hex.DecodeString(fields[2])
	if err != nil || fault != nil || table == nil {
		return row
	}
	text := fmt.Sprintf("%s %s", table.Name, fields[1])
	for _, it := range table.Values(value) {
		text += fmt.Sprintf(" %s=%s", it.Name, it.Text)
	}
	return text
}
