package client

import (
	"context"
	"errors"
	"fmt"
	"math/rand"
	"strings"
	"time"

	"dsmdb/server/wire"
)

const (
	longestPause = time.Second
	silence      = 10 * time.Second // beyond the time that a server was given, before another one is asked
	lastSequence = 1<<32 - 1
	mostAhead    = 65_536 // strings that an order is made longer by
)

var (
	// ErrUnsettled says that a call may have been done, or may still be. Settle asks what became of it.
	ErrUnsettled = errors.New("it isn't known whether the call was done")
	// ErrNoName says that a word can't be a procedure's name.
	ErrNoName = errors.New("it is no procedure's name")
	// ErrMayNot says that a server refuses this client.
	ErrMayNot = errors.New("the server refuses it")
	// ErrSessionLost says that a call that was asked before is refused now, since its session is over. Whether the call was
	// done isn't told any more. It won't be done later. The next call begins a new session.
	ErrSessionLost = errors.New("the session was lost: the call may have been done before, and a new session begins with the next call")
	// ErrNothingSent says that no server could be reached: nothing was asked of any.
	ErrNothingSent = errors.New("no server was reached")
)

// OtherDatabase says that servers have another database than the one that the client's state is of.
type OtherDatabase struct{ Place, Own, Found string }

func (o *OtherDatabase) Error() string {
	return fmt.Sprintf("%s has database %s, and this client's state is of database %s: take another file", o.Place, o.Found, o.Own)
}

// Options are of a client.
type Options struct {
	// Servers are places as of Dialer.Dial, of which the first one that answers is asked.
	Servers []string
	Dialer  Dialer
	// Store keeps session, number and the call that isn't settled. Nil stands for the process's memory.
	Store Store
	// Within is for how long a server may try a call. 0 stands for ten seconds.
	Within time.Duration
}

// Client is one session with a database. It has one call out at a time, and one goroutine has it.
type Client struct {
	servers  []string
	dialer   Dialer
	store    Store
	within   time.Duration
	state    State
	answered bool // whether the state's call is settled, and its answer was handed to the caller
	over     bool // whether the state's session takes no calls any more
	conn     *Conn
	known    uint64 // the last position that a server told
	ahead    uint64
}

// Open opens a client. A call that a client before this one wasn't answered has to be settled before another is made.
func Open(o Options) (*Client, error) {
	if len(o.Servers) == 0 {
		return nil, errors.New("a client asks for a server's place")
	}
	c := &Client{servers: append([]string(nil), o.Servers...), dialer: o.Dialer, store: o.Store, within: o.Within}
	if c.store == nil {
		c.store = &Memory{State{Next: 1}}
	}
	if c.within == 0 {
		c.within = 10 * time.Second
	}
	state, err := c.store.Load()
	if err != nil {
		return nil, err
	}
	c.state = state
	return c, nil
}

// Close ends the client, whose last answer was handed on. Its store is closed too.
func (c *Client) Close() error {
	c.leave()
	var err error
	if c.answered {
		err = c.forget()
	}
	if fault := c.store.Close(); err == nil {
		err = fault
	}
	return err
}

// Abandon ends the client where its last answer wasn't handed on, so that Settle tells it again.
func (c *Client) Abandon() {
	c.leave()
	c.store.Close()
}

// Unsettled returns the line of a call that isn't settled; false where there is none.
func (c *Client) Unsettled() (string, bool) {
	if c.answered {
		return "", false
	}
	return c.state.Call, c.state.Call != ""
}

// IsUnsettled returns whether the call that isn't settled is one of a procedure with arguments.
func (c *Client) IsUnsettled(name string, args []byte) bool {
	line, is := c.Unsettled()
	return is && strings.HasPrefix(line, fmt.Sprintf("call %s %s ", name, wire.HexOf(args)))
}

// When says on which rows a call begins.
type When struct {
	After uint64 // those after this position, or newer ones
	Fresh bool   // those of the order's end as it is when the call is asked, or newer ones
}

// Call calls a procedure, and returns what became of the call. It goes on asking until the context ends. After
// ErrUnsettled, or where the process ends, Settle asks for what became of it.
//
// The store has the call until the next one, or Close: who dies with an answer in his hands is told it again by Settle.
func (c *Client) Call(ctx context.Context, name string, args []byte, when When) (Answer, error) {
	if _, is := c.Unsettled(); is {
		return Answer{}, fmt.Errorf("an earlier call isn't settled: %w", ErrUnsettled)
	}
	if !isName(name) {
		return Answer{}, fmt.Errorf("%q: %w", name, ErrNoName)
	}
	answer, err := c.callOnce(ctx, name, args, when)
	if err != nil || !answer.isOutOfSession() {
		return answer, err
	}
	// the session was over before: the call wasn't done, and is asked in another one
	if err := c.forget(); err != nil {
		return Answer{}, err
	}
	return c.callOnce(ctx, name, args, when)
}

// callOnce calls a procedure in the client's session, or in a new one where that is over.
func (c *Client) callOnce(ctx context.Context, name string, args []byte, when When) (Answer, error) {
	if err := c.begin(ctx); err != nil {
		return Answer{}, err
	}
	call := wire.Call{Name: name, Args: args, Session: uint32(c.state.Session), Sequence: uint32(c.state.Next)}
	next := c.state
	next.Call, next.Upto, next.Next = call.String(), 0, c.state.Next+1
	next.Upto = c.upto(when, false)
	if err := c.store.Save(next); err != nil {
		return Answer{}, err
	}
	c.state, c.answered = next, false
	return c.settle(ctx, when, true)
}

// isName returns whether a word can be a procedure's in a line: no space, and printable.
func isName(name string) bool {
	for _, it := range []byte(name) {
		if it <= ' ' || it > '~' {
			return false
		}
	}
	return name != ""
}

// Settle asks what became of the call that isn't settled, and has it done where it wasn't.
func (c *Client) Settle(ctx context.Context) (Answer, error) {
	if _, is := c.Unsettled(); !is {
		return Answer{}, errors.New("no call is to be settled")
	}
	return c.settle(ctx, When{}, false)
}

// forget has the store keep the call no longer, nor a session that is over.
func (c *Client) forget() error {
	c.state.Call, c.state.Upto, c.answered = "", 0, false
	if c.over {
		c.state.Session, c.state.Next, c.over = 0, 1, false
	}
	return c.store.Save(c.state)
}

// settled notes that the call is settled by an answer. Where its session is over, and an earlier ask may have left a copy
// behind, nobody can say any more what became of that.
func (c *Client) settled(answer Answer, sent bool) (Answer, error) {
	c.answered, c.over = true, answer.isOutOfSession()
	if c.over && sent {
		return answer, fmt.Errorf("%w: %s", ErrSessionLost, answer.Line)
	}
	return answer, nil
}

// settle asks the call until it is settled. Where an earlier ask may have left a copy behind, an answer has to hold of
// that too: the call is asked on rows behind those on which the copy may run.
func (c *Client) settle(ctx context.Context, when When, first bool) (Answer, error) {
	sent := !first
	for tries := 0; ; tries++ {
		answer, asked, err := c.askCall(ctx, when, sent)
		var other *OtherDatabase
		switch {
		case errors.As(err, &other):
			return Answer{}, err
		case err == nil && answer.settles(sent):
			return c.settled(answer, sent)
		case err == nil && answer.Word == "late":
			continue // at once, with a higher bound
		case err == nil && answer.isRefusal() && !sent && !asked:
			return answer, c.forget() // nothing was begun
		case err == nil && answer.Word == "refused" && answer.Why != "rate":
			return answer, fmt.Errorf("%w: %s", ErrUnsettled, answer.Line)
		case err != nil || answer.Word == "unknown":
			c.next()
		}
		sent = sent || asked
		if wait(ctx, tries) {
			continue
		}
		if !sent {
			if fault := c.forget(); fault != nil {
				return answer, fault
			}
			return answer, fmt.Errorf("%w: %v", ErrNothingSent, err)
		}
		if err == nil {
			err = errors.New(answer.Line)
		}
		return answer, fmt.Errorf("%w: %v", ErrUnsettled, err)
	}
}

// askCall asks the call once; asked is whether the server may have heard of it.
func (c *Client) askCall(ctx context.Context, when When, again bool) (answer Answer, asked bool, err error) {
	if err := c.connect(ctx); err != nil {
		return Answer{}, false, err
	}
	line := c.state.Call
	if again {
		line += fmt.Sprintf(" fresh after %d", c.state.Upto)
	} else if when.Fresh {
		line += " fresh"
	}
	if when.After > 0 && !again {
		line += fmt.Sprintf(" after %d", when.After)
	}
	if upto := c.upto(when, again); upto > c.state.Upto {
		c.state.Upto = upto
		if err := c.store.Save(c.state); err != nil {
			return Answer{}, false, err
		}
	}
	line += fmt.Sprintf(" upto %d within %d", c.state.Upto, c.seconds())
	limited, cancel := context.WithTimeout(ctx, c.within+silence)
	defer cancel()
	text, err := c.conn.Ask(limited, line)
	if err != nil {
		return Answer{}, true, err
	}
	if answer, err = parse(text); err != nil {
		return answer, true, err
	}
	c.learn(answer)
	if answer.Word == "late" {
		err = c.greet(limited) // the order grows faster than was told
	}
	return answer, again || answer.Word != "late" && !answer.isRefusal(), err
}

// upto returns the position up to which a new ask may run. One that is asked again runs behind all asks before.
func (c *Client) upto(when When, again bool) uint64 {
	from := c.known
	if when.After > from {
		from = when.After
	}
	if again && c.state.Upto > from {
		from = c.state.Upto
	}
	from += c.ahead
	if most := c.known + mostAhead; again && from > most { // as far as a server makes an order longer
		from = most
	}
	return from
}

func (c *Client) seconds() int64 { return int64((c.within + time.Second - 1) / time.Second) }

// learn takes a position from an answer.
func (c *Client) learn(answer Answer) {
	switch answer.Word {
	case "committed", "read", "cancelled", "conflict", "stale", "late":
		if answer.At > c.known {
			c.known = answer.At
		}
	}
}

// begin has a session for the next call.
func (c *Client) begin(ctx context.Context) error {
	for tries := 0; ; tries++ {
		err := c.tryBegin(ctx)
		var other *OtherDatabase
		if err == nil || errors.As(err, &other) || errors.Is(err, ErrMayNot) {
			return err
		}
		c.next()
		if !wait(ctx, tries) {
			return fmt.Errorf("%w: %v", ErrNothingSent, err)
		}
	}
}

func (c *Client) tryBegin(ctx context.Context) error {
	if err := c.connect(ctx); err != nil {
		return err
	}
	if c.state.Session != 0 && c.state.Next <= lastSequence && !c.over {
		return nil
	}
	limited, cancel := context.WithTimeout(ctx, c.within+silence)
	defer cancel()
	line, err := c.conn.Ask(limited, "session")
	if err != nil {
		return err
	}
	answer, err := parse(line)
	if err == nil && answer.isRefusal() && answer.Why != "rate" {
		return fmt.Errorf("%w: %s", ErrMayNot, line)
	}
	if err != nil || answer.Word != "session" {
		return fmt.Errorf("a session is asked for, and answered %s", line)
	}
	c.state.Session, c.state.Next, c.over = answer.At, 1, false
	return c.store.Save(c.state)
}

// Session returns the client's session, which is begun where there is none.
func (c *Client) Session(ctx context.Context) (uint64, error) {
	err := c.begin(ctx)
	return c.state.Session, err
}

// Ask asks a line that may be asked any number of times, until a server answers.
func (c *Client) Ask(ctx context.Context, line string) (string, error) {
	return c.Lines(ctx, line, func(string) error { return nil })
}

// Lines asks a line whose answer may have rows, which are handed over, on a connection of its own. Where a server ends
// while it answers, that is an error.
func (c *Client) Lines(ctx context.Context, line string, take func(row string) error) (string, error) {
	return c.lines(ctx, line, isNoRow, take)
}

// LinesUntil asks a line as Lines does. Its answer has lines of any kind, which are handed over as they come, up to the one
// that begins with the word last, or that says why there is no such answer.
func (c *Client) LinesUntil(ctx context.Context, line, last string, take func(row string) error) (string, error) {
	return c.lines(ctx, line, endOf(last), take)
}

func (c *Client) lines(ctx context.Context, line string, isLast func(string) bool, take func(row string) error) (string, error) {
	for tries := 0; ; tries++ {
		rows, answer := 0, ""
		reached, err := c.reach(ctx)
		if err == nil {
			answer, err = reached.lines(ctx, line, isLast, func(row string) error { rows++; return take(row) })
			reached.Close()
		}
		if err == nil && !strings.HasPrefix(answer, "unknown") {
			return answer, nil
		}
		c.next()
		var other *OtherDatabase
		if errors.As(err, &other) || rows > 0 || !wait(ctx, tries) {
			if err == nil {
				err = errors.New(answer)
			}
			return answer, err
		}
	}
}

// connect has a connection for calls.
func (c *Client) connect(ctx context.Context) error {
	if c.conn != nil {
		return nil
	}
	reached, err := c.reach(ctx)
	c.conn = reached
	return err
}

// reach reaches a server, and compares its database with the state's.
func (c *Client) reach(ctx context.Context) (*Conn, error) {
	limited, cancel := context.WithTimeout(ctx, silence)
	defer cancel()
	reached, err := c.dialer.Dial(limited, c.servers[0])
	if err != nil {
		return nil, fmt.Errorf("%s: %w", c.servers[0], err)
	}
	if err := c.hear(limited, reached); err != nil {
		reached.Close()
		return nil, err
	}
	return reached, nil
}

// greet asks anew where the order is.
func (c *Client) greet(ctx context.Context) error { return c.hear(ctx, c.conn) }

func (c *Client) hear(ctx context.Context, from *Conn) error {
	line, err := from.Ask(ctx, "hello")
	if err != nil {
		return fmt.Errorf("%s: %w", c.servers[0], err)
	}
	found, err := parseHello(line)
	if err != nil {
		return fmt.Errorf("%s: %w", c.servers[0], err)
	}
	if c.state.Database != "" && c.state.Database != found.database {
		return &OtherDatabase{c.servers[0], c.state.Database, found.database}
	}
	c.state.Database, c.ahead = found.database, found.ahead
	if found.position > c.known {
		c.known = found.position
	}
	return nil
}

func (c *Client) leave() {
	if c.conn != nil {
		c.conn.Close()
	}
	c.conn = nil
}

// next leaves the server, so that the next one is asked.
func (c *Client) next() {
	c.leave()
	c.servers = append(c.servers[1:len(c.servers):len(c.servers)], c.servers[0])
}

// wait waits before it is asked again, longer each time; false where the context ends first.
func wait(ctx context.Context, tries int) bool {
	most := 10 * time.Millisecond << uint(tries)
	if most > longestPause || most <= 0 {
		most = longestPause
	}
	timer := time.NewTimer(most/2 + time.Duration(rand.Int63n(int64(most))))
	defer timer.Stop()
	select {
	case <-ctx.Done():
		return false
	case <-timer.C:
		return true
	}
}
