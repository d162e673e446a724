package lineserver

import (
	"bytes"
	"context"
	"fmt"
	"strings"
	"sync"
	"time"

	"dsmdb/server/access"
	"dsmdb/server/site"
	"dsmdb/server/wire"
)

const (
	finishIn  = 3 * time.Second
	firstRoom = 1 << 12                // bytes of a connection's buffer
	keptRoom  = 1 << 16                // bytes of a buffer that is kept
	alike     = 100 * time.Microsecond // for which a client who was there counts as being there

	longestOfStrangers = 1 << 13 // bytes of a line of somebody who may not call
)

// carrier moves the bytes of one connection.
type carrier interface {
	// flush says that there is something to write, or the end. It never waits.
	flush()
	// resume says that there is room for the line that waits. It never waits.
	resume()
	// gone returns whether the client has left, as the kernel knows.
	gone() bool
	// finish has the connection write what it has, for some seconds, and end.
	finish()
}

// conn is what is asked and answered on one connection, however its bytes come and go.
type conn struct {
	server  *Server
	carrier carrier
	input   input
	who     *access.Who // of who reads
	answers bool        // whether lines were answered that the site isn't asked; of who reads

	mutex   sync.Mutex
	out     output
	waiting int    // requests that weren't answered
	plain   bool   // whether one without a tag is among them
	busy    bool   // whether a line is carried out that the others wait for
	paused  bool   // whether a line waits for room
	tag     string // of that line
	ended   bool   // nothing more is read
	broken  bool   // nothing more can be written
}

func (c *conn) init(s *Server, by carrier, who *access.Who) {
	c.server, c.carrier, c.who = s, by, who
	c.input.buffer, c.input.heardAt = make([]byte, firstRoom), time.Now()
}

// input is what was read and isn't taken yet.
type input struct {
	buffer  []byte
	held    int       // bytes of the buffer
	whole   int       // bytes of whole lines among them, which are taken before more is read
	passing bool      // whether a line that is too long is passed over, up to its end
	begun   time.Time // when a line was half there; zero where none is
	heardAt time.Time // when something was last read, or a line didn't wait for room any more
}

// room is where the next bytes are read into.
func (i *input) room() []byte { return i.buffer[i.held:] }

// heard takes in that more bytes were read.
func (i *input) heard(count int, now time.Time) {
	if end := bytes.LastIndexByte(i.buffer[i.held:i.held+count], '\n'); end >= 0 {
		i.whole = i.held + end + 1
	}
	i.held += count
	i.heardAt = now
}

// until returns until when a client may stay silent.
func (i *input) until(limits *Limits) time.Time {
	if i.begun.IsZero() {
		return i.heardAt.Add(limits.Idle)
	}
	return i.begun.Add(limits.Line)
}

// took drops lines that were taken.
func (i *input) took(count int) {
	if count > 0 {
		i.held = copy(i.buffer, i.buffer[count:i.held])
		i.whole -= count
		i.begun = time.Time{}
	}
}

// ---- what is asked

// taken is how far the lines that were read are taken.
type taken uint8

const (
	allTaken  taken = iota // more may be read
	lineWaits              // for room: the carrier is told to resume
	noMore                 // the connection is over
)

// takeLines adds to some what whole lines ask, up to one that has to wait for room.
func (c *conn) takeLines(some *[]*site.Request) taken {
	in := &c.input
	at := 0
	for at < in.whole {
		end := at + bytes.IndexByte(in.buffer[at:in.whole], '\n')
		if !c.takeLine(in.buffer[at:end], some) {
			break
		}
		at = end + 1
	}
	in.took(at)
	if c.answers {
		c.answers = false
		c.carrier.flush()
	}
	switch {
	case in.whole > 0:
		return lineWaits
	case c.keepBeginning():
		return allTaken
	}
	return noMore
}

// keepBeginning makes room for the rest of a line; false where who asks may not have a line so long.
func (c *conn) keepBeginning() bool {
	in := &c.input
	if in.held > longestOfStrangers && !c.who.MayCall() {
		return false
	}
	switch {
	case in.passing || in.held > wire.LongestLine:
		in.passing, in.held = true, 0
	case in.held == len(in.buffer):
		in.buffer = append(in.buffer, make([]byte, len(in.buffer))...)
	case in.held == 0 && len(in.buffer) > keptRoom:
		in.buffer = make([]byte, firstRoom)
	}
	if in.held == 0 && !in.passing {
		in.begun = time.Time{}
	} else if in.begun.IsZero() {
		in.begun = time.Now()
	}
	return true
}

// takeLine takes one line, without its LF; false where the line has to wait for room.
func (c *conn) takeLine(text []byte, some *[]*site.Request) bool {
	line, err := wire.Line{}, error(wire.NotPrintable)
	if !c.input.passing {
		line, err = wire.Read(string(text))
	}
	if line.Ask == nil && err == nil {
		return true // an empty line or a comment
	}
	if !c.enter(line.Tag) {
		return false
	}
	c.input.passing = false
	switch ask := line.Ask.(type) {
	case nil:
		c.answerAtOnce(line.Tag, err.Error())
	case wire.Token:
		c.answerAtOnce(line.Tag, c.showToken(ask))
	case wire.Layout:
		c.answerAtOnce(line.Tag, "layout "+c.server.Layout.String())
	case *wire.Join:
		c.invite(line.Tag, ask)
	case *wire.Forget:
		c.forget(line.Tag, ask)
	default:
		if why := c.refusal(ask); why != "" {
			c.answerAtOnce(line.Tag, why)
		} else {
			*some = append(*some, &site.Request{Ask: ask, Asker: c, Tag: line.Tag})
		}
	}
	return true
}

// refusal returns why a request isn't taken; empty where it is.
func (c *conn) refusal(ask wire.Ask) string {
	if c.server.draining.Load() && needsRows(ask) {
		return "unknown " + site.IsStopping
	}
	if err := c.who.May(ask, time.Now()); err != nil {
		return "refused " + err.Error()
	}
	return ""
}

func needsRows(ask wire.Ask) bool {
	switch ask.(type) {
	case wire.Position, wire.Status, wire.Hello:
		return false
	}
	return true
}

// invite takes a new member into the cluster.
func (c *conn) invite(tag string, ask *wire.Join) {
	if c.server.Invite == nil && c.who.Has(access.Join) == nil {
		c.answerAtOnce(tag, "refused no-cluster")
		return
	}
	c.carryOut(tag, "join", access.Join, func(ctx context.Context) (string, error) {
		members, err := c.server.Invite(ctx, ask.Name, ask.Place)
		return "invited " + members, err
	})
}

// forget deletes old orders.
func (c *conn) forget(tag string, ask *wire.Forget) {
	c.carryOut(tag, "forget", access.Forget, func(ctx context.Context) (string, error) {
		deleted, err := c.server.Forget(ctx, ask.Below)
		text := "forgot"
		for _, number := range deleted {
			text += fmt.Sprintf(" %d", number)
		}
		return text, err
	})
}

// carryOut does what a line asks for that takes a while, where who asks has the right. The connection's other lines wait
// meanwhile.
func (c *conn) carryOut(tag, word string, right access.Right, do func(ctx context.Context) (string, error)) {
	if err := c.who.Has(right); err != nil {
		c.answerAtOnce(tag, "refused "+err.Error())
		return
	}
	c.mutex.Lock()
	c.busy = true
	c.mutex.Unlock()
	go func() {
		ctx, cancel := context.WithTimeout(context.Background(), time.Minute)
		defer cancel()
		text, err := do(ctx)
		if err != nil {
			text = "refused " + word + " " + strings.ReplaceAll(err.Error(), "\n", " ")
		}
		c.mutex.Lock()
		c.busy = false
		c.out.putText(tag, text)
		c.leave(tag)
		c.carrier.flush()
	}()
}

// showToken says who asks from now on.
func (c *conn) showToken(ask wire.Token) string {
	who, err := c.who.WithToken(ask.Word)
	if err != nil {
		return "refused token"
	}
	c.who = who
	return "token accepted"
}

// enter counts a request as under way. Where there is no room for one more, or nothing can be answered any more, its line
// waits. Lines without a tag are under way one by one.
func (c *conn) enter(tag string) bool {
	c.mutex.Lock()
	defer c.mutex.Unlock()
	if c.busy || c.broken || !c.hasRoom(tag) {
		c.paused, c.tag = true, tag
		return false
	}
	c.waiting++
	c.plain = c.plain || tag == ""
	return true
}

func (c *conn) hasRoom(tag string) bool {
	limits := &c.server.Limits
	return c.waiting < limits.Requests && c.out.size <= limits.Bytes && !(tag == "" && c.plain)
}

// ---- what is answered

// Answer implements site.Asker.
func (c *conn) Answer(of *site.Request, answer site.Answer) {
	c.mutex.Lock()
	if answer.Kind == site.Rows {
		c.out.putLines(answer.Lines, of.Tag)
	} else {
		c.out.putAnswer(of.Tag, &answer)
	}
	c.leave(of.Tag)
}

// answerAtOnce answers a line that the site isn't asked.
func (c *conn) answerAtOnce(tag, text string) {
	c.answers = true
	c.mutex.Lock()
	c.out.putText(tag, text)
	c.leave(tag)
}

// leave says that a request was answered, and unlocks the connection.
func (c *conn) leave(tag string) {
	c.waiting--
	if tag == "" {
		c.plain = false
	}
	resumes := c.mayResume()
	c.mutex.Unlock()
	if resumes {
		c.carrier.resume()
	}
}

// mayResume returns whether a line waits that has room now. Its caller has the lock.
func (c *conn) mayResume() bool {
	if !c.paused || c.busy || c.broken || !c.hasRoom(c.tag) {
		return false
	}
	c.paused = false
	return true
}

// wrote takes in that bytes of the output were written. Its caller has the lock; it returns whether a line waits that has
// room now.
func (c *conn) wrote(count int) bool {
	c.out.size -= count
	return c.mayResume()
}

// Flush implements site.Asker.
func (c *conn) Flush() { c.carrier.flush() }

// Gone implements site.Asker.
func (c *conn) Gone() bool { return c.carrier.gone() }

// isOver returns whether all is read and answered. Its caller has the lock.
func (c *conn) isOver() bool { return c.ended && c.waiting == 0 && (c.broken || c.out.isEmpty()) }
