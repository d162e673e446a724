// Package client asks servers of a database, so that each call is done once, whatever ends meanwhile.
package client

import (
	"bufio"
	"context"
	"crypto/tls"
	"errors"
	"fmt"
	"io"
	"net"
	"os"
	"path/filepath"
	"strings"
	"time"
)

// Dialer reaches servers.
type Dialer struct {
	// TLS is for places that begin with tls://; nil for the system's certificates.
	TLS *tls.Config
	// Token is shown on each connection where it isn't empty.
	Token string
}

// Conn is a connection to one server. One goroutine has it.
type Conn struct {
	net  net.Conn
	from *bufio.Reader
}

// Dial reaches a server at a place: its data folder, the path of a Unix socket, tcp://HOST:PORT or tls://HOST:PORT.
func (d *Dialer) Dial(ctx context.Context, place string) (*Conn, error) {
	reached, err := d.reach(ctx, place)
	if err != nil {
		return nil, err
	}
	c := &Conn{net: reached, from: bufio.NewReaderSize(reached, 1<<16)}
	if d.Token == "" {
		return c, nil
	}
	if answer, err := c.Ask(ctx, "token "+d.Token); err != nil || answer != "token accepted" {
		c.Close()
		if err == nil {
			err = fmt.Errorf("%s: the token is refused", place)
		}
		return nil, err
	}
	return c, nil
}

func (d *Dialer) reach(ctx context.Context, place string) (net.Conn, error) {
	dialer := net.Dialer{Timeout: 10 * time.Second}
	if address := strings.TrimPrefix(place, "tcp://"); address != place {
		return dialer.DialContext(ctx, "tcp", address)
	}
	if address := strings.TrimPrefix(place, "tls://"); address != place {
		secured := tls.Dialer{NetDialer: &dialer, Config: d.TLS}
		return secured.DialContext(ctx, "tcp", address)
	}
	path := strings.TrimPrefix(place, "unix:")
	if found, err := os.Stat(path); err == nil && found.IsDir() { // a server's data folder
		path = filepath.Join(path, "socket")
	}
	return dialer.DialContext(ctx, "unix", path)
}

// Ask asks a line, which is without LF, and returns the line that answers it. After an error the connection is of no use.
func (c *Conn) Ask(ctx context.Context, line string) (string, error) {
	defer c.until(ctx)()
	if err := c.send(ctx, line); err != nil {
		return "", err
	}
	return c.read(ctx)
}

// Lines asks a line whose answer has several, and hands these over up to the one that doesn't begin with a space, which is
// returned.
func (c *Conn) Lines(ctx context.Context, line string, take func(row string) error) (string, error) {
	return c.lines(ctx, line, isNoRow, take)
}

// LinesUntil asks a line whose answer has several, and hands these over as they come, up to the one that begins with the
// word last, which is returned. A line that says why there is no such answer is returned too.
func (c *Conn) LinesUntil(ctx context.Context, line, last string, take func(row string) error) (string, error) {
	return c.lines(ctx, line, endOf(last), take)
}

func (c *Conn) lines(ctx context.Context, line string, isLast func(string) bool, take func(row string) error) (string, error) {
	defer c.until(ctx)()
	if err := c.send(ctx, line); err != nil {
		return "", err
	}
	answer, err := c.read(ctx)
	for ; err == nil && !isLast(answer); answer, err = c.read(ctx) {
		if err := take(answer); err != nil {
			return "", err
		}
	}
	return answer, err
}

func isNoRow(line string) bool { return !strings.HasPrefix(line, " ") }

// endOf returns the test for the line at which an answer of several lines ends: the line of a word, or a refusal. No line of
// settings begins like one of these.
func endOf(word string) func(line string) bool {
	return func(line string) bool {
		first, _, more := strings.Cut(line, " ")
		return more && (first == word || first == "refused" || first == "unknown" || first == "fault")
	}
}

func (c *Conn) send(ctx context.Context, line string) error {
	if _, err := io.WriteString(c.net, line+"\n"); err != nil {
		return fmt.Errorf("asking: %w", c.why(ctx, err))
	}
	return nil
}

func (c *Conn) read(ctx context.Context) (string, error) {
	answer, err := c.from.ReadString('\n')
	if err != nil {
		return "", fmt.Errorf("waiting for an answer: %w", c.why(ctx, err))
	}
	return answer[:len(answer)-1], nil
}

// until has the connection's calls end with a context, until it is released: a context that ends later ends no other call.
func (c *Conn) until(ctx context.Context) (release func()) {
	deadline, _ := ctx.Deadline()
	c.net.SetDeadline(deadline)
	if ctx.Done() == nil {
		return func() {}
	}
	over, left := make(chan struct{}), make(chan struct{})
	go func() {
		defer close(left)
		select {
		case <-ctx.Done():
			c.net.SetDeadline(time.Unix(1, 0))
		case <-over:
		}
	}()
	return func() {
		close(over)
		<-left
	}
}

func (c *Conn) why(ctx context.Context, err error) error {
	if ctx.Err() != nil {
		return ctx.Err()
	}
	if errors.Is(err, io.EOF) {
		return errors.New("the server closed the connection")
	}
	return err
}

// Close ends the connection. What was asked on it and not answered may still be done.
func (c *Conn) Close() error { return c.net.Close() }
