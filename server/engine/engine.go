// Package engine runs `dsmdb site` as a process that is asked by lines, and answers each of them in order.
package engine

import (
	"bytes"
	"context"
	"errors"
	"fmt"
	"io"
	"os"
	"os/exec"
	"strconv"
	"strings"
	"sync"
	"syscall"
	"time"
)

const (
	readAtOnce = 1 << 18 // bytes
	keptFaults = 1 << 12 // bytes of what an engine says of its end
	grace      = 5 * time.Second
)

// SettingsFault says that an engine doesn't take its settings: `line 3: L4`.
type SettingsFault struct{ Text string }

func (f *SettingsFault) Error() string { return "the settings are at fault: " + f.Text }

// Ended says how an engine's process has ended.
type Ended struct {
	Status string // as of os.ProcessState
	Text   string // what it said on standard error
}

func (e *Ended) Error() string {
	if e.Text == "" {
		return "the engine ended: " + e.Status
	}
	return fmt.Sprintf("the engine ended: %s: %s", e.Status, e.Text)
}

// Engine is a process that runs. Its methods may be called from any goroutine.
type Engine struct {
	command *exec.Cmd
	faults  *tail
	answers chan []byte
	done    chan struct{}
	err     error // once done is closed

	mutex   sync.Mutex
	more    *sync.Cond
	input   *os.File
	direct  syscall.RawConn // of the input
	unsent  []byte
	sending bool // whether the sending goroutine has lines in its hands
	closing bool
}

// Start runs a program's `site` with a copy of the settings, and waits until it has taken them. The error is a
// *SettingsFault where it refuses them.
func Start(ctx context.Context, program string, settings []byte) (*Engine, error) {
	copied, err := copyOf(settings)
	if err != nil {
		return nil, fmt.Errorf("copying the settings: %w", err)
	}
	defer copied.Close()
	e := &Engine{faults: &tail{}, answers: make(chan []byte, 16), done: make(chan struct{})}
	e.more = sync.NewCond(&e.mutex)
	e.command = exec.Command(program, "site", "/dev/fd/3")
	e.command.ExtraFiles = []*os.File{copied}
	e.command.Stderr = e.faults
	e.command.SysProcAttr = &syscall.SysProcAttr{Setpgid: true, Pdeathsig: syscall.SIGKILL}
	output, err := e.command.StdoutPipe()
	if err != nil {
		return nil, fmt.Errorf("starting the engine: %w", err)
	}
	if err := e.startWithInput(); err != nil {
		return nil, fmt.Errorf("starting the engine: %w", err)
	}
	go e.send()
	go e.hear(output)
	if err := e.accepted(ctx); err != nil {
		e.Close()
		return nil, err
	}
	return e, nil
}

// copyOf returns a file that nobody else can change while the engine reads it.
func copyOf(settings []byte) (*os.File, error) {
	copied, err := os.CreateTemp("", "dsmdb-settings-")
	if err != nil {
		return nil, err
	}
	if err := os.Remove(copied.Name()); err != nil {
		copied.Close()
		return nil, err
	}
	if _, err := copied.Write(settings); err != nil {
		copied.Close()
		return nil, err
	}
	return copied, nil
}

// accepted waits for the answer to a first question.
func (e *Engine) accepted(ctx context.Context) error {
	e.Ask([]byte("position\n"))
	select {
	case first, is := <-e.answers:
		if is && string(first) == "position 0\n" {
			return nil
		}
		if is {
			return fmt.Errorf("the engine begins with %q: it is no site of dsmdb", first)
		}
		<-e.done
		var ended *Ended
		if errors.As(e.err, &ended) && strings.HasPrefix(ended.Text, "line ") {
			return &SettingsFault{ended.Text}
		}
		return e.err
	case <-ctx.Done():
		return fmt.Errorf("waiting for the engine to take its settings: %w", ctx.Err())
	}
}

// startWithInput starts the process, which reads from a pipe of this one's.
func (e *Engine) startWithInput() error {
	theirs, ours, err := os.Pipe()
	if err != nil {
		return err
	}
	defer theirs.Close()
	e.command.Stdin, e.input = theirs, ours
	if e.direct, err = ours.SyscallConn(); err == nil {
		err = e.start()
	}
	if err != nil {
		ours.Close()
	}
	return err
}

// start runs the process from a thread that stays: the process is killed when the thread that made it ends.
func (e *Engine) start() error {
	started := make(chan error)
	go keepThread(func() { started <- e.command.Start() }, e.done)
	return <-started
}

// Ask hands lines to the engine, each with its LF, in the order of the calls. It never waits: what the pipe doesn't take
// at once is sent later.
func (e *Engine) Ask(lines []byte) {
	e.mutex.Lock()
	defer e.mutex.Unlock()
	if len(e.unsent) == 0 && !e.sending && !e.closing {
		lines = lines[e.sendAtOnce(lines):]
	}
	if len(lines) > 0 {
		e.unsent = append(e.unsent, lines...)
		e.more.Signal()
	}
}

// sendAtOnce returns how many of some bytes the pipe takes without waiting. Why it takes no more is seen by send.
func (e *Engine) sendAtOnce(lines []byte) int {
	taken := 0
	e.direct.Write(func(fd uintptr) bool {
		for taken < len(lines) {
			count, err := syscall.Write(int(fd), lines[taken:])
			if err == syscall.EINTR {
				continue
			}
			if err != nil || count <= 0 {
				break
			}
			taken += count
		}
		return true
	})
	return taken
}

// Unsent returns how many bytes wait for the engine to take them.
func (e *Engine) Unsent() int {
	e.mutex.Lock()
	defer e.mutex.Unlock()
	return len(e.unsent)
}

// Answers returns the channel of what the engine answers: some whole lines at a time. It is closed at the engine's end.
func (e *Engine) Answers() <-chan []byte { return e.answers }

// Err returns how the engine has ended, once Answers is closed.
func (e *Engine) Err() error {
	<-e.done
	return e.err
}

// Processor returns how much time of processors the engine has used.
func (e *Engine) Processor() (time.Duration, error) {
	text, err := os.ReadFile(fmt.Sprintf("/proc/%d/stat", e.command.Process.Pid))
	if err != nil {
		return 0, err
	}
	// the name, in brackets, may have spaces
	fields := strings.Fields(string(text[bytes.LastIndexByte(text, ')')+1:]))
	if len(fields) < 13 {
		return 0, fmt.Errorf("/proc/%d/stat has %d fields", e.command.Process.Pid, len(fields))
	}
	ticks := 0
	for _, field := range fields[11:13] { // of itself and of the kernel for it
		value, err := strconv.Atoi(field)
		if err != nil {
			return 0, err
		}
		ticks += value
	}
	return time.Duration(ticks) * time.Second / ticksPerSecond, nil
}

// Memory returns how many bytes of memory the engine has.
func (e *Engine) Memory() (uint64, error) {
	text, err := os.ReadFile(fmt.Sprintf("/proc/%d/statm", e.command.Process.Pid))
	if err != nil {
		return 0, err
	}
	var all, resident uint64
	if _, err := fmt.Sscan(string(text), &all, &resident); err != nil {
		return 0, fmt.Errorf("/proc/%d/statm: %w", e.command.Process.Pid, err)
	}
	return resident * uint64(os.Getpagesize()), nil
}

// ticksPerSecond is the unit of /proc on Linux, whatever the kernel's own is.
const ticksPerSecond = 100

// Close ends the engine's input and waits for its end, and kills it where that takes long. Answers that nobody has taken
// are dropped.
func (e *Engine) Close() {
	e.mutex.Lock()
	e.closing, e.unsent = true, nil
	e.mutex.Unlock()
	e.more.Signal()
	timer := time.AfterFunc(grace, func() { e.command.Process.Kill() })
	defer timer.Stop()
	for range e.answers {
	}
	<-e.done
}

// Kill ends the process at once.
func (e *Engine) Kill() { e.command.Process.Kill() }

// send writes what the pipe didn't take at once, all that waits at a time.
func (e *Engine) send() {
	defer e.input.Close()
	var sent []byte
	for {
		e.mutex.Lock()
		e.sending = false
		for len(e.unsent) == 0 && !e.closing {
			e.more.Wait()
		}
		if e.closing {
			e.mutex.Unlock()
			return
		}
		sent, e.unsent, e.sending = e.unsent, sent[:0], true
		e.mutex.Unlock()
		if _, err := e.input.Write(sent); err != nil {
			return // the process has ended, which hear tells of
		}
	}
}

// hear hands on whole lines until the engine's end, and then waits for the process.
func (e *Engine) hear(output io.Reader) {
	defer close(e.done)
	defer close(e.answers)
	buffer, held := make([]byte, readAtOnce), 0 // of which so many bytes are a line's beginning
	for {
		if held == len(buffer) {
			buffer = append(buffer, make([]byte, len(buffer))...)
		}
		count, err := output.Read(buffer[held:])
		whole := held + bytes.LastIndexByte(buffer[held:held+count], '\n') + 1
		held += count
		if whole > held-count {
			e.answers <- append([]byte(nil), buffer[:whole]...)
			held = copy(buffer, buffer[whole:held])
		}
		if err != nil {
			break
		}
	}
	e.command.Wait()
	e.mutex.Lock()
	e.closing = true
	e.mutex.Unlock()
	e.more.Signal()
	e.err = &Ended{Status: e.command.ProcessState.String(), Text: e.faults.String()}
}

// tail keeps the last bytes that are written to it.
type tail struct {
	mutex sync.Mutex
	bytes []byte
}

func (t *tail) Write(more []byte) (int, error) {
	t.mutex.Lock()
	defer t.mutex.Unlock()
	t.bytes = append(t.bytes, more...)
	if over := len(t.bytes) - keptFaults; over > 0 {
		t.bytes = append(t.bytes[:0], t.bytes[over:]...)
	}
	return len(more), nil
}

func (t *tail) String() string {
	t.mutex.Lock()
	defer t.mutex.Unlock()
	return strings.TrimSpace(string(t.bytes))
}
