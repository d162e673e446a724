package engine

import (
	"bufio"
	"bytes"
	"context"
	"errors"
	"fmt"
	"io"
	"os"
	"os/exec"
	"strings"
	"syscall"
	"testing"
	"time"
)

// limit is after how long a test has failed.
const limit = 30 * time.Second

// The tests run this very program as an engine, which does what its settings say.
func TestMain(m *testing.M) {
	if len(os.Args) == 3 && os.Args[1] == "site" {
		os.Exit(play(os.Args[2]))
	}
	os.Exit(m.Run())
}

// play is an engine: a line of its input is answered by `echo LINE`, a line of many bytes by as many.
func play(path string) int {
	settings, err := os.ReadFile(path)
	if err != nil {
		fmt.Fprintln(os.Stderr, err)
		return 3
	}
	switch string(settings) {
	case "refused":
		fmt.Fprintln(os.Stderr, "line 2: L4")
		return 1
	case "dies":
		fmt.Fprintln(os.Stderr, "dsmdb: out of memory")
		return 3
	case "stranger":
		fmt.Println("hello")
	case "silent":
		time.Sleep(time.Minute)
	case "stubborn":
		fmt.Println("position 0")
		time.Sleep(time.Minute)
	}
	lines := bufio.NewReader(os.Stdin)
	for {
		line, err := lines.ReadString('\n')
		if err == io.EOF {
			return 0
		}
		switch line {
		case "position\n":
			fmt.Println("position 0")
		case "end\n":
			fmt.Fprintln(os.Stderr, "line 7: L9")
			return 3
		case "work\n":
			for end := used() + 300*time.Millisecond; used() < end; {
			}
			fmt.Println("done")
		default:
			fmt.Print("echo ", line)
		}
	}
}

// used returns how much time of processors this process has used.
func used() time.Duration {
	var usage syscall.Rusage
	if err := syscall.Getrusage(syscall.RUSAGE_SELF, &usage); err != nil {
		panic(err)
	}
	return time.Duration(usage.Utime.Nano() + usage.Stime.Nano())
}

func started(t *testing.T, settings string) (*Engine, error) {
	t.Helper()
	ctx, cancel := context.WithTimeout(context.Background(), limit)
	defer cancel()
	e, err := Start(ctx, os.Args[0], []byte(settings))
	if err == nil {
		t.Cleanup(e.Close)
	}
	return e, err
}

// heard returns so many lines.
func heard(t *testing.T, e *Engine, count int) []string {
	t.Helper()
	var found []byte
	for bytes.Count(found, []byte("\n")) < count {
		select {
		case some, is := <-e.Answers():
			if !is {
				t.Fatalf("the engine has ended: %v", e.Err())
			}
			found = append(found, some...)
		case <-time.After(limit):
			t.Fatalf("%d lines of %d", bytes.Count(found, []byte("\n")), count)
		}
	}
	return strings.Split(strings.TrimSuffix(string(found), "\n"), "\n")
}

func TestLinesAreAnsweredInOrder(t *testing.T) {
	e, err := started(t, "")
	if err != nil {
		t.Fatal(err)
	}
	const count = 20_000 // more than pipes hold
	for number := 0; number < count; number++ {
		e.Ask([]byte(fmt.Sprintf("%d %s\n", number, strings.Repeat("x", number%90))))
	}
	for number, line := range heard(t, e, count) {
		if want := fmt.Sprintf("echo %d %s", number, strings.Repeat("x", number%90)); line != want {
			t.Fatalf("line %d is %q", number, line)
		}
	}
	if left := e.Unsent(); left != 0 {
		t.Errorf("%d bytes wait", left)
	}
}

func TestALongLineComesWhole(t *testing.T) {
	e, err := started(t, "")
	if err != nil {
		t.Fatal(err)
	}
	long := strings.Repeat("y", 3*readAtOnce+1)
	e.Ask([]byte(long + "\n"))
	if found := heard(t, e, 1); found[0] != "echo "+long {
		t.Errorf("%d bytes", len(found[0]))
	}
}

func TestWhatDoesNotStart(t *testing.T) {
	_, err := started(t, "refused")
	var fault *SettingsFault
	if !errors.As(err, &fault) || fault.Text != "line 2: L4" {
		t.Errorf("settings at fault: %v", err)
	}
	_, err = started(t, "dies")
	var ended *Ended
	if !errors.As(err, &ended) || err.Error() != "the engine ended: exit status 3: dsmdb: out of memory" {
		t.Errorf("an engine that dies: %v", err)
	}
	if _, err = started(t, "stranger"); err == nil || !strings.Contains(err.Error(), "it is no site of dsmdb") {
		t.Errorf("another program: %v", err)
	}
	if _, err = Start(context.Background(), "/nothing", nil); err == nil || !strings.HasPrefix(err.Error(), "starting the engine: ") {
		t.Errorf("no program: %v", err)
	}
}

func TestASilentEngineIsNotWaitedFor(t *testing.T) {
	t.Parallel()
	ctx, cancel := context.WithTimeout(context.Background(), 100*time.Millisecond)
	defer cancel()
	begun := time.Now()
	if _, err := Start(ctx, os.Args[0], []byte("silent")); !errors.Is(err, context.DeadlineExceeded) {
		t.Errorf("%v", err)
	}
	if took := time.Since(begun); took > limit {
		t.Errorf("it took %v", took)
	}
}

func TestAnEndIsTold(t *testing.T) {
	e, err := started(t, "")
	if err != nil {
		t.Fatal(err)
	}
	e.Ask([]byte("one\nend\ntwo\n"))
	if found := heard(t, e, 1); found[0] != "echo one" {
		t.Errorf("%q", found)
	}
	if _, is := <-e.Answers(); is {
		t.Error("it answers behind its end")
	}
	if err := e.Err(); err.Error() != "the engine ended: exit status 3: line 7: L9" {
		t.Errorf("%v", err)
	}
	e.Ask([]byte("three\n")) // nobody takes it, and nobody waits
	e.Close()
}

func TestAKilledEngineHasEnded(t *testing.T) {
	e, err := started(t, "")
	if err != nil {
		t.Fatal(err)
	}
	e.Kill()
	if err := e.Err(); err.Error() != "the engine ended: signal: killed" {
		t.Errorf("%v", err)
	}
}

func TestAStubbornEngineIsKilledAtTheEnd(t *testing.T) {
	t.Parallel()
	e, err := started(t, "stubborn")
	if err != nil {
		t.Fatal(err)
	}
	begun := time.Now()
	e.Close()
	if took := time.Since(begun); took < grace || took > limit {
		t.Errorf("it took %v", took)
	}
}

func TestProcessorTimeGrowsWithWork(t *testing.T) {
	e, err := started(t, "")
	if err != nil {
		t.Fatal(err)
	}
	before, err := e.Processor()
	if err != nil {
		t.Fatal(err)
	}
	e.Ask([]byte("work\n"))
	heard(t, e, 1)
	after, err := e.Processor()
	if err != nil || after-before < 100*time.Millisecond {
		t.Errorf("%v and then %v, %v", before, after, err)
	}
}

// The proved program answers as a site does, where DSMDB names it.
func TestTheProgram(t *testing.T) {
	program := os.Getenv("DSMDB")
	if program == "" {
		t.Skip("DSMDB names no program")
	}
	if _, err := exec.LookPath(program); err != nil {
		t.Fatal(err)
	}
	e, err := Start(context.Background(), program, []byte("window 4\ntable 1 8\n"))
	if err != nil {
		t.Fatal(err)
	}
	defer e.Close()
	e.Ask([]byte("entry -\nposition\njump\nrows\n"))
	want := []string{"entry 1 nothing E1", "position 1", "fault L2", "position 1 rows 0"}
	for at, line := range heard(t, e, len(want)) {
		if line != want[at] {
			t.Errorf("%q, and not %q", line, want[at])
		}
	}
	_, err = Start(context.Background(), program, []byte("window 4\njump\n"))
	var fault *SettingsFault
	if !errors.As(err, &fault) || fault.Text != "line 2: L2" {
		t.Errorf("settings at fault: %v", err)
	}
}
