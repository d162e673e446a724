// dsmdb-server keeps a replica of a database and answers clients, and is a client.
package main

import (
	"errors"
	"fmt"
	"os"

	"github.com/spf13/cobra"
)

// version is what batches and --version say.
const version = "0.1"

// Exit statuses.
const (
	statusDone      = 0
	statusCancelled = 1 // a call cancelled; of other commands a failure
	statusWords     = 2 // bad words, or a line at fault
	statusNotSent   = 3 // no server was asked
	statusNotDone   = 4 // settled, and not done
	statusAskAgain  = 5 // it may have been done, or may still be
)

// status is an error that ends the process with a status, after its message, where it has one.
type status struct {
	code int
	err  error
}

func (s *status) Error() string {
	if s.err == nil {
		return ""
	}
	return s.err.Error()
}

func (s *status) Unwrap() error { return s.err }

func words(format string, values ...any) error {
	return &status{statusWords, fmt.Errorf(format, values...)}
}

func main() {
	root := &cobra.Command{
		Use:           "dsmdb",
		Short:         "Keeps a replica of a database and answers its clients, and asks as a client.",
		Version:       version,
		SilenceErrors: true, SilenceUsage: true,
		Args: cobra.NoArgs,
		RunE: func(*cobra.Command, []string) error { return words("a command is missing: dsmdb serve --help") },
	}
	root.CompletionOptions.DisableDefaultCmd = true
	root.SetFlagErrorFunc(func(command *cobra.Command, err error) error {
		return words("%w: `dsmdb %s --help` says which there are", err, command.Name())
	})
	client := &clientOptions{}
	root.AddCommand(serveCommand(), tokenCommand(), demoCommand())
	root.AddCommand(clusterCommands(client)...)
	root.AddCommand(client.commands()...)
	err := root.Execute()
	if err == nil {
		return
	}
	code := 1
	var known *status
	if errors.As(err, &known) {
		code = known.code
	} else if len(os.Args) > 1 {
		if command, _, found := root.Find(os.Args[1:]); found != nil || command == root {
			code = statusWords
		}
	}
	if text := err.Error(); text != "" {
		fmt.Fprintln(os.Stderr, "dsmdb:", text)
	}
	os.Exit(code)
}
