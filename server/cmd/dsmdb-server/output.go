package main

import (
	"bufio"
	"io"
	"os"
)

// output is written a block at a time.
type output struct{ to *bufio.Writer }

// newOutput returns standard output.
func newOutput() *output { return outputTo(os.Stdout) }

func outputTo(to io.Writer) *output { return &output{bufio.NewWriterSize(to, 1<<16)} }

func (o *output) line(text string) error {
	o.to.WriteString(text)
	return o.to.WriteByte('\n')
}

func (o *output) flush() error { return o.to.Flush() }
