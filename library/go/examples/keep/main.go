// Keep writes the packets of a capture that match to a pcapng file.
//
// The expression is checked, the capture opened and its first packet read before the output is
// touched, which may not be the capture itself. The statuses are those of capkit: 1 after a fault,
// before which the packets are written, and 2 if the command line or the expression is refused.
package main

import (
	"fmt"
	"io"
	"os"

	"example.com/capkit"
)

func isSameFile(one, other string) bool {
	first, err := os.Stat(one)
	if err != nil {
		return false
	}
	second, err := os.Stat(other)
	return err == nil && os.SameFile(first, second)
}

// keep writes the packets that match; after a fault, those before it.
func keep(expression *capkit.Expression, name, out string) error {
	reader, err := capkit.Open(name)
	if err != nil {
		return err
	}
	defer reader.Close()
	reader.SetFilter(expression)
	packet, end := reader.Next()
	if end != nil && end != io.EOF {
		return fmt.Errorf("%s: %w", name, end)
	}
	file, err := os.Create(out)
	if err != nil {
		return err
	}
	defer file.Close()
	writer := capkit.NewWriter(file, capkit.Pcapng)
	for end == nil {
		if end = writer.Write(packet); end == nil {
			packet, end = reader.Next()
		}
	}
	for _, finish := range []func() error{writer.Close, file.Close} {
		if err := finish(); err != nil {
			return err
		}
	}
	if end != io.EOF {
		return fmt.Errorf("%s: %w", name, end)
	}
	return nil
}

func fail(err error, status int) {
	fmt.Fprintln(os.Stderr, "keep:", err)
	os.Exit(status)
}

func main() {
	if len(os.Args) != 4 {
		fmt.Fprintln(os.Stderr, "usage: keep EXPRESSION IN OUT")
		os.Exit(2)
	}
	name, out := os.Args[2], os.Args[3]
	expression, err := capkit.NewExpression(os.Args[1])
	if err != nil {
		fail(err, 2)
	}
	if isSameFile(name, out) {
		fail(fmt.Errorf("%s: is the input too", out), 2)
	}
	if err := keep(expression, name, out); err != nil {
		fail(err, 1)
	}
}
