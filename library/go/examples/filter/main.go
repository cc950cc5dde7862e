// Filter counts the packets of a capture that match.
//
// The statuses are those of capkit: 1 after a fault, which ends the capture, and 2 if the command
// line or the expression is refused.
package main

import (
	"fmt"
	"io"
	"os"

	"example.com/capkit"
)

// count prints how many packets match; after a fault, those before it.
func count(expression *capkit.Expression, name string) error {
	reader, err := capkit.Open(name)
	if err != nil {
		return err
	}
	defer reader.Close()
	seen, matching := 0, 0
	for {
		packet, end := reader.Next()
		if end != nil {
			if _, err := fmt.Printf("%d of %d packets match\n", matching, seen); err != nil || end == io.EOF {
				return err
			}
			return fmt.Errorf("%s: %w", name, end)
		}
		matches, err := expression.Matches(packet)
		if err != nil {
			return fmt.Errorf("%s: %w", name, err)
		}
		if seen++; matches {
			matching++
		}
	}
}

func fail(err error, status int) {
	fmt.Fprintln(os.Stderr, "filter:", err)
	os.Exit(status)
}

func main() {
	if len(os.Args) != 3 {
		fmt.Fprintln(os.Stderr, "usage: filter EXPRESSION FILE")
		os.Exit(2)
	}
	expression, err := capkit.NewExpression(os.Args[1])
	if err != nil {
		fail(err, 2)
	}
	if err := count(expression, os.Args[2]); err != nil {
		fail(err, 1)
	}
}
