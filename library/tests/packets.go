// Packets prints the packets of captures, and how each ends, as packets.c does.
//
// usage: packets all|skip EXPRESSION MOST FILE..    MOST is how many bytes a source gives at once
package main

import (
	"bufio"
	"errors"
	"fmt"
	"hash/fnv"
	"io"
	"os"
	"strconv"

	"example.com/capkit"
)

// pieces is a source that gives at most a number of bytes at once.
type pieces struct {
	io.Reader
	most int
}

func (p pieces) Read(room []byte) (int, error) {
	if len(room) > p.most {
		room = room[:p.most]
	}
	return p.Reader.Read(room)
}

func sum(bytes []byte) uint64 {
	it := fnv.New64a()
	it.Write(bytes)
	return it.Sum64()
}

func check(err error) {
	if err != nil {
		fmt.Fprintln(os.Stderr, err)
		os.Exit(1)
	}
}

func main() {
	expression, err := capkit.NewExpression(os.Args[2])
	check(err)
	most, err := strconv.Atoi(os.Args[3])
	check(err)
	out := bufio.NewWriter(os.Stdout)
	for _, name := range os.Args[4:] {
		file, err := os.Open(name)
		check(err)
		reader := capkit.NewReader(pieces{file, most})
		reader.SkipRefused(os.Args[1] == "skip")
		reader.SetFilter(expression)
		fmt.Fprintln(out, "==", name)
		packet, end := reader.Next()
		for ; end == nil; packet, end = reader.Next() {
			fmt.Fprintf(out, "%d %d %d %d %d %x %x %x\n", packet.Time.UnixNano(), packet.LinkType, len(packet.Data),
				packet.OriginalLength, packet.SnapLength, sum([]byte(packet.InterfaceName)), sum([]byte(packet.Comment)),
				sum(packet.Data))
		}
		why := "end"
		if end != io.EOF {
			why = errors.Unwrap(end).Error()
		}
		fmt.Fprintf(out, "%s at %d, %d skipped\n", why, reader.Offset(), reader.Skipped())
		file.Close()
	}
	check(out.Flush())
}
