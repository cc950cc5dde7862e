// usage: capkit read|match|pcap|pcapng CAPTURE [EXPRESSION | OUTPUT]    see speed.py
package main

import (
	"fmt"
	"io"
	"os"

	"example.com/capkit"
)

func check(err error) {
	if err != nil {
		panic(err)
	}
}

func main() {
	mode := os.Args[1]
	reader, err := capkit.Open(os.Args[2])
	check(err)
	var writer *capkit.Writer
	if mode == "match" {
		expression, err := capkit.NewExpression(os.Args[3])
		check(err)
		reader.SetFilter(expression)
	} else if mode != "read" {
		file, err := os.Create(os.Args[3])
		check(err)
		format := capkit.Pcapng
		if mode == "pcap" {
			format = capkit.Pcap
		}
		writer = capkit.NewWriter(file, format)
	}
	count := 0
	for {
		packet, err := reader.Next()
		if err == io.EOF {
			break
		}
		check(err)
		count++
		if writer != nil {
			check(writer.Write(packet))
		}
	}
	if writer != nil {
		check(writer.Close())
	}
	fmt.Println(count, 0)
}
