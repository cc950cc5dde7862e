// usage: gopacket read|pcap|pcapng CAPTURE [OUTPUT]    see speed.py
package main

import (
	"bufio"
	"fmt"
	"io"
	"os"
	"strings"

	"github.com/google/gopacket"
	"github.com/google/gopacket/layers"
	"github.com/google/gopacket/pcapgo"
)

func check(err error) {
	if err != nil {
		panic(err)
	}
}

// output is what writes packets, and what ends it; nothing if none are written.
func output(mode string) (write func(gopacket.CaptureInfo, []byte) error, finish func() error) {
	if mode == "read" {
		return func(gopacket.CaptureInfo, []byte) error { return nil }, func() error { return nil }
	}
	file, err := os.Create(os.Args[3])
	check(err)
	if mode == "pcapng" {
		writer, err := pcapgo.NewNgWriter(file, layers.LinkTypeEthernet)
		check(err)
		return writer.WritePacket, writer.Flush
	}
	buffer := bufio.NewWriterSize(file, 1<<16)
	writer := pcapgo.NewWriter(buffer)
	check(writer.WriteFileHeader(262144, layers.LinkTypeEthernet))
	return writer.WritePacket, buffer.Flush
}

func main() {
	file, err := os.Open(os.Args[2])
	check(err)
	source := bufio.NewReaderSize(file, 1<<16)
	var reader gopacket.PacketDataSource
	if strings.HasSuffix(os.Args[2], "pcapng") {
		reader, err = pcapgo.NewNgReader(source, pcapgo.DefaultNgReaderOptions)
	} else {
		reader, err = pcapgo.NewReader(source)
	}
	check(err)
	write, finish := output(os.Args[1])
	count := 0
	for {
		bytes, info, err := reader.ReadPacketData()
		if err == io.EOF {
			break
		}
		check(err)
		check(write(info, bytes))
		count++
	}
	check(finish())
	fmt.Println(count, 0)
}
