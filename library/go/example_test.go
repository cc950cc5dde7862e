package capkit_test

import (
	"bytes"
	"errors"
	"fmt"
	"io"
	"log"
	"strings"
	"time"

	"example.com/capkit"
)

// arp is an Ethernet packet of ARP.
func arp() []byte {
	return append(append(make([]byte, 12), 8, 6), make([]byte, 28)...)
}

// capture is a pcapng capture of two packets.
func capture() []byte {
	packet := capkit.Packet{Time: time.Unix(1700000000, 0), LinkType: capkit.LinkEthernet, Data: arp()}
	other := packet
	other.Data = make([]byte, 60)
	return written(capkit.Pcapng, packet, other)
}

func ExampleCompile() {
	filter, err := capkit.Compile("arp", capkit.LinkEthernet)
	if err != nil {
		log.Fatal(err)
	}
	fmt.Print(filter)
	fmt.Println(filter.Matches(arp(), 42))
	// Output:
	// 4
	// 40 0 0 12
	// 21 0 1 2054
	// 6 0 0 262144
	// 6 0 0 0
	// true
}

func ExampleCompile_refused() {
	_, err := capkit.Compile("tcp prt 80", capkit.LinkEthernet)
	fmt.Println(err)
	var refused *capkit.CompileError
	if errors.As(err, &refused) {
		fmt.Println("place", refused.Place)
	}
	// Output:
	// unknown word (at byte 5)
	// place 5
}

func ExampleExplain() {
	meaning, err := capkit.Explain("tcp port 80 or 443 and host 10.0.0.1")
	fmt.Println(meaning, err)
	_, err = capkit.Explain("tcp prt 80")
	fmt.Println(err)
	// Output:
	// ((tcp src or dst port 80) or (tcp src or dst port 443)) and (src or dst host 10.0.0.1) <nil>
	// unknown word (at byte 5)
}

func ExampleFromInstructions() {
	length := capkit.Instruction{Code: 128}
	_, err := capkit.FromInstructions([]capkit.Instruction{length})
	fmt.Println(err)
	filter, err := capkit.FromInstructions([]capkit.Instruction{length, {Code: 22}})
	if err != nil {
		log.Fatal(err)
	}
	fmt.Println(filter.Run(arp(), 1500))
	// Output:
	// no return at the end (instruction 0)
	// 1500
}

func ExampleFilter_Trace() {
	filter, err := capkit.Compile("arp", capkit.LinkEthernet)
	if err != nil {
		log.Fatal(err)
	}
	for _, step := range filter.Trace(arp(), 42) {
		fmt.Printf("%s A is %#x\n", strings.ReplaceAll(filter.Text(step.Index), "\t", " "), step.A)
	}
	// Output:
	// (000) ldh      [12] A is 0x0
	// (001) jeq      #0x806           jt 2 jf 3 A is 0x806
	// (002) ret      #262144 A is 0x806
}

func ExamplePacket_Line() {
	packet := capkit.Packet{Time: time.Unix(1, 7), LinkType: capkit.LinkRaw, Data: []byte{0x45}, OriginalLength: 60}
	fmt.Println(packet.Line(false))
	fmt.Println(packet.Line(true))
	// Output:
	// 1970-01-01 00:00:01.000000007 IP [short], length 60
	// 1970-01-01 00:00:01.000000007 raw, IP [short], length 60
}

func ExampleReader() {
	expression, err := capkit.NewExpression("arp")
	if err != nil {
		log.Fatal(err)
	}
	reader := capkit.NewReader(bytes.NewReader(capture()))
	reader.SetFilter(expression)
	for {
		packet, err := reader.Next()
		if err == io.EOF {
			break
		} else if err != nil {
			log.Fatal(err)
		}
		fmt.Println(packet.Time, len(packet.Data))
	}
	// Output:
	// 2023-11-14 22:13:20 +0000 UTC 42
}

func ExampleReader_fault() {
	whole := capture()
	reader := capkit.NewReader(bytes.NewReader(whole[:len(whole)-1]))
	for {
		packet, err := reader.Next()
		if err != nil {
			fmt.Println(err)
			break
		}
		fmt.Println(len(packet.Data))
	}
	// Output:
	// 42
	// offset 136: truncated
}

func ExampleWriter() {
	var out bytes.Buffer
	writer := capkit.NewWriter(&out, capkit.PcapNanoseconds)
	packet := capkit.Packet{Time: time.Unix(1700000000, 1), LinkType: capkit.LinkEthernet, Data: arp()}
	fmt.Println(writer.Write(packet))
	packet.LinkType = capkit.LinkRaw
	fmt.Println(writer.Write(packet))
	fmt.Println(writer.Close(), out.Len())
	// Output:
	// <nil>
	// link types differ
	// <nil> 82
}
