// Package capkit compiles filter expressions of packets, and reads and writes pcap and pcapng
// captures, by the proved library libcapkit, which pkg-config finds.
//
// An Expression is checked once, and compiled for each link type that its packets have. A Reader gives
// the packets of a file or of any io.Reader, and a Writer writes packets:
//
//	expression, err := capkit.NewExpression("tcp port 80")
//	if err != nil {
//		log.Fatal(err) // what is wrong, and where in the text
//	}
//	reader := capkit.NewReader(os.Stdin) // or Open(name)
//	reader.SetFilter(expression)
//	for {
//		packet, err := reader.Next()
//		if err == io.EOF {
//			break
//		} else if err != nil {
//			log.Fatal(err)
//		}
//		fmt.Println(packet.Line(false), packet.Comment)
//	}
//
// Goroutines may share an Expression and a Filter. A Reader and a Writer are for one goroutine at a time;
// different ones may be used at once.
package capkit

// #cgo pkg-config: capkit
// #include <capkit.h>
import "C"

import "unsafe"

// Link types for which expressions are compiled, as captures have them.
const (
	LinkEthernet = 1
	LinkRaw      = 101
	LinkCooked   = 113
)

// start is where bytes begin in memory.
func start(bytes []byte) unsafe.Pointer {
	if len(bytes) == 0 {
		return nil
	}
	return unsafe.Pointer(&bytes[0])
}

// text is what a number is called.
func text(number uint32) string {
	var buffer [64]C.char
	C.capkit_text(C.uint32_t(number), &buffer[0], C.size_t(len(buffer)))
	return C.GoString(&buffer[0])
}
