package capkit

// #include "put.h"
import "C"

import (
	"io"
	"math"
	"os"
	"time"
)

// Format is how a capture is written.
type Format int

// Pcap cuts times to microseconds. Both forms of pcap keep neither comments nor names of interfaces.
const (
	Pcapng Format = iota
	Pcap
	PcapNanoseconds
)

const (
	// mostUnits is how many bytes the units of a packet have at most: a section, an interface, and its own.
	mostUnits = C.CAPKIT_SECTION_SIZE + C.CAPKIT_MOST_INTERFACE_SIZE + C.CAPKIT_MOST_UNIT
	// besides is how many of these aren't its own bytes and comment.
	besides = C.CAPKIT_SECTION_SIZE + C.CAPKIT_MOST_INTERFACE_SIZE + 64
	// mostGathered is how many packets are gathered at most, and enoughGathered after how many bytes none is added.
	mostGathered, enoughGathered = 512, 1 << 16
	// mostInterfaces is how many interfaces a pcapng file has at most, and late when times begin that not every
	// format has, in nanoseconds since 1970.
	mostInterfaces, late = 4096, 1 << 32 * uint64(time.Second)
)

// Writer writes packets to a capture, the same bytes as capkit(1) writes. It gathers packets, so its last ones
// are written by Close, or by Flush. It is for one goroutine at a time.
type Writer struct {
	out        io.Writer
	isBegun    bool   // whether something was written
	written    uint64 // how many packets the output has
	state      C.struct_put_writer
	interfaces []C.struct_capkit_interface // that are written of a pcapng file
	gathered   [mostGathered]C.struct_put_packet
	count      int      // how many there are,
	bytes      []byte   // what they have, one after another,
	number     C.size_t // and how many of them a call put
	buffer     []byte   // where their units are
	failure    error
}

// NewWriter writes nothing yet: the file's header is written with the first packets. Up to 512 packets, or
// 64 KiB, are one call of out.Write, so out needs no buffer of its own.
func NewWriter(out io.Writer, format Format) *Writer {
	w := &Writer{out: out}
	switch format {
	case Pcapng:
		w.state.is_pcapng = 1
	case Pcap:
	case PcapNanoseconds:
		w.state.nanoseconds = 1
	default:
		w.failure = os.ErrInvalid
	}
	if out == nil {
		w.failure = os.ErrInvalid
	}
	return w
}

// Write appends a packet, whose bytes may be changed after it. A *WriteError is why the format can't hold it:
// nothing of it is written, and other packets can be. Any other error is that of the output, which every later
// call has too; it may be of a call for packets before this one. After Close it is os.ErrClosed. A pcap file has
// packets of one link type, a pcapng file at most 4,096 interfaces (link type, snap length and name), of which
// a Reader reads the first 256.
func (w *Writer) Write(packet Packet) error {
	if w.failure != nil {
		return w.failure
	}
	when := nanoseconds(packet.Time)
	if !w.surelyHolds(&packet, when) {
		return w.writeAlone(&packet, when)
	}
	w.add(&packet, when)
	w.bytes = append(w.bytes, packet.Data...)
	if packet.InterfaceName != "" || packet.Comment != "" {
		w.bytes = append(append(w.bytes, packet.InterfaceName...), packet.Comment...)
	}
	if w.count == mostGathered || len(w.bytes) >= enoughGathered {
		return w.Flush()
	}
	return nil
}

// Flush writes the packets that were gathered. It doesn't flush the output. Its error is that of the output,
// which then has the packets that Written counts, and of the bytes after them as many as it took.
func (w *Writer) Flush() error {
	if w.failure != nil || w.count == 0 {
		return w.failure
	}
	w.makeRoom(w.count, len(w.bytes))
	put := C.put_packets(&w.state, &w.interfaces[0], C.size_t(len(w.interfaces)), &w.gathered[0],
		C.size_t(w.count), (*C.uint8_t)(start(w.bytes)), (*C.uint8_t)(start(w.buffer)),
		C.size_t(len(w.buffer)), &w.number)
	w.count, w.bytes = 0, w.bytes[:0]
	w.send()
	if w.failure == nil && put != C.CAPKIT_WRITTEN {
		w.failure = &WriteError{Code(put)}
	}
	return w.failure
}

// Written is how many packets the output has, whole and in the order of the calls.
func (w *Writer) Written() uint64 { return w.written }

// Close is Flush, and writes the file's header if there was no packet. It neither flushes nor closes the
// output.
func (w *Writer) Close() error {
	if w.failure == os.ErrClosed {
		return nil
	}
	if w.Flush() == nil && !w.isBegun {
		w.makeRoom(1, 0)
		w.sendBytes(int(C.put_header(&w.state, (*C.uint8_t)(start(w.buffer)), C.size_t(len(w.buffer)))))
	}
	if w.failure != nil {
		return w.failure
	}
	w.failure = os.ErrClosed
	return nil
}

// surelyHolds is whether no call can refuse a packet, as capkit.h has the reasons, so that it can be gathered.
// Every other packet is written by a call of its own, which has its error.
func (w *Writer) surelyHolds(packet *Packet, when uint64) bool {
	if len(packet.Data)+len(packet.Comment) > math.MaxUint16 || len(packet.InterfaceName) > math.MaxUint8 || when >= late {
		return false
	}
	if w.state.is_pcapng != 0 {
		return w.state.pcapng.interfaces <= mostInterfaces-mostGathered
	}
	return w.state.has_header != 0 && w.state.link_type == C.uint16_t(packet.LinkType)
}

// writeAlone writes a packet after those that were gathered.
func (w *Writer) writeAlone(packet *Packet, when uint64) error {
	if w.Flush() != nil {
		return w.failure
	}
	w.add(packet, when)
	w.count = 0
	w.makeRoom(1, len(packet.Data)+len(packet.Comment))
	put := C.put_packet(&w.state, &w.interfaces[0], C.size_t(len(w.interfaces)), &w.gathered[0],
		(*C.uint8_t)(start(packet.Data)), packet.InterfaceName, packet.Comment,
		(*C.uint8_t)(start(w.buffer)), C.size_t(len(w.buffer)))
	if put != C.CAPKIT_WRITTEN {
		return &WriteError{Code(put)}
	}
	w.number = 1
	return w.send()
}

// add adds what counts of a packet besides its bytes and texts.
func (w *Writer) add(packet *Packet, when uint64) {
	it := &w.gathered[w.count]
	w.count++
	it.time, it.captured, it.original = C.uint64_t(when), C.size_t(len(packet.Data)), C.uint32_t(packet.original())
	it.name_length, it.comment_length = C.size_t(len(packet.InterfaceName)), C.size_t(len(packet.Comment))
	it.snap, it.link_type = C.uint32_t(packet.SnapLength), C.uint16_t(packet.LinkType)
}

// nanoseconds is a time since 1970, or one that is refused.
func nanoseconds(it time.Time) uint64 {
	since := it.UnixNano() // which wraps around
	if since < 0 || it.Unix() != since/int64(time.Second) {
		return math.MaxUint64
	}
	return uint64(since)
}

// makeRoom makes room for the interfaces and the units of packets.
func (w *Writer) makeRoom(count, length int) {
	interfaces := 1 // a pcap file has none, and a call the address of one
	if w.state.is_pcapng != 0 {
		interfaces = int(w.state.pcapng.interfaces) + count
	}
	if more := interfaces - len(w.interfaces); more > 0 {
		w.interfaces = append(w.interfaces, make([]C.struct_capkit_interface, more)...)
	}
	room := length + count*besides
	if room > mostUnits {
		room = mostUnits
	}
	if len(w.buffer) < room {
		w.buffer = make([]byte, room)
	}
}

// send writes the units of the packets that a call put.
func (w *Writer) send() error {
	if w.number == 0 {
		return nil
	}
	taken := w.sendBytes(int(w.gathered[w.number-1].end))
	for i := range w.gathered[:w.number] {
		if int(w.gathered[i].end) <= taken {
			w.written++
		}
	}
	return w.failure
}

// sendBytes writes the first bytes of the buffer, and returns how many of them the output took.
func (w *Writer) sendBytes(length int) int {
	if w.out == nil {
		w.failure = os.ErrInvalid
		return 0
	}
	w.isBegun, w.failure = true, io.ErrShortWrite // if it panics
	taken, err := w.out.Write(w.buffer[:length])
	if err == nil && taken != length {
		err = io.ErrShortWrite
	}
	w.failure = err
	return taken
}
