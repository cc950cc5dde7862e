package capkit

// #include "batch.h"
import "C"

import (
	"errors"
	"io"
	"os"
	"strings"
	"syscall"
	"time"
	"unsafe"
)

// Packet is a packet of a capture. Its bytes are its own. A packet that was read equals one that was made
// with the same fields: its time is in UTC, and its OriginalLength is always set.
type Packet struct {
	Time           time.Time // in nanoseconds, from 1970 on
	LinkType       uint16
	Data           []byte // the bytes that were captured
	OriginalLength uint32 // how many it had on the wire; 0 is as many as Data has, except with ZeroLength
	Comment        string // its first one; others aren't kept
	InterfaceName  string
	SnapLength     uint32 // the most bytes captured of a packet of its interface; 0: no limit
	ZeroLength     bool   // it had 0 bytes on the wire, though Data has some: an odd capture may state this
}

// original is how many bytes the packet had on the wire.
func (p *Packet) original() uint32 {
	if p.OriginalLength == 0 && !p.ZeroLength {
		return uint32(len(p.Data))
	}
	return p.OriginalLength
}

// Line is what capkit print prints of a packet, or with the link header capkit print -e, without its
// line feed.
func (p *Packet) Line(withLink bool) string {
	var buffer [256]C.char
	flag := C.uint32_t(0)
	if withLink {
		flag = 1
	}
	C.capkit_line(C.uint16_t(p.LinkType), C.uint64_t(p.Time.UnixNano()), C.uint32_t(p.original()),
		(*C.uint8_t)(start(p.Data)), C.size_t(len(p.Data)), flag, &buffer[0], C.size_t(len(buffer)))
	return strings.TrimSuffix(C.GoString(&buffer[0]), "\n")
}

// piece is how many bytes are read at once; what fits into a processor's cache is filtered faster.
const piece = 1 << 18

// mostEmptyReads is how often in a row a source may give no byte and no error, as in bufio.
const mostEmptyReads = 100

// Reader gives the packets of a capture, pcap or pcapng, one after another, each as soon as its bytes
// have come. It takes the memory of some units, however long the capture is. It is for one goroutine at a
// time.
type Reader struct {
	source     io.Reader
	file       *os.File // that Open opened
	err        error    // what every later call has
	ended      error    // what the source ended by, or failed by and Next hasn't told yet
	expression *Expression
	skips      bool   // whether what is refused is skipped,
	skipped    uint64 // and how much of it was
	base       int64  // the offset of the buffer in the capture
	size       int    // how many bytes of the buffer were read
	buffer     []byte
	reader     C.struct_capkit_reader
	table      [C.CAPKIT_MOST_INTERFACES]C.struct_capkit_interface
	batch      [128]C.struct_batch_packet // packets that were read, many by one call,
	count      C.size_t                   // how many there are,
	given      C.size_t                   // and how many of them Next gave,
	end        C.size_t                   // up to this place in the buffer
	linkType   uint16                     // that their filter is for
}

// NewReader reads a capture from its first packet on.
func NewReader(source io.Reader) *Reader {
	return &Reader{source: source, buffer: make([]byte, C.CAPKIT_MOST_UNIT+piece)}
}

// Open opens a capture, of any size.
func Open(name string) (*Reader, error) {
	file, err := os.Open(name)
	if err != nil {
		return nil, err
	}
	if status, err := file.Stat(); err == nil && status.IsDir() {
		file.Close()
		return nil, &os.PathError{Op: "read", Path: name, Err: syscall.EISDIR}
	}
	reader := NewReader(file)
	reader.file = file
	return reader, nil
}

// Close closes the file that Open opened. After it Next has os.ErrClosed.
func (r *Reader) Close() error {
	if r.err == os.ErrClosed {
		return nil
	}
	r.err = os.ErrClosed
	if r.file == nil {
		return nil
	}
	return r.file.Close()
}

// SetFilter makes Next return only the packets that match, from the next one on; nil means all.
func (r *Reader) SetFilter(expression *Expression) {
	r.expression, r.linkType = expression, LinkEthernet
	// What was read ahead is read again.
	r.reader.offset, r.count, r.given = r.end, 0, 0
}

// SkipRefused has Next go past what would end a capture that is otherwise sound, from the next packet on:
// a unit that is refused for its time, link type or options, and, with a filter, a packet of a link type for
// which no expression is compiled. Skipped counts both. No packet of a skipped interface has a time,
// so these packets are skipped in turn.
func (r *Reader) SkipRefused(skips bool) { r.skips = skips }

// Skipped is how many units and packets were left out so far; see SkipRefused.
func (r *Reader) Skipped() uint64 { return r.skipped }

// Next is the next packet. Its error is
//
//   - io.EOF at the clean end;
//   - a *CaptureError at a fault, which ends the capture;
//   - with a filter, a *CompileError if no expression is compiled for the packet's link type;
//   - os.ErrClosed after Close;
//   - or what the source failed by, after the packets before it, such as os.ErrDeadlineExceeded;
//     io.ErrNoProgress if it gave nothing 100 times in a row.
//
// After an error of the source the next call reads on from there: no packet is lost or comes twice. After
// each of the others every call has the same.
func (r *Reader) Next() (packet Packet, err error) {
	for r.err == nil {
		if r.given == r.count {
			if err = r.more(); err != nil {
				return packet, err
			}
			continue
		}
		found := &r.batch[r.given]
		r.given, r.end = r.given+1, found.end
		if r.isWanted(&found.packet) {
			r.copyTo(&packet, &found.packet)
			return packet, nil
		}
	}
	return packet, r.err
}

// isWanted is whether a packet of the batch matches. Its program was run if it is for its link type.
func (r *Reader) isWanted(found *C.struct_capkit_packet) bool {
	linkType := uint16(found.link_type)
	if r.expression == nil || linkType == r.linkType {
		return true
	}
	filter, err := r.expression.Filter(linkType)
	switch {
	case err == nil:
		return filter.Matches(r.buffer[found.at:][:found.captured], uint32(found.original))
	case r.skips && errors.Is(err, ErrLinkType):
		r.skipped++
	default:
		r.err = err
	}
	return false
}

// more reads the next packets, or reads on from the source. It sets what every later call has, and returns
// what this one has of the source.
func (r *Reader) more() (err error) {
	if r.source == nil {
		r.err = os.ErrInvalid
		return nil
	}
	result := r.next()
	if r.count > 0 || r.err != nil {
		return nil
	}
	missing := result
	if r.skips {
		missing = r.skip()
	}
	r.end = r.reader.offset
	rest := r.size - int(r.end)
	isShort := missing == C.CAPKIT_END || missing == C.CAPKIT_TRUNCATED ||
		missing == C.CAPKIT_NOT_A_CAPTURE_FILE && rest < 4
	switch {
	case missing == C.CAPKIT_SKIPPED:
		r.skipped++
	case isShort && r.ended == nil:
		return r.fill(rest)
	case isShort && r.ended != io.EOF:
		err, r.ended = r.ended, nil
	case result == C.CAPKIT_END:
		r.err = io.EOF
	default:
		r.err = &CaptureError{Code(result), r.Offset()}
	}
	return err
}

// skip goes past the unit at the reader's place, if it is refused and can be skipped.
func (r *Reader) skip() C.uint32_t {
	return C.uint32_t(C.capkit_skip(&r.reader, &r.table[0], C.CAPKIT_MOST_INTERFACES,
		(*C.uint8_t)(start(r.buffer)), C.size_t(r.size)))
}

// next reads the next packets by one call, only those that match. Their filter is for the link
// type of the packet before them.
func (r *Reader) next() C.uint32_t {
	insns, count := (*C.struct_capkit_insn)(nil), C.size_t(0)
	if r.expression != nil {
		filter, err := r.filter()
		if err != nil {
			r.err = err
			return 0
		}
		insns, count = filter.program()
	}
	r.given = 0
	return C.batch_next(&r.reader, &r.table[0], (*C.uint8_t)(start(r.buffer)), C.size_t(r.size),
		insns, count, C.uint16_t(r.linkType), &r.batch[0], C.size_t(len(r.batch)), &r.count)
}

// filter is that of the packet that was read last, if its link type has one.
func (r *Reader) filter() (*Filter, error) {
	if r.count > 0 {
		linkType := uint16(r.batch[r.count-1].packet.link_type)
		if filter, err := r.expression.Filter(linkType); err == nil {
			r.linkType = linkType
			return filter, nil
		}
	}
	return r.expression.Filter(r.linkType)
}

// fill moves the remaining bytes to the start of the buffer, and reads more after them.
func (r *Reader) fill(rest int) error {
	copy(r.buffer, r.buffer[r.reader.offset:r.size])
	r.base += int64(r.reader.offset)
	r.reader.offset, r.end, r.size = 0, 0, rest
	room := r.buffer[rest : rest+piece : rest+piece]
	for i := 0; i < mostEmptyReads; i++ {
		count, err := r.source.Read(room)
		if count != 0 || err != nil {
			// A count that the source can't have is a panic.
			r.size, r.ended = rest+len(room[:count]), err
			return nil
		}
	}
	return io.ErrNoProgress
}

// Offset is how far the capture was read, in bytes.
func (r *Reader) Offset() int64 {
	return r.base + int64(r.end)
}

// copyTo sets what was found of a packet.
func (r *Reader) copyTo(packet *Packet, found *C.struct_capkit_packet) {
	bytes := r.buffer[found.at:][:found.captured]
	data := make([]byte, len(bytes)) // in the form that Go doesn't clear first
	copy(data, bytes)
	packet.Data, packet.Time = data, time.Unix(0, int64(found.time)).UTC()
	packet.LinkType, packet.SnapLength = uint16(found.link_type), uint32(found.snap)
	packet.OriginalLength = uint32(found.original)
	packet.ZeroLength = found.original == 0 && found.captured > 0
	if found.options_length > 0 {
		packet.Comment = r.comment(found)
	}
	if found._interface < r.reader.interfaces {
		it := &r.table[found._interface]
		packet.InterfaceName = C.GoStringN(&it.name[0], C.int(it.name_length))
	}
}

func (r *Reader) comment(found *C.struct_capkit_packet) string {
	buffer := make([]byte, found.options_length)
	length := C.capkit_comment(&r.reader, (*C.uint8_t)(start(r.buffer)), C.size_t(r.size),
		found, (*C.char)(unsafe.Pointer(&buffer[0])), C.size_t(len(buffer)))
	return string(buffer[:length])
}
