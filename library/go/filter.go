package capkit

// #include <capkit.h>
import "C"

import (
	"errors"
	"sync"
)

// Instruction is an instruction of a program, with the codes of classic BPF.
type Instruction struct {
	Code   uint16
	JT, JF uint8
	K      uint32
}

// Step is what a run is before one of its instructions.
type Step struct {
	Index  int // that of the instruction, from 0
	A, X   uint32
	Memory [16]uint32
}

// Filter is the program of an expression for packets of one link type. Compile and FromInstructions
// make one, and its program is valid. Nothing changes it, so goroutines may share one.
type Filter struct{ insns []C.struct_capkit_insn }

// bound is how many instructions an expression's program has at most.
func bound(source []byte) (C.size_t, error) {
	var number C.size_t
	status := C.capkit_bound((*C.char)(start(source)), C.size_t(len(source)), &number)
	return number, compileError(status, number)
}

// compileError is why an expression isn't compiled; nil if it is.
func compileError(status C.enum_capkit_status, number C.size_t) error {
	place := 0
	switch status {
	case C.CAPKIT_OK:
		return nil
	case C.CAPKIT_UNKNOWN_CHARACTER, C.CAPKIT_UNKNOWN_WORD, C.CAPKIT_NUMBER_TOO_LARGE, C.CAPKIT_NOT_UTF8:
		place = int(number)
	}
	return &CompileError{Code(status), place}
}

// Compile compiles an expression for packets of a link type. Its error is a *CompileError.
func Compile(expression string, linkType uint16) (*Filter, error) {
	source := []byte(expression)
	room, err := bound(source)
	if err != nil {
		return nil, err
	}
	var number C.size_t
	insns := make([]C.struct_capkit_insn, room)
	status := C.capkit_compile((*C.char)(start(source)), C.size_t(len(source)),
		C.uint16_t(linkType), &insns[0], room, &number)
	if err := compileError(status, number); err != nil {
		return nil, err
	}
	return &Filter{insns[:number]}, nil
}

// Explain is what an expression means, as an expression: in parentheses by its tree, with every
// qualifier written out. Its error is a *CompileError.
func Explain(expression string) (string, error) {
	source := []byte(expression)
	length, err := explainInto(source, nil)
	if err != nil {
		return "", err
	}
	buffer := make([]byte, length+1) // for a NUL
	if _, err := explainInto(source, buffer); err != nil {
		return "", err
	}
	return string(buffer[:length]), nil
}

// explainInto puts what an expression means into a buffer, as far as there is room; the length of the
// whole.
func explainInto(source, buffer []byte) (int, error) {
	var number C.size_t
	status := C.capkit_explain((*C.char)(start(source)), C.size_t(len(source)), (*C.char)(start(buffer)),
		C.size_t(len(buffer)), &number)
	return int(number), compileError(status, number)
}

// FromInstructions is a program from elsewhere. Its error is a *ProgramError.
func FromInstructions(instructions []Instruction) (*Filter, error) {
	insns := make([]C.struct_capkit_insn, len(instructions)+1)
	for i, it := range instructions {
		insns[i] = C.struct_capkit_insn{C.uint16_t(it.Code), C.uint8_t(it.JT), C.uint8_t(it.JF), C.uint32_t(it.K)}
	}
	return checked(insns, len(instructions))
}

// FromListing is the program of a listing, as capkit compile and tcpdump -ddd print it. Its error is a
// *ListingError, or a *ProgramError if the instructions aren't a valid program.
func FromListing(listing string) (*Filter, error) {
	source := []byte(listing)
	var number C.size_t
	insns := make([]C.struct_capkit_insn, C.CAPKIT_MOST_INSNS+1)
	status := C.capkit_read_listing((*C.char)(start(source)), C.size_t(len(source)), &insns[0],
		C.CAPKIT_MOST_INSNS, &number)
	switch status {
	case C.CAPKIT_OK:
		return checked(append([]C.struct_capkit_insn(nil), insns[:number+1]...), int(number))
	case C.CAPKIT_NOT_A_LISTING:
		return nil, &ListingError{int(number)}
	}
	panic("capkit: out of memory")
}

// checked is the filter of the first `count` instructions; the slice has at least one more.
func checked(insns []C.struct_capkit_insn, count int) (*Filter, error) {
	var index C.size_t
	rule := C.capkit_check(&insns[0], C.size_t(count), &index)
	if rule != C.CAPKIT_VALID {
		return nil, &ProgramError{Code(rule), int(index)}
	}
	return &Filter{insns[:count]}, nil
}

// all is the program. A Filter that was neither compiled nor checked rejects every packet.
func (f *Filter) all() []C.struct_capkit_insn {
	if len(f.insns) == 0 {
		return []C.struct_capkit_insn{{code: 6}}
	}
	return f.insns
}

// program returns a pointer to the instructions, and their number.
func (f *Filter) program() (*C.struct_capkit_insn, C.size_t) {
	insns := f.all()
	return &insns[0], C.size_t(len(insns))
}

// Run is what the program returns on a packet, given the bytes that were captured of it and how many
// it had on the wire; 0 rejects it.
func (f *Filter) Run(data []byte, originalLength uint32) uint32 {
	insns, count := f.program()
	return uint32(C.capkit_matches(insns, count, (*C.uint8_t)(start(data)), C.size_t(len(data)),
		C.uint32_t(originalLength)))
}

// Trace is what a run on a packet is before each instruction that it meets; see Run.
func (f *Filter) Trace(data []byte, originalLength uint32) []Step {
	insns, count := f.program()
	found := make([]C.struct_capkit_step, count)
	steps := make([]Step, C.capkit_trace(insns, count, (*C.uint8_t)(start(data)), C.size_t(len(data)),
		C.uint32_t(originalLength), &found[0], count))
	for i := range steps {
		steps[i] = Step{Index: int(found[i].index), A: uint32(found[i].a), X: uint32(found[i].x)}
		for word, number := range found[i].memory {
			steps[i].Memory[word] = uint32(number)
		}
	}
	return steps
}

// Text is an instruction of the program as tcpdump -d prints it, by its index.
func (f *Filter) Text(index int) string {
	var buffer [96]C.char
	C.capkit_insn_text(&f.all()[index], C.uint32_t(index), &buffer[0], C.size_t(len(buffer)))
	return C.GoString(&buffer[0])
}

// Matches is whether a packet matches; see Run.
func (f *Filter) Matches(data []byte, originalLength uint32) bool {
	return f.Run(data, originalLength) != 0
}

// Instructions is the program.
func (f *Filter) Instructions() []Instruction {
	var instructions []Instruction
	for _, it := range f.all() {
		instructions = append(instructions, Instruction{uint16(it.code), uint8(it.jt), uint8(it.jf), uint32(it.k)})
	}
	return instructions
}

// RunsOn is where else the program gives the same answers, as far as capkit_portability can say: on
// libpcap, and on a Linux socket.
func (f *Filter) RunsOn() (libpcap, linux bool) {
	insns, count := f.program()
	bits := C.capkit_portability(insns, count)
	return bits&C.CAPKIT_ON_LIBPCAP != 0, bits&C.CAPKIT_ON_LINUX != 0
}

// IsPortable is whether libpcap and a Linux socket give the same answers.
func (f *Filter) IsPortable() bool {
	libpcap, linux := f.RunsOn()
	return libpcap && linux
}

// String is the program as capkit compile and tcpdump -ddd print it.
func (f *Filter) String() string {
	buffer := make([]byte, f.listingInto(nil)+1) // for a NUL
	return string(buffer[:f.listingInto(buffer)])
}

// listingInto puts the listing into a buffer, as far as there is room; the length of the whole. It
// panics if memory runs out, as Go does.
func (f *Filter) listingInto(buffer []byte) int {
	var length C.size_t
	insns, count := f.program()
	if C.capkit_write_listing(insns, count, (*C.char)(start(buffer)), C.size_t(len(buffer)), &length) != C.CAPKIT_OK {
		panic("capkit: out of memory")
	}
	return int(length)
}

// Expression is an expression that is compiled for each link type when a packet has it first. Goroutines
// may share one.
type Expression struct {
	text    string
	filters sync.Map // from link types to what they are compiled to
}

// compiled is the filter of an expression for a link type, or why there is none.
type compiled struct {
	filter *Filter
	err    error
}

// NewExpression checks an expression, which needs no link type. Its error is a *CompileError.
func NewExpression(text string) (*Expression, error) {
	if _, err := bound([]byte(text)); err != nil {
		return nil, err
	}
	return &Expression{text: text}, nil
}

// String is the text of the expression.
func (e *Expression) String() string { return e.text }

// Filter is the expression's filter for a link type. Its error is a *CompileError.
func (e *Expression) Filter(linkType uint16) (*Filter, error) {
	known, isKnown := e.filters.Load(linkType)
	if !isKnown {
		filter, err := Compile(e.text, linkType)
		if errors.Is(err, ErrNoMemory) {
			return nil, err
		}
		known, _ = e.filters.LoadOrStore(linkType, compiled{filter, err})
	}
	it := known.(compiled)
	return it.filter, it.err
}

// Matches returns whether a packet matches, or an error if expressions can't be compiled for its link type.
func (e *Expression) Matches(packet Packet) (bool, error) {
	filter, err := e.Filter(packet.LinkType)
	return err == nil && filter.Matches(packet.Data, packet.original()), err
}
