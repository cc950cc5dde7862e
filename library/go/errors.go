package capkit

import "fmt"

// Code is a number that a call returned, of which each has one meaning. It is an error, so that
// errors.Is(err, capkit.ErrTruncated) shows the cause of an error.
type Code uint32

// What an expression is refused for, the rules of programs, and the checks of captures and of packets
// that are written, as capkit.h has them.
const (
	// tools/library_numbers.py writes these from capkit.h.

	ErrTooLong                Code = 1
	ErrUnknownCharacter       Code = 2
	ErrUnknownWord            Code = 3
	ErrNumberTooLarge         Code = 4
	ErrNotAnExpression        Code = 5
	ErrNestedTooDeep          Code = 6
	ErrQualifiersDoNotFit     Code = 7
	ErrValueOutOfRange        Code = 8
	ErrBitsPastMask           Code = 9
	ErrDivisionByZero         Code = 10
	ErrTooManyWords           Code = 11
	ErrProgramTooLong         Code = 12
	ErrNoMemory               Code = 13
	ErrNotUTF8                Code = 14
	ErrLinkType               Code = 15
	ErrNotAListing            Code = 17
	ErrEmpty                  Code = 101
	ErrTooMany                Code = 102
	ErrUnknownCode            Code = 103
	ErrJumpOut                Code = 104
	ErrNoSuchWord             Code = 105
	ErrDivisionByZeroConstant Code = 106
	ErrShiftTooFar            Code = 107
	ErrNoReturn               Code = 108

	ErrNotACaptureFile         Code = 201
	ErrTruncated               Code = 202
	ErrBadVersion              Code = 203
	ErrUnitTooLong             Code = 204
	ErrBadBlockLength          Code = 205
	ErrBadByteOrderMagic       Code = 206
	ErrUnknownInterface        Code = 207
	ErrBadOption               Code = 208
	ErrBadBody                 Code = 209
	ErrTimeOutOfRange          Code = 210
	ErrTooManyInterfaces       Code = 211
	ErrBadTimeResolution       Code = 212
	ErrBadLinkTypeField        Code = 213
	ErrObsoletePacketBlock     Code = 214
	ErrLinkTypesDiffer         Code = 218
	ErrTooManyOutputInterfaces Code = 221
)

func (c Code) Error() string { return text(uint32(c)) }

// CompileError is why an expression isn't compiled.
type CompileError struct {
	Code  Code
	Place int // where in the text the fault is, in bytes from 1; 0 if it has no place
}

func (e *CompileError) Error() string {
	if e.Place == 0 {
		return e.Code.Error()
	}
	return fmt.Sprintf("%s (at byte %d)", e.Code, e.Place)
}

// Unwrap is the code.
func (e *CompileError) Unwrap() error { return e.Code }

// ProgramError is the first rule that instructions break.
type ProgramError struct {
	Code  Code
	Index int // that of the instruction, from 0
}

func (e *ProgramError) Error() string { return fmt.Sprintf("%s (instruction %d)", e.Code, e.Index) }

// Unwrap is the code.
func (e *ProgramError) Unwrap() error { return e.Code }

// ListingError is the first wrong line of a text that isn't a listing, from 1.
type ListingError struct{ Line int }

func (e *ListingError) Error() string { return fmt.Sprintf("%s (at line %d)", ErrNotAListing, e.Line) }

// Unwrap is ErrNotAListing.
func (e *ListingError) Unwrap() error { return ErrNotAListing }

// CaptureError is the offset at which a capture ends with a fault, and the check that the unit there fails.
type CaptureError struct {
	Code   Code
	Offset int64
}

func (e *CaptureError) Error() string { return fmt.Sprintf("offset %d: %s", e.Offset, e.Code) }

// Unwrap is the code.
func (e *CaptureError) Unwrap() error { return e.Code }

// WriteError is why the format can't hold a packet. Nothing of it was written.
type WriteError struct{ Code Code }

func (e *WriteError) Error() string { return e.Code.Error() }

// Unwrap is the code.
func (e *WriteError) Unwrap() error { return e.Code }
