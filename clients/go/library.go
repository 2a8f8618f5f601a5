package rumstrait

// #cgo pkg-config: rumstrait
// #include <rumstrait.h>
import "C"

import (
	"errors"
	"fmt"
	"unsafe"
)

// Why a call is refused. A refused call has changed nothing.
var (
	ErrOutOfMemory     = errors.New("rumstrait: out of memory")
	ErrInvalidLimit    = errors.New("rumstrait: a limit of less than 512 bytes")
	ErrInvalidEncoding = errors.New("rumstrait: the text is not UTF-8")
	ErrInvalidName     = errors.New("rumstrait: no domain name")
	ErrInvalidZone     = errors.New("rumstrait: not the zone file of a zone")
	ErrInvalidMessage  = errors.New("rumstrait: not a message")
	ErrTooLong         = errors.New("rumstrait: a message of more than 65,535 bytes")
	ErrInvalidUpdate   = errors.New("rumstrait: an item that no message can have")
	ErrInvalidData     = errors.New("rumstrait: not record data of the type")
	// ErrClosed is returned by a call for a zone or an update that is closed.
	ErrClosed = errors.New("rumstrait: closed")
)

var refusals = map[C.int32_t]error{
	C.RUMSTRAIT_OUT_OF_MEMORY:    ErrOutOfMemory,
	C.RUMSTRAIT_INVALID_LIMIT:    ErrInvalidLimit,
	C.RUMSTRAIT_INVALID_ENCODING: ErrInvalidEncoding,
	C.RUMSTRAIT_INVALID_NAME:     ErrInvalidName,
	C.RUMSTRAIT_INVALID_ZONE:     ErrInvalidZone,
	C.RUMSTRAIT_INVALID_MESSAGE:  ErrInvalidMessage,
	C.RUMSTRAIT_TOO_LONG:         ErrTooLong,
	C.RUMSTRAIT_INVALID_UPDATE:   ErrInvalidUpdate,
	C.RUMSTRAIT_INVALID_DATA:     ErrInvalidData,
}

// refusal returns the error of a code, which is nil for 0.
func refusal(code C.int32_t) error {
	if code == C.RUMSTRAIT_OK {
		return nil
	}
	if err, ok := refusals[code]; ok {
		return err
	}
	return fmt.Errorf("rumstrait: code %d", int(code))
}

// firstRoom is the room of the first call: most replies and texts fit it, and the call is made again for those that do not.
const firstRoom = 4096

// one is what an empty slice points to, since no pointer that the library is passed is null.
var one [1]byte

// front returns a pointer to the bytes of a slice, and their number.
func front(bytes []byte) (*C.uint8_t, C.size_t) {
	if len(bytes) == 0 {
		return (*C.uint8_t)(&one[0]), 0
	}
	return (*C.uint8_t)(unsafe.Pointer(&bytes[0])), C.size_t(len(bytes))
}

// bytesOf calls a function with as much room as it needs for the bytes that it writes, and returns them.
func bytesOf(call func(out *C.uint8_t, room C.size_t, size *C.size_t) C.int32_t) ([]byte, C.int32_t) {
	out := make([]byte, firstRoom)
	for {
		var size C.size_t
		start, room := front(out)
		code := call(start, room, &size)
		switch code {
		case C.RUMSTRAIT_OK:
			return out[:size], code
		case C.RUMSTRAIT_TOO_SMALL:
			out = make([]byte, size)
		default:
			return nil, code
		}
	}
}
