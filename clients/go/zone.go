package rumstrait

// #include <rumstrait.h>
import "C"

import (
	"runtime"
	"sync"
)

// Zone is a zone, and the server of it (RFC 1034, RFC 2136).
type Zone struct {
	mutex  sync.Mutex
	handle *C.rumstrait_zone
}

// NewZone makes a zone of a zone file (RFC 1035 section 5.1). The origin completes relative names and is the zone's. If it is
// empty, relative names end at the root, and the origin is the owner of the first SOA record.
func NewZone(text, origin string) (*Zone, error) {
	var handle *C.rumstrait_zone
	textStart, textLen := front([]byte(text))
	originStart, originLen := front([]byte(origin))
	if code := C.rumstrait_zone_new(textStart, textLen, originStart, originLen, &handle); code != C.RUMSTRAIT_OK {
		return nil, refusal(code)
	}
	zone := &Zone{handle: handle}
	runtime.SetFinalizer(zone, (*Zone).Close)
	return zone, nil
}

// ZoneFault says what is wrong in a text that NewZone refuses with ErrInvalidZone: a sentence on the first fault, and its line,
// from 1, or 0 if the fault is of no line. If nothing is wrong, the sentence is empty.
func ZoneFault(text, origin string) (sentence string, line int, err error) {
	textStart, textLen := front([]byte(text))
	originStart, originLen := front([]byte(origin))
	var number C.size_t
	found, code := bytesOf(func(out *C.uint8_t, room C.size_t, written *C.size_t) C.int32_t {
		return C.rumstrait_zone_fault(textStart, textLen, originStart, originLen, &number, out, room, written)
	})
	return string(found), int(number), refusal(code)
}

// Serve serves a request that came over a datagram, and returns its reply, which has at most limit bytes, and limit is at least
// 512. The reply is nil if the bytes do not decode or are a response. An update changes the zone if the response code of its reply
// is NOERROR.
func (zone *Zone) Serve(request []byte, limit uint16) ([]byte, error) {
	return zone.serve(request, C.RUMSTRAIT_DATAGRAM, limit)
}

// ServeStream serves a request that came over a stream, as Serve does.
func (zone *Zone) ServeStream(request []byte) ([]byte, error) {
	return zone.serve(request, C.RUMSTRAIT_STREAM, 0)
}

func (zone *Zone) serve(request []byte, transport C.uint32_t, limit uint16) ([]byte, error) {
	zone.mutex.Lock()
	defer zone.mutex.Unlock()
	if zone.handle == nil {
		return nil, ErrClosed
	}
	start, size := front(request)
	reply, code := bytesOf(func(out *C.uint8_t, room C.size_t, written *C.size_t) C.int32_t {
		return C.rumstrait_zone_serve(zone.handle, transport, C.uint16_t(limit), start, size, out, room, written)
	})
	if code == C.RUMSTRAIT_NO_REPLY {
		return nil, nil
	}
	return reply, refusal(code)
}

// Text returns the zone as a zone file, with each record on a line.
func (zone *Zone) Text() (string, error) {
	zone.mutex.Lock()
	defer zone.mutex.Unlock()
	if zone.handle == nil {
		return "", ErrClosed
	}
	text, code := bytesOf(func(out *C.uint8_t, room C.size_t, size *C.size_t) C.int32_t {
		return C.rumstrait_zone_text(zone.handle, out, room, size)
	})
	return string(text), refusal(code)
}

// Close frees the zone. It returns nil, and may be called again.
func (zone *Zone) Close() error {
	zone.mutex.Lock()
	defer zone.mutex.Unlock()
	if zone.handle != nil {
		C.rumstrait_zone_free(zone.handle)
		zone.handle = nil
	}
	return nil
}
