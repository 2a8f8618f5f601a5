package rumstrait

// #include <rumstrait.h>
import "C"

// MessageText returns a message in the layout of dig: its header, its OPT record, and the records of its sections.
func MessageText(message []byte) (string, error) {
	start, size := front(message)
	text, code := bytesOf(func(out *C.uint8_t, room C.size_t, written *C.size_t) C.int32_t {
		return C.rumstrait_message_text(start, size, out, room, written)
	})
	return string(text), refusal(code)
}

// EncodeAgain decodes a message, and returns the bytes that it is encoded as, with names compressed (RFC 1035 section 4.1.4).
// Records that would pass 65,535 bytes are left out.
func EncodeAgain(message []byte) ([]byte, error) {
	start, size := front(message)
	again, code := bytesOf(func(out *C.uint8_t, room C.size_t, written *C.size_t) C.int32_t {
		return C.rumstrait_message_encode(start, size, out, room, written)
	})
	return again, refusal(code)
}

// Question is what a query asks for, in the class IN.
type Question struct {
	ID   uint16
	Name string
	// Type is the number of the type.
	Type uint16
	// RecursionDesired is the bit RD (RFC 1035 section 4.1.1).
	RecursionDesired bool
	// UseEDNS says whether the query has an OPT record (RFC 6891), which offers 1,232 bytes.
	UseEDNS bool
}

// Query returns the bytes of the query of a question.
func (question Question) Query() ([]byte, error) {
	start, size := front([]byte(question.Name))
	query, code := bytesOf(func(out *C.uint8_t, room C.size_t, written *C.size_t) C.int32_t {
		return C.rumstrait_question(C.uint16_t(question.ID), start, size, C.uint16_t(question.Type),
			C.bool(question.RecursionDesired), C.bool(question.UseEDNS), out, room, written)
	})
	return query, refusal(code)
}
