package rumstrait

// #include <rumstrait.h>
import "C"

import (
	"runtime"
	"sync"
)

// typeAny is the type that an item of a name alone has, and which the library ignores (RFC 1035 section 3.2.3).
const typeAny = 255

// Update is an update of a zone (RFC 2136): prerequisites, all of which must hold, and changes, which are made in their order.
//
// Types are passed by their numbers. Data is a text as in a zone file, such as "10 mail", whose relative names end in the zone's
// name. A call that is refused leaves the update as it was.
type Update struct {
	mutex  sync.Mutex
	handle *C.rumstrait_update
}

// NewUpdate makes an update of the zone with a name, of the class IN, without prerequisites and changes.
func NewUpdate(zone string) (*Update, error) {
	var handle *C.rumstrait_update
	start, size := front([]byte(zone))
	if code := C.rumstrait_update_new(start, size, &handle); code != C.RUMSTRAIT_OK {
		return nil, refusal(code)
	}
	update := &Update{handle: handle}
	runtime.SetFinalizer(update, (*Update).Close)
	return update, nil
}

// RequireName requires that a name has records, else the server answers NXDOMAIN.
func (update *Update) RequireName(name string) error {
	return update.add(C.RUMSTRAIT_REQUIRE_NAME, name, typeAny, 0, "")
}

// ForbidName requires that a name has no records, else the server answers YXDOMAIN.
func (update *Update) ForbidName(name string) error {
	return update.add(C.RUMSTRAIT_FORBID_NAME, name, typeAny, 0, "")
}

// RequireSet requires that a name has records of a type, else the server answers NXRRSET.
func (update *Update) RequireSet(name string, recordType uint16) error {
	return update.add(C.RUMSTRAIT_REQUIRE_SET, name, recordType, 0, "")
}

// ForbidSet requires that a name has no records of a type, else the server answers YXRRSET.
func (update *Update) ForbidSet(name string, recordType uint16) error {
	return update.add(C.RUMSTRAIT_FORBID_SET, name, recordType, 0, "")
}

// RequireRecord requires that a name has a record, and no others of its type but those that are required, else the server answers
// NXRRSET.
func (update *Update) RequireRecord(name string, recordType uint16, data string) error {
	return update.add(C.RUMSTRAIT_REQUIRE_RECORD, name, recordType, 0, data)
}

// Add adds a record, with a TTL in seconds.
func (update *Update) Add(name string, ttl uint32, recordType uint16, data string) error {
	return update.add(C.RUMSTRAIT_ADD_RECORD, name, recordType, ttl, data)
}

// DeleteRecord deletes a record.
func (update *Update) DeleteRecord(name string, recordType uint16, data string) error {
	return update.add(C.RUMSTRAIT_DELETE_RECORD, name, recordType, 0, data)
}

// DeleteSet deletes the records of a name and a type.
func (update *Update) DeleteSet(name string, recordType uint16) error {
	return update.add(C.RUMSTRAIT_DELETE_SET, name, recordType, 0, "")
}

// DeleteName deletes all records of a name.
func (update *Update) DeleteName(name string) error {
	return update.add(C.RUMSTRAIT_DELETE_NAME, name, typeAny, 0, "")
}

func (update *Update) add(item C.uint32_t, name string, recordType uint16, ttl uint32, data string) error {
	update.mutex.Lock()
	defer update.mutex.Unlock()
	if update.handle == nil {
		return ErrClosed
	}
	nameStart, nameLen := front([]byte(name))
	dataStart, dataLen := front([]byte(data))
	return refusal(C.rumstrait_update_item(update.handle, item, nameStart, nameLen, C.uint16_t(recordType), C.uint32_t(ttl),
		dataStart, dataLen))
}

// Bytes returns the message of the update, with an id.
func (update *Update) Bytes(id uint16) ([]byte, error) {
	update.mutex.Lock()
	defer update.mutex.Unlock()
	if update.handle == nil {
		return nil, ErrClosed
	}
	message, code := bytesOf(func(out *C.uint8_t, room C.size_t, size *C.size_t) C.int32_t {
		return C.rumstrait_update_bytes(update.handle, C.uint16_t(id), out, room, size)
	})
	return message, refusal(code)
}

// Close frees the update. It returns nil, and may be called again.
func (update *Update) Close() error {
	update.mutex.Lock()
	defer update.mutex.Unlock()
	if update.handle != nil {
		C.rumstrait_update_free(update.handle)
		update.handle = nil
	}
	return nil
}
