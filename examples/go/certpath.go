package main

// #cgo CFLAGS: -I${SRCDIR}/../../include
// #cgo LDFLAGS: ${SRCDIR}/../../dist/libcertpath.a
// #include "certpath.h"
import "C"

import (
	"fmt"
	"unsafe"
)

// Refused is the status of a call that is refused.
type Refused int32

func (status Refused) Error() string {
	return fmt.Sprintf("certpath refuses a call, status %d", int32(status))
}

// at gives the address of the first octet, and nil of no octets.
func at(octets []byte) *C.uint8_t {
	if len(octets) == 0 {
		return nil
	}
	return (*C.uint8_t)(unsafe.Pointer(&octets[0]))
}

// Load gives the certificates and revocation lists of a file of PEM, DER or PKCS #7, as DER items
// one after another, and how many things are left out of it.
func Load(file []byte) ([]byte, int, error) {
	items, left := make([]byte, len(file)), make([]C.certpath_left_out, 16)
	for {
		var loaded C.certpath_loaded
		status := C.certpath_load(at(file), C.size_t(len(file)), at(items), C.size_t(len(items)),
			&left[0], C.size_t(len(left)), &loaded)
		switch status {
		case C.CERTPATH_DONE:
			return items[:loaded.length], int(loaded.left), nil
		case C.CERTPATH_TOO_SMALL:
			items, left = make([]byte, loaded.length), make([]C.certpath_left_out, loaded.left+1)
		default:
			return nil, 0, Refused(status)
		}
	}
}

// Frame cuts octets into items.
func Frame(octets []byte) ([][]byte, error) {
	var framed C.certpath_framed
	status := C.certpath_frame(at(octets), C.size_t(len(octets)), C.CERTPATH_LIMIT, nil, 0, &framed)
	if status == C.CERTPATH_DONE {
		return nil, nil
	}
	if status != C.CERTPATH_TOO_SMALL {
		return nil, Refused(status)
	}
	spans := make([]C.certpath_span, framed.count)
	status = C.certpath_frame(at(octets), C.size_t(len(octets)), C.CERTPATH_LIMIT, &spans[0],
		C.size_t(len(spans)), &framed)
	if status != C.CERTPATH_DONE {
		return nil, Refused(status)
	}
	items := make([][]byte, len(spans))
	for k, span := range spans {
		items[k] = octets[span.offset : span.offset+span.length]
	}
	return items, nil
}

// Item is what an item is and holds.
type Item struct {
	IsCertificate, IsList bool
	Issuer, Subject, Key  []byte
	Year, Month, Day      int
}

// Read reads an item.
func Read(octets []byte) (Item, error) {
	var contents C.certpath_contents
	fields := make([]byte, len(octets))
	status := C.certpath_item(at(octets), C.size_t(len(octets)), at(fields), C.size_t(len(fields)),
		&contents)
	if status != C.CERTPATH_DONE {
		return Item{}, Refused(status)
	}
	issuer := contents.issuer.length
	subject := issuer + contents.subject.length
	first := contents.validity.first
	return Item{
		IsCertificate: contents.item_class == C.CERTPATH_CERTIFICATE,
		IsList:        contents.item_class == C.CERTPATH_LIST,
		Issuer:        fields[:issuer],
		Subject:       fields[issuer:subject],
		Key:           fields[subject : subject+contents.key.length],
		Year:          int(first.year), Month: int(first.month), Day: int(first.day),
	}, nil
}

// Name gives the text of a name, with the values as they are in it: escape it before it is shown.
func Name(octets []byte) (string, error) {
	var size C.size_t
	text := make([]byte, 512)
	for {
		status := C.certpath_name(at(octets), C.size_t(len(octets)), at(text), C.size_t(len(text)),
			&size)
		switch status {
		case C.CERTPATH_DONE:
			return string(text[:size]), nil
		case C.CERTPATH_TOO_SMALL:
			text = make([]byte, size)
		default:
			return "", Refused(status)
		}
	}
}
