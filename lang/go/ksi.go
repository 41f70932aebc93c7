// Package ksi verifies signatures of Keyless Signatures' Infrastructure with the proved library libksi, which pkg-config finds. It
// passes slices to the library without copying them. ksi.h documents each field.
package ksi

/*
#cgo pkg-config: ksi
#include <ksi.h>
*/
import "C"

import (
	"fmt"
	"hash"
	"time"
	"unsafe"
)

// Statuses of an Answer.
const (
	Accepted  = C.KSI_ACCEPTED
	Refused   = C.KSI_REFUSED
	Malformed = C.KSI_MALFORMED
)

// Answer is the result of Verify and of CheckFront.
type Answer struct {
	Status, File, Code, Detail uint32
	Second                     uint64
	Numbers                    [4]uint64
	One, Other                 [32]byte
}

// Step is a link of a signature with both parts and their join.
type Step struct {
	Chain, Place, Size         uint64
	Calendar, Side, Level, Raw uint32
	Node, Join                 [32]byte
	Sibling                    [4096]byte
}

// Time is the signature's second. It has a meaning only if the signature is accepted.
func (a Answer) Time() time.Time { return time.Unix(int64(a.Second), 0).UTC() }

// Publication is the last second of a calendar, and the SHA-256 digest that is its root.
type Publication struct {
	Second uint64
	Root   [32]byte
}

// Publication is the publication that an accepted signature rests on. It has a meaning only if a signature is accepted.
func (a Answer) Publication() Publication { return Publication{a.Numbers[0], a.One} }

// String is the time of an accepted signature, or else the code as the program ksi prints it.
func (a Answer) String() string {
	switch {
	case a.Status == Accepted && a.Second == 0 && a.One == [32]byte{}:
		return "accepted"
	case a.Status == Accepted:
		return "accepted " + a.Time().Format(time.RFC3339)
	case a.File == C.KSI_FRONT && a.Status == Refused:
		return fmt.Sprintf("refused F%d", a.Code)
	case a.File == C.KSI_FRONT:
		return fmt.Sprintf("malformed front C%d", a.Code)
	case a.Status == Refused:
		return fmt.Sprintf("refused V%d", a.Code)
	case a.File == C.KSI_SIGNATURE:
		return fmt.Sprintf("malformed signature S%d", a.Code)
	}
	return fmt.Sprintf("malformed publications Q%d", a.Code)
}

// The loader may find a library that does not match the header.
func init() {
	if C.ksi_abi() != C.KSI_ABI {
		panic("libksi has another interface than this package")
	}
}

// Returns a pointer that is never null, even if there are no bytes.
func at(bytes []byte) *C.uint8_t {
	if len(bytes) == 0 {
		bytes = []byte{0}
	}
	return (*C.uint8_t)(unsafe.Pointer(&bytes[0]))
}

// Verify verifies a signature for the SHA-256 digest of a document, against a publications file.
func Verify(signature []byte, digest [32]byte, publications []byte) (a Answer) {
	C.ksi_verify(at(signature), C.size_t(len(signature)), at(digest[:]),
		at(publications), C.size_t(len(publications)), (*C.struct_ksi_answer)(unsafe.Pointer(&a)))
	return a
}

// Second returns the second that a signature states, before or after it is published, and whether the bytes are a signature.
// No check runs.
func Second(signature []byte) (second uint64, is bool) {
	status := C.ksi_second(at(signature), C.size_t(len(signature)), (*C.uint64_t)(unsafe.Pointer(&second)))
	return second, status == Accepted
}

// CheckFront checks a consistency proof (a front): that the calendar to the old publication is the beginning of that to the new one.
func CheckFront(front []byte, old, new Publication) (a Answer) {
	C.ksi_check_front(at(front), C.size_t(len(front)), C.uint64_t(old.Second), at(old.Root[:]), C.uint64_t(new.Second), at(new.Root[:]),
		(*C.struct_ksi_answer)(unsafe.Pointer(&a)))
	return a
}

// Digest returns the SHA-256 of bytes.
func Digest(bytes []byte) (digest [32]byte) {
	C.ksi_hash(at(bytes), C.size_t(len(bytes)), at(digest[:]))
	return digest
}

type hasher struct{ state C.struct_ksi_hasher }

// NewHasher returns a hash of the bytes that are written to it, as sha256.New does. It never fails.
func NewHasher() hash.Hash {
	h := new(hasher)
	h.Reset()
	return h
}

func (h *hasher) Write(piece []byte) (int, error) {
	C.ksi_hash_more(&h.state, at(piece), C.size_t(len(piece)))
	return len(piece), nil
}

func (h *hasher) Sum(before []byte) []byte {
	var digest [32]byte
	C.ksi_hash_end(&h.state, at(digest[:]))
	return append(before, digest[:]...)
}

func (h *hasher) Reset() { C.ksi_hash_start(&h.state) }

func (h *hasher) Size() int { return 32 }

func (h *hasher) BlockSize() int { return 64 }

// Steps returns the links of a signature from the document's hash up. If the bytes are no signature, there are none.
func Steps(signature []byte) (steps []Step) {
	for {
		var s Step
		if C.ksi_step(at(signature), C.size_t(len(signature)), C.size_t(len(steps)), (*C.struct_ksi_step)(unsafe.Pointer(&s))) != 0 {
			return steps
		}
		steps = append(steps, s)
	}
}
