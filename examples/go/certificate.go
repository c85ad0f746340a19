// Opens a certificate and prints what a relying party looks at first, over the C library by cgo.
//
// usage: go run . FILE      (CGO_CFLAGS=-I.. and CGO_LDFLAGS=-L.. name the folders of rpki.h and of the library where
// it isn't installed)
package main

// #cgo LDFLAGS: -lrpki
// #include <rpki.h>
import "C"

import (
	"fmt"
	"os"
	"strings"
	"unsafe"
)

// A certificate, in memory of C, which a span may point into, and an entry for each of its headers.
type certificate struct {
	octets  []byte
	entries []C.struct_rpki_entry
}

func check(what string, status C.rpki_status) {
	if status != C.RPKI_OK {
		fmt.Fprintf(os.Stderr, "%s: refused %d\n", what, status)
		os.Exit(1)
	}
}

// part is the octets of a span.
func part(span C.struct_rpki_span) []byte {
	return unsafe.Slice((*byte)(span.data), int(span.size))
}

// start is how many octets of the certificate are in front of a span.
func (it certificate) start(span C.struct_rpki_span) uintptr {
	return uintptr(unsafe.Pointer(span.data)) - uintptr(unsafe.Pointer(&it.octets[0]))
}

// front is a pointer to octets, of which there have to be some, and how many there are.
func front(octets []byte) (*C.uint8_t, C.size_t) {
	return (*C.uint8_t)(unsafe.Pointer(&octets[0])), C.size_t(len(octets))
}

func open(octets []byte) certificate {
	at, size := front(octets)
	var count C.size_t
	none := make([]C.struct_rpki_entry, 1)
	// How many entries there are, and then the entries.
	if status := C.rpki_index(at, size, &none[0], 0, &count); status != C.RPKI_TOO_SMALL {
		check("certificate", status)
	}
	entries := make([]C.struct_rpki_entry, count)
	check("certificate", C.rpki_index(at, size, &entries[0], count, &count))
	return certificate{octets, entries}
}

func (it certificate) value(entry int) []byte {
	return it.octets[it.entries[entry].start:it.entries[entry].end]
}

func (it certificate) contents(entry int) []byte {
	return it.octets[it.entries[entry].contents:it.entries[entry].end]
}

// children are the numbers of the entries in this one, in order.
func (it certificate) children(entry int) []int {
	var found []int
	for number := range it.entries {
		if it.entries[number].parent == C.size_t(entry) {
			found = append(found, number)
		}
	}
	return found
}

func (it certificate) isContext(entry int, number C.uint32_t) bool {
	found := it.entries[entry]
	return found.tag_class == C.RPKI_CONTEXT && found.number == number && bool(found.constructed)
}

func isOf(name []byte, profile C.uint8_t) string {
	at, size := front(name)
	status := C.rpki_name_inspect(at, size, profile, true)
	if status >= C.RPKI_MISSING_COMMON_NAME && status <= C.RPKI_ATTRIBUTE_NOT_PERMITTED {
		return "no"
	}
	check("name", status)
	return "yes"
}

func (it certificate) printName(what string, name int) {
	text := it.children(it.children(it.children(name)[0])[0])[1]
	fmt.Printf("%s: %s (RPKI %s, router %s)\n", what, it.contents(text), isOf(it.value(name), C.RPKI_PROFILE_RPKI),
		isOf(it.value(name), C.RPKI_PROFILE_ROUTER))
}

func printMoment(what string, at C.struct_rpki_moment) {
	fmt.Printf("%s: %04d-%02d-%02dT%02d:%02d:%02dZ\n", what, at.year, at.month, at.day, at.hour, at.minute, at.second)
}

func printKey(octets []byte) {
	at, size := front(octets)
	var key C.struct_rpki_key_parts
	var identifier [20]C.uint8_t
	check("public key", C.rpki_public_key(at, size, &key))
	check("public key", C.rpki_key_identifier(at, size, &identifier[0]))
	format := map[C.uint8_t]string{C.RPKI_RSA: "RSA", C.RPKI_ECDSA_P256: "ECDSA P-256"}[key.format]
	fmt.Printf("public key: %s, %d octets\nkey identifier: %X\n", format, key.bits.size, identifier)
}

// dotted is an object identifier in dotted form (X.690 8.19); arcs here are below 2^64.
func dotted(contents []byte) string {
	var arcs []string
	var arc uint64
	for _, octet := range contents {
		arc = arc*128 + uint64(octet&0x7F)
		if octet >= 0x80 {
			continue
		}
		if arcs == nil {
			top := min(arc/40, 2)
			arcs, arc = append(arcs, fmt.Sprint(top)), arc-40*top
		}
		arcs, arc = append(arcs, fmt.Sprint(arc)), 0
	}
	return strings.Join(arcs, ".")
}

func min(a, b uint64) uint64 {
	if a < b {
		return a
	}
	return b
}

func printExtension(octets []byte) {
	at, size := front(octets)
	var parts C.struct_rpki_extension_parts
	check("extension", C.rpki_extension(at, size, &parts))
	critical := map[bool]string{true: "critical", false: "not critical"}[bool(parts.critical)]
	fmt.Printf("extension %s: %s, %d octets\n", dotted(part(parts.id)), critical, parts.octets.size)
}

// printSigned prints the parts of what is signed (RFC 5280 4.1), in order.
func (it certificate) printSigned(signed int) {
	parts, version := it.children(signed), byte(0)
	if it.isContext(parts[0], 0) {
		contents := it.contents(it.children(parts[0])[0])
		parts, version = parts[1:], contents[len(contents)-1]
	}
	fmt.Printf("version: %d\n", version+1)
	var serial [20]C.uint8_t
	at, size := front(it.value(parts[0]))
	check("serial number", C.rpki_serial(at, size, &serial[0]))
	place := 0
	for place < 19 && serial[place] == 0 {
		place++
	}
	fmt.Printf("serial number: %X\n", serial[place:])
	var period C.struct_rpki_period
	at, size = front(it.value(parts[3]))
	check("validity", C.rpki_validity(at, size, &period))
	printMoment("not before", period.not_before)
	printMoment("not after", period.not_after)
	it.printName("issuer", parts[2])
	it.printName("subject", parts[4])
	printKey(it.value(parts[5]))
	for _, around := range parts[6:] {
		if !it.isContext(around, 3) {
			continue
		}
		for _, extension := range it.children(it.children(around)[0]) {
			printExtension(it.value(extension))
		}
	}
}

func main() {
	if len(os.Args) != 2 {
		fmt.Fprintln(os.Stderr, "usage: certificate FILE")
		os.Exit(2)
	}
	read, err := os.ReadFile(os.Args[1])
	if err != nil {
		fmt.Fprintln(os.Stderr, err)
		os.Exit(1)
	}
	if len(read) == 0 {
		check("certificate", C.RPKI_TRUNCATED)
	}
	octets := unsafe.Slice((*byte)(C.CBytes(read)), len(read))
	var parts C.struct_rpki_signed_parts
	at, size := front(octets)
	check("certificate", C.rpki_signed_data(at, size, &parts))
	it := open(octets)
	fmt.Printf("certificate: %d octets, %d headers\n", len(it.octets), len(it.entries))
	it.printSigned(it.children(0)[0])
	with := map[bool]string{true: "with", false: "without"}[bool(parts.has_parameters)]
	fmt.Println("to verify:")
	fmt.Printf("signed: %d octets at %d\n", parts.data.size, it.start(parts.data))
	fmt.Printf("algorithm: %d octets at %d, %s parameters\n", parts.algorithm.size, it.start(parts.algorithm), with)
	fmt.Printf("signature: %d octets at %d\n", parts.signature.size, it.start(parts.signature))
}
