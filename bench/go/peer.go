// Package main exports Go's crypto/sha256 to C. Each function does a whole piece of work, so that crossing from C to Go
// is paid once.
package main

// #include <stddef.h>
// #include <stdint.h>
import "C"

import (
	"crypto/sha256"
	"encoding/binary"
	"unsafe"
)

func lent(p *C.uint8_t, n C.size_t) []byte {
	return unsafe.Slice((*byte)(unsafe.Pointer(p)), int(n))
}

func nodeHash(pair []byte) [32]byte {
	d := sha256.Sum256(pair)
	d[31] &= 0x3f
	return d
}

//export go_sha256
func go_sha256(p *C.uint8_t, n C.size_t, out *C.uint8_t) {
	d := sha256.Sum256(lent(p, n))
	copy(lent(out, 32), d[:])
}

// Hashes the 64 bytes count times, writing each node hash over their first half.
//
//export go_node_chain
func go_node_chain(pair *C.uint8_t, count C.size_t) {
	b := lent(pair, 64)
	for i := 0; i < int(count); i++ {
		d := nodeHash(b)
		copy(b, d[:])
	}
}

func tree(run []byte) [32]byte {
	var pair [64]byte
	if len(run) == 64 {
		return nodeHash(run)
	}
	left, right := tree(run[:len(run)/2]), tree(run[len(run)/2:])
	copy(pair[:32], left[:])
	copy(pair[32:], right[:])
	return nodeHash(pair[:])
}

//export go_commitment
func go_commitment(run *C.uint8_t, n C.size_t, out *C.uint8_t) {
	d := tree(lent(run, n))
	copy(lent(out, 32), d[:])
}

func pathRoot(node [32]byte, position uint64, path []byte) [32]byte {
	var pair [64]byte
	for ; len(path) > 0; path, position = path[32:], position/2 {
		if position%2 == 0 {
			copy(pair[:32], node[:])
			copy(pair[32:], path[:32])
		} else {
			copy(pair[:32], path[:32])
			copy(pair[32:], node[:])
		}
		node = nodeHash(pair[:])
	}
	return node
}

// Whether both paths of a well-formed record of a deal of 2^36 bytes lead to the commitment.
//
//export go_check
func go_check(commitment *C.uint8_t, record *C.uint8_t, n C.size_t) C.int {
	r := lent(record, n)
	var root, segment [32]byte
	var entry [64]byte
	copy(root[:], lent(commitment, 32))
	copy(segment[:], r[3:35])
	copy(entry[:32], r[3:35])
	copy(entry[32:40], r[38:46])
	copy(entry[40:48], r[49:57])
	checksum := sha256.Sum256(entry[:])
	copy(entry[48:], checksum[:16])
	entry[63] &= 0x3f
	offset, size, place := number(r[38:]), number(r[49:]), number(r[60:])
	end := 71 + int(r[69]) + 256*int(r[70])
	if pathRoot(segment, offset/size, r[71:end]) != root {
		return 0
	}
	if pathRoot(nodeHash(entry[:]), place/64, r[end+3:len(r)-11]) != root {
		return 0
	}
	return 1
}

func number(b []byte) uint64 {
	return binary.LittleEndian.Uint64(b)
}

func main() {}
