package segments

import (
	"encoding/binary"
	"fmt"
	"hash/crc32"
	"strconv"
	"strings"
)

// A segment begins with a head of 32 bytes, numbers least byte first:
//
//	 0  8  magic
//	 8  4  form, 1
//	12  4  number of the segment, from 1
//	16  8  number of its first record
//	24  4  CRC of the record before, 0 where there is none
//	28  4  CRC-32C of the 28 bytes before
//
// Records follow, each at a multiple of 8:
//
//	 0  4  length of what is kept
//	 4  8  number of the record, from 1
//	12  4  CRC of the record before
//	16  n  what is kept
//	16+n 4 CRC-32C of all the bytes before
//
// The rest of a segment is zeros.
const (
	form      = 1
	headSize  = 32
	frameSize = 20 // of a record, besides what is kept
	alignment = 8
)

// Longest is the most bytes that a record keeps.
const Longest = 2 << 20

// DefaultSize is the length of a segment in bytes.
const DefaultSize = 16 << 20

var castagnoli = crc32.MakeTable(crc32.Castagnoli)

// Magic is what the segments of one kind of log begin with.
type Magic [8]byte

// link is how far a log has come: the number and the CRC of its last record.
type link struct {
	number uint64
	sum    uint32
}

// room returns how many bytes a record takes that keeps so many.
func room(length int) int64 {
	return (int64(length) + frameSize + alignment - 1) / alignment * alignment
}

// appendRecord appends the bytes of the record behind a link, and returns them with the link that it makes.
func appendRecord(to []byte, before link, kept []byte) ([]byte, link) {
	start := len(to)
	to = binary.LittleEndian.AppendUint32(to, uint32(len(kept)))
	to = binary.LittleEndian.AppendUint64(to, before.number+1)
	to = binary.LittleEndian.AppendUint32(to, before.sum)
	to = append(to, kept...)
	sum := crc32.Checksum(to[start:], castagnoli)
	to = binary.LittleEndian.AppendUint32(to, sum)
	for int64(len(to)-start) < room(len(kept)) {
		to = append(to, 0)
	}
	return to, link{before.number + 1, sum}
}

// record is what stands at one place of a segment, where its CRC holds.
type record struct {
	link
	before uint32
	kept   []byte
}

// recordAt reads the record at a place of a segment; none where its CRC doesn't hold.
func recordAt(segment []byte, at int64) (record, bool) {
	rest := segment[at:]
	if len(rest) < frameSize {
		return record{}, false
	}
	length := binary.LittleEndian.Uint32(rest)
	if length == 0 || length > Longest || int64(length)+frameSize > int64(len(rest)) {
		return record{}, false
	}
	end := 16 + int(length)
	sum := binary.LittleEndian.Uint32(rest[end:])
	if crc32.Checksum(rest[:end], castagnoli) != sum {
		return record{}, false
	}
	number := binary.LittleEndian.Uint64(rest[4:])
	before := binary.LittleEndian.Uint32(rest[12:])
	return record{link{number, sum}, before, rest[16:end:end]}, true
}

// headOf returns the head of a segment whose first record comes behind a link.
func headOf(magic Magic, segment uint32, before link) []byte {
	head := append(make([]byte, 0, headSize), magic[:]...)
	head = binary.LittleEndian.AppendUint32(head, form)
	head = binary.LittleEndian.AppendUint32(head, segment)
	head = binary.LittleEndian.AppendUint64(head, before.number+1)
	head = binary.LittleEndian.AppendUint32(head, before.sum)
	return binary.LittleEndian.AppendUint32(head, crc32.Checksum(head, castagnoli))
}

// nameOf returns the name of a segment's file.
func nameOf(segment uint32) string { return fmt.Sprintf("%010d.segment", segment) }

// numberOf returns the number of the segment whose file has a name; none where no segment's has.
func numberOf(name string) (uint32, bool) {
	number, err := strconv.ParseUint(strings.TrimSuffix(name, ".segment"), 10, 32)
	return uint32(number), err == nil && number > 0 && nameOf(uint32(number)) == name
}
