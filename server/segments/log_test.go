package segments

import (
	"bytes"
	"encoding/hex"
	"errors"
	"fmt"
	"math/rand"
	"os"
	"path/filepath"
	"strings"
	"syscall"
	"testing"
)

const small = 1 << 10 // of a segment, so that there are several

var magic = Magic{'t', 'e', 's', 't', 'l', 'o', 'g', '1'}

// opened opens a log and returns what its records keep.
func opened(t *testing.T, disk disk, options Options) (*Log, [][]byte, error) {
	t.Helper()
	options.Magic = magic
	var found [][]byte
	l, err := open(disk, small, options, func(kept []byte) error {
		found = append(found, append([]byte(nil), kept...))
		return nil
	})
	if err == nil {
		t.Cleanup(func() { l.Close() })
	}
	return l, found, err
}

// textOf is what a record keeps, of a length of its own.
func textOf(number int) []byte {
	return []byte(fmt.Sprintf("%d%s", number, strings.Repeat(".", number*37%200)))
}

func filled(t *testing.T, disk disk, count int) {
	t.Helper()
	l, _, err := opened(t, disk, Options{})
	if err != nil {
		t.Fatal(err)
	}
	for number := 1; number <= count; number++ {
		if got, err := l.Append(textOf(number)); err != nil || got != uint64(number) {
			t.Fatalf("record %d: %d, %v", number, got, err)
		}
	}
	if err := l.Close(); err != nil {
		t.Fatal(err)
	}
}

// same fails where the records aren't the first of those that were written.
func same(t *testing.T, found [][]byte) {
	t.Helper()
	for at, kept := range found {
		if !bytes.Equal(kept, textOf(at+1)) {
			t.Fatalf("record %d is %q", at+1, kept)
		}
	}
}

func TestFormsAreThoseOfTheDocument(t *testing.T) {
	bytes, made := appendRecord(nil, link{6, 0x04030201}, []byte("abc"))
	// the CRC by Python's crc32c of the 19 bytes before
	want := "03000000" + "0700000000000000" + "01020304" + "616263" + crcOf(bytes[:19]) + "00"
	if hex.EncodeToString(bytes) != want || made.number != 7 {
		t.Errorf("a record is %x, %v", bytes, made)
	}
	head := headOf(magic, 2, link{6, 0x04030201})
	want = "746573746c6f6731" + "01000000" + "02000000" + "0700000000000000" + "01020304" + crcOf(head[:28])
	if hex.EncodeToString(head) != want {
		t.Errorf("a head is %x", head)
	}
}

// crcOf is the CRC-32C of bytes, a bit at a time (RFC 3720, B.4), least byte first.
func crcOf(bytes []byte) string {
	sum := ^uint32(0)
	for _, it := range bytes {
		sum ^= uint32(it)
		for bit := 0; bit < 8; bit++ {
			if sum&1 == 1 {
				sum = sum>>1 ^ 0x82f63b78
			} else {
				sum >>= 1
			}
		}
	}
	sum = ^sum
	return hex.EncodeToString([]byte{byte(sum), byte(sum >> 8), byte(sum >> 16), byte(sum >> 24)})
}

func TestRecordsAreReadAgain(t *testing.T) {
	path := t.TempDir()
	for start := 0; start < 3; start++ {
		var found [][]byte
		l, err := Open(path, Options{Magic: magic}, func(kept []byte) error {
			found = append(found, append([]byte(nil), kept...))
			return nil
		})
		if err != nil {
			t.Fatal(err)
		}
		same(t, found)
		if len(found) != 4*start || l.Records() != uint64(4*start) {
			t.Fatalf("%d records and %d", len(found), l.Records())
		}
		for number := 4*start + 1; number <= 4*start+4; number++ {
			if _, err := l.Append(textOf(number)); err != nil {
				t.Fatal(err)
			}
		}
		if err := l.Close(); err != nil {
			t.Fatal(err)
		}
	}
}

func TestARecordHasOneToLongestBytes(t *testing.T) {
	l, err := Open(t.TempDir(), Options{Magic: magic}, nil)
	if err != nil {
		t.Fatal(err)
	}
	defer l.Close()
	for _, length := range []int{0, Longest + 1} {
		if _, err := l.Append(make([]byte, length)); err == nil {
			t.Errorf("%d bytes were taken", length)
		}
	}
	if number, err := l.Append(make([]byte, Longest)); number != 1 || err != nil {
		t.Errorf("the longest is record %d, %v", number, err)
	}
}

// Wherever the power goes, and whatever becomes of what wasn't forced: what was appended is there, and at most the
// record besides that was on its way.
func TestPowerCutsLoseNothing(t *testing.T) {
	seed, rounds := int64(1), 1000
	if testing.Short() {
		rounds = 100
	}
	for round := 0; round < rounds; round++ {
		random := rand.New(rand.NewSource(seed + int64(round)))
		disk := newMemory()
		kept, begun := 0, 0
		for cut := 0; cut < 4; cut++ {
			disk.left = random.Intn(60)
			l, found, err := opened(t, disk, Options{})
			if err != nil && !errors.Is(err, errPower) {
				t.Fatalf("seed %d: %v", seed+int64(round), err)
			}
			if err == nil {
				same(t, found)
				if len(found) < kept || len(found) > begun {
					t.Fatalf("seed %d: %d records, of %d kept and %d begun", seed+int64(round), len(found), kept, begun)
				}
				kept = len(found)
				for {
					begun = kept + 1
					if _, err := l.Append(textOf(begun)); err != nil {
						break
					}
					kept = begun
				}
				l.Close()
			}
			disk.cut(random)
		}
	}
}

// changed calls try with a copy of a disk for each place of each segment, which is so many bits wide.
func changed(disk *memory, change func(bytes []byte, at int), step, width int, try func(copy *memory, name string, at int)) {
	for name, found := range disk.names_ {
		for at := 0; at < len(found.cached)*8/width; at += step {
			other := newMemory()
			for it, same := range disk.names_ {
				other.names_[it] = &blob{append([]byte(nil), same.cached...), nil}
			}
			change(other.names_[name].cached, at)
			try(other, name, at)
		}
	}
}

func TestEachFlippedBitIsFound(t *testing.T) {
	disk, count := newMemory(), 12
	filled(t, disk, count)
	flip := func(bytes []byte, at int) { bytes[at/8] ^= 1 << (at % 8) }
	refused, cut, step := 0, 0, 1
	if testing.Short() {
		step = 5
	}
	changed(disk, flip, step, 1, func(other *memory, name string, at int) {
		_, found, err := opened(t, other, Options{})
		same(t, found)
		var damage *Damage
		switch {
		case errors.As(err, &damage):
			refused++
		case err != nil:
			t.Fatalf("%s, bit %d: %v", name, at, err)
		case len(found) == count-1:
			cut++ // the last record: as if power had cut it short
		case len(found) != count:
			t.Fatalf("%s, bit %d: %d records", name, at, len(found))
		}
	})
	if refused == 0 || cut < 8*len(textOf(count))/step {
		t.Errorf("%d were refused, %d cut", refused, cut)
	}
}

func TestAJournalIsCutOffAtTheDamage(t *testing.T) {
	disk, count := newMemory(), 12
	filled(t, disk, count)
	lengths := map[int]bool{}
	zero := func(bytes []byte, at int) { copy(bytes[at*64:at*64+64], make([]byte, 64)) }
	changed(disk, zero, 1, 512, func(other *memory, name string, at int) {
		l, found, err := opened(t, other, Options{CutDamage: true})
		var damage *Damage
		if errors.As(err, &damage) && damage.Record == 0 {
			return // the head of the first segment: it is none of ours
		}
		if err != nil {
			t.Fatalf("%s, at %d: %v", name, at, err)
		}
		same(t, found)
		lengths[len(found)] = true
		for number := len(found) + 1; number <= count+3; number++ {
			if _, err := l.Append(textOf(number)); err != nil {
				t.Fatal(err)
			}
		}
		l.Close()
		if _, found, err = opened(t, other, Options{}); err != nil || len(found) != count+3 {
			t.Fatalf("%s, at %d: then %d records, %v", name, at, len(found), err)
		}
		same(t, found)
	})
	if len(lengths) < count {
		t.Errorf("it was cut off at %v", lengths)
	}
}

func TestDamageIsTold(t *testing.T) {
	disk := newMemory()
	filled(t, disk, 12)
	for name, want := range map[string]string{
		nameOf(1): "0000000001.segment: record 3: it can't be read, and another segment follows",
		nameOf(2): "0000000002.segment: record %d: its segment's head is damaged",
	} {
		other := newMemory()
		for it, found := range disk.names_ {
			other.names_[it] = &blob{append([]byte(nil), found.cached...), nil}
		}
		at := headSize + room(len(textOf(1))) + room(len(textOf(2))) + 20
		if name == nameOf(2) {
			at = 20
			first := bytes.NewReader(other.names_[name].cached[16:])
			number, _ := first.ReadByte()
			want = fmt.Sprintf(want, number)
		}
		other.names_[name].cached[at] ^= 4
		if _, _, err := opened(t, other, Options{}); err == nil || err.Error() != want {
			t.Errorf("%v, and not %s", err, want)
		}
	}
	delete(disk.names_, nameOf(1))
	if _, _, err := opened(t, disk, Options{}); err == nil || err.Error() != "0000000001.segment: it isn't there" {
		t.Errorf("without its first segment: %v", err)
	}
}

func TestWhatIsForeignIsLeftAsItWas(t *testing.T) {
	for name, text := range map[string]string{
		"notes.txt":          "mine",
		"0000000001.segment": strings.Repeat("mine", small/4),
		"0000000002.segment": "",
		"1.segment":          "",
	} {
		path := t.TempDir()
		if err := os.WriteFile(filepath.Join(path, name), []byte(text), 0o600); err != nil {
			t.Fatal(err)
		}
		_, err := Open(path, Options{Magic: magic, CutDamage: true}, nil)
		var damage *Damage
		if !errors.As(err, &damage) || damage.Record != 0 {
			t.Errorf("%s: %v", name, err)
		}
		if left, err := os.ReadFile(filepath.Join(path, name)); string(left) != text || err != nil {
			t.Errorf("%s has %q now, %v", name, left, err)
		}
	}
}

func TestAnotherKindOfLogIsRefused(t *testing.T) {
	disk := newMemory()
	filled(t, disk, 3)
	other := Options{Magic: Magic{'o', 't', 'h', 'e', 'r'}, CutDamage: true}
	_, err := open(disk, small, other, nil)
	if err == nil || err.Error() != "0000000001.segment: it is no segment of this log" {
		t.Errorf("%v", err)
	}
}

func TestWithoutRoomItIsFullAndGoesOn(t *testing.T) {
	disk := newMemory()
	full := true
	disk.failed = func(call, name string) error {
		if full && call == "create" && name == spareName {
			return syscall.ENOSPC
		}
		return nil
	}
	if _, _, err := opened(t, disk, Options{}); !errors.Is(err, ErrFull) {
		t.Fatalf("an empty log without room: %v", err)
	}
	full = false
	l, _, err := opened(t, disk, Options{})
	if err != nil {
		t.Fatal(err)
	}
	full = true
	number, refused := 0, 0
	for number < 20 {
		_, err := l.Append(textOf(number + 1))
		switch {
		case err == nil:
			number++
		case errors.Is(err, ErrFull):
			refused++
			full = refused%3 != 0 // every third time somebody makes room
		default:
			t.Fatal(err)
		}
		if l.at < headSize+100 {
			full = true
		}
	}
	if refused < 3 {
		t.Errorf("it was full %d times", refused)
	}
	l.Close()
	if _, found, err := opened(t, disk, Options{}); len(found) != 20 || err != nil {
		t.Errorf("%d records, %v", len(found), err)
	}
}

func TestAfterAFailureNothingCounts(t *testing.T) {
	for _, call := range []string{"write", "force"} {
		disk := newMemory()
		failing := false
		disk.failed = func(made, name string) error {
			if failing && made == call && name == nameOf(1) {
				return syscall.EIO
			}
			return nil
		}
		l, _, err := opened(t, disk, Options{})
		if err != nil {
			t.Fatal(err)
		}
		if _, err := l.Append(textOf(1)); err != nil {
			t.Fatal(err)
		}
		l.file.(*handle).name = nameOf(1)
		failing = true
		if _, err := l.Append(textOf(2)); !errors.Is(err, syscall.EIO) {
			t.Errorf("%s: %v", call, err)
		}
		failing = false
		if _, err := l.Append(textOf(2)); !errors.Is(err, syscall.EIO) || l.Records() != 1 {
			t.Errorf("after a failing %s it takes more: %v", call, err)
		}
	}
}

func TestTakeMayRefuse(t *testing.T) {
	disk := newMemory()
	filled(t, disk, 3)
	mine := errors.New("mine")
	_, err := open(disk, small, Options{Magic: magic}, func([]byte) error { return mine })
	if !errors.Is(err, mine) {
		t.Errorf("%v", err)
	}
}
