package segments

import (
	"errors"
	"math/rand"
	"syscall"
	"testing"
)

// together appends records, and returns how many count.
func together(l *Log, from, count int) (int, error) {
	var kept [][]byte
	for number := from; number < from+count; number++ {
		kept = append(kept, textOf(number))
	}
	return l.AppendAll(kept)
}

func TestSeveralRecordsAreReadAsTheyWereAppended(t *testing.T) {
	random := rand.New(rand.NewSource(1))
	path := folder(t.TempDir())
	number := 1
	for start := 0; start < 4; start++ {
		l, found, err := opened(t, path, Options{CutDamage: true})
		if err != nil {
			t.Fatal(err)
		}
		if same(t, found); len(found) != number-1 {
			t.Fatalf("%d records of %d", len(found), number-1)
		}
		for step := 0; step < 12; step++ {
			count := random.Intn(20)
			if got, err := together(l, number, count); err != nil || got != count {
				t.Fatalf("%d of %d, %v", got, count, err)
			}
			number += count
			if l.Records() != uint64(number-1) {
				t.Fatalf("%d records of %d", l.Records(), number-1)
			}
		}
		if _, err := l.Append(textOf(number)); err != nil {
			t.Fatal(err)
		}
		number++
		again := 0
		err = l.Reread(l.Records(), func(kept []byte) error {
			again++
			if string(kept) != string(textOf(again)) {
				t.Errorf("record %d is %q", again, kept)
			}
			return nil
		})
		if err != nil || again != number-1 {
			t.Errorf("%d records again, %v", again, err)
		}
		l.Close()
	}
}

func TestOfSeveralRecordsTheFirstMayCount(t *testing.T) {
	disk, full := newMemory(), false
	disk.failed = func(call, name string) error {
		if full && call == "create" && name == spareName {
			return syscall.ENOSPC
		}
		return nil
	}
	l, _, err := opened(t, disk, Options{CutDamage: true})
	if err != nil {
		t.Fatal(err)
	}
	full = true
	count, err := together(l, 1, 100)
	if !errors.Is(err, ErrFull) || count == 0 || count == 100 || l.Records() != uint64(count) {
		t.Fatalf("%d count, %d records, %v", count, l.Records(), err)
	}
	full = false
	if more, err := together(l, count+1, 10); more != 10 || err != nil {
		t.Fatalf("%d more, %v", more, err)
	}
	l.Close()
	_, found, err := opened(t, disk, Options{})
	if same(t, found); err != nil || len(found) != count+10 {
		t.Errorf("%d records, %v", len(found), err)
	}
	if _, err := l.AppendAll([][]byte{textOf(1), textOf(2)}); err == nil {
		t.Error("a closed log takes records")
	}
}

func TestPowerCutsLoseNoneOfSeveralThatCount(t *testing.T) {
	seed, rounds := int64(1), 200
	if testing.Short() {
		rounds = 50
	}
	torn := 0
	for round := 0; round < rounds; round++ {
		random := rand.New(rand.NewSource(seed + int64(round)))
		disk := newMemory()
		kept, begun := 0, 0
		for cut := 0; cut < 4; cut++ {
			disk.left = random.Intn(60)
			l, found, err := opened(t, disk, Options{CutDamage: true})
			if err != nil && !errors.Is(err, errPower) {
				t.Fatalf("seed %d: %v", seed+int64(round), err)
			}
			if err == nil {
				same(t, found)
				if len(found) < kept || len(found) > begun {
					t.Fatalf("seed %d: %d records, of %d kept and %d begun", seed+int64(round), len(found), kept, begun)
				}
				if len(found) > kept && len(found) < begun {
					torn++
				}
				for kept = len(found); ; {
					count := 1 + random.Intn(6)
					begun = kept + count
					got, err := together(l, kept+1, count)
					if kept += got; err != nil {
						break
					}
				}
				l.Close()
			}
			disk.cut(random)
		}
	}
	if torn == 0 {
		t.Error("no power cut came between records that were forced together")
	}
}
