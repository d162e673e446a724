package wire

import (
	"reflect"
	"testing"
)

func TestAnswersOfAnEngine(t *testing.T) {
	for line, want := range map[string]Entry{
		"entry 1 commit reply 10 session 7 seq 1":   {Position: 1, Kind: EntryCommit, Value: 10, HasPair: true},
		"entry 18446744073709551615 commit reply 0": {Position: 1<<64 - 1, Kind: EntryCommit},
		"entry 3 conflict 2 session 8 seq 1":        {Position: 3, Kind: EntryConflict, Other: 2, HasPair: true},
		"entry 3 stale":                             {Position: 3, Kind: EntryStale},
		"entry 3 stale session 8 seq 1":             {Position: 3, Kind: EntryStale, HasPair: true},
		"entry 4 repeat 1 reply 10 session 7 seq 1": {Position: 4, Kind: EntryRepeat, Other: 1, Value: 10, HasPair: true},
		"entry 5 added 9":                           {Position: 5, Kind: EntryAdded, Value: 9},
		"entry 5 taken C1":                          {Position: 5, Kind: EntryTaken, Word: []byte("C1")},
		"entry 6 session 4294967295":                {Position: 6, Kind: EntrySession, Value: 1<<32 - 1},
		"entry 6 nothing E5 session 7 seq 1":        {Position: 6, Kind: EntryNothing, Word: []byte("E5"), HasPair: true},
	} {
		if found, ok := ReadEntry([]byte(line)); !ok || !reflect.DeepEqual(found, want) {
			t.Errorf("%s: %+v, %v", line, found, ok)
		}
	}
	for _, line := range []string{
		"", "entry", "entry 1", "entry x stale", "entry 1 commit reply", "entry 1 commit reply x", "entry 1 jump", "fault O1",
		"entry 18446744073709551616 stale", "entry 1 stale now",
	} {
		if found, ok := ReadEntry([]byte(line)); ok {
			t.Errorf("%s: %+v", line, found)
		}
	}
}

func TestAnswersToARun(t *testing.T) {
	for line, want := range map[string]Run{
		"submit 0102":           {Kind: RunSubmit, Bytes: []byte{1, 2}},
		"read 3 reply 7":        {Kind: RunRead, At: 3, Value: 7},
		"cancelled 3 code 1":    {Kind: RunCancelled, At: 3, Value: 1},
		"repeat 2 reply 9":      {Kind: RunRepeat, At: 2, Value: 9},
		"refused P11 V1 slot 0": {Kind: RunRefused, Bytes: []byte("P11 V1 slot 0")},
	} {
		if found, ok := ReadRun([]byte(line)); !ok || !reflect.DeepEqual(found, want) {
			t.Errorf("%s: %+v, %v", line, found, ok)
		}
	}
	for _, line := range []string{"", "submit 0", "submit zz", "read 3 code 7", "read x reply 1", "position 3"} {
		if found, ok := ReadRun([]byte(line)); ok {
			t.Errorf("%s: %+v", line, found)
		}
	}
}

func FuzzReadEntry(f *testing.F) {
	f.Add([]byte("entry 1 commit reply 10 session 7 seq 1"))
	f.Fuzz(func(t *testing.T, line []byte) {
		ReadEntry(line)
		ReadRun(line)
	})
}
