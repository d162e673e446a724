package batch

import (
	"bytes"
	"encoding/hex"
	"errors"
	"reflect"
	"strings"
	"testing"
)

func example() *Batch {
	b := &Batch{Header: Header{Version: "0.1", Vote: Vote{Position: 258}}}
	for at := range b.Database {
		b.Database[at], b.Maker[at] = 0x11, 0x22
	}
	for at := range b.Vote.Strings {
		b.Vote.Strings[at], b.Vote.Answers[at] = 0x33, 0x44
	}
	b.Strings = [][]byte{{1, 2, 3}, {}, {0}}
	return b
}

const exampleBytes = "01000000" + "03" + "302e31" + "11111111111111111111111111111111" + "22222222222222222222222222222222" +
	"0201000000000000" + "3333333333333333333333333333333333333333333333333333333333333333" +
	"4444444444444444444444444444444444444444444444444444444444444444" +
	"03000000" + "010203" + "00000000" + "01000000" + "00"

func TestABatchHasTheBytesOfItsForm(t *testing.T) {
	if found := hex.EncodeToString(example().Append(nil)); found != exampleBytes {
		t.Errorf("a batch is %s", found)
	}
	raw, _ := hex.DecodeString(exampleBytes)
	found, err := Read(raw)
	if err != nil || !reflect.DeepEqual(found, example()) {
		t.Errorf("%+v, %v", found, err)
	}
}

func TestWhatIsNoBatchIsBroken(t *testing.T) {
	whole, _ := hex.DecodeString(exampleBytes)
	header := len(whole) - 16
	for length := 0; length < len(whole); length++ {
		_, err := Read(whole[:length])
		// strings end where one ends
		if ends := length == header || length == header+7 || length == header+11; (err == nil) != ends {
			t.Errorf("%d bytes: %v", length, err)
		}
	}
	long := example()
	long.Strings = [][]byte{make([]byte, LongestString+1)}
	if _, err := Read(long.Append(nil)); !errors.Is(err, ErrBroken) {
		t.Errorf("a string that is too long: %v", err)
	}
	if _, err := Read(make([]byte, Longest+1)); !errors.Is(err, ErrBroken) {
		t.Errorf("a batch that is too long: %v", err)
	}
	whole[0] = 2
	var other *FormError
	if _, err := Read(whole); !errors.As(err, &other) || other.Form != 2 {
		t.Errorf("another form: %v", err)
	}
}

// By Python's hmac, over the key's length, the key and the bytes.
func TestASignatureIsOfKeyAndBytes(t *testing.T) {
	secret := &Secret{}
	copy(secret[:], strings.Repeat("k", 32))
	signed := secret.Sign("p/1/a", []byte("batch"))
	want := "batch" + fromHex(t, "4e6f338ddfba4d8b50c361157acc5fb28b8a2784e3ff7ec8780ea964b022c850")
	if string(signed) != want {
		t.Errorf("a signature is %x", signed[5:])
	}
	if found, err := secret.Open("p/1/a", signed); string(found) != "batch" || err != nil {
		t.Errorf("%q, %v", found, err)
	}
	other := &Secret{}
	for _, it := range []struct {
		secret *Secret
		key    string
		bytes  []byte
	}{
		{other, "p/1/a", signed},
		{secret, "p/1/b", signed},
		{secret, "p/1/ab", append([]byte("atch"), signed[5:]...)},
		{secret, "p/1/a", signed[1:]},
		{secret, "p/1/a", signed[:len(signed)-1]},
		{secret, "p/1/a", nil},
	} {
		if _, err := it.secret.Open(it.key, it.bytes); !errors.Is(err, ErrUnsigned) {
			t.Errorf("%s: %v", it.key, err)
		}
	}
}

func fromHex(t *testing.T, text string) string {
	t.Helper()
	found, err := hex.DecodeString(text)
	if err != nil {
		t.Fatal(err)
	}
	return string(found)
}

// By Python's hashlib.
func TestDigestsAreThoseOfTheirBytes(t *testing.T) {
	none := Digest{}
	for _, it := range []struct {
		name  string
		found Digest
		want  string
	}{
		{"settings", OfSettings([]byte("window 4\n")), "a326bf2aac9c462288b40aea87c3e7e9d9822eaf9bab437760a23e6d6d444bbd"},
		{"a string", none.WithString([]byte("a")), "8c374a53782642f7514d087d26a3e733f1b806009a03e04a43b288ef2fa9f9c0"},
		{"two strings", none.WithString([]byte("a")).WithString([]byte("b")), "153d5381929b50792d3b22ae9596544af3b0e4805be1555a595e6d2a2734933f"},
		{"an answer", none.WithAnswer([]byte("entry 1 stale")), "987b8995ceff07114aec744ce58d0bb509c0741a3ebcda5bd5687cdcc67713de"},
	} {
		if hex.EncodeToString(it.found[:]) != it.want {
			t.Errorf("%s: %x", it.name, it.found)
		}
	}
}

func FuzzRead(f *testing.F) {
	whole, _ := hex.DecodeString(exampleBytes)
	f.Add(whole)
	f.Add(whole[:60])
	f.Fuzz(func(t *testing.T, raw []byte) {
		found, err := Read(raw)
		if err != nil {
			return
		}
		if again := found.Append(nil); !bytes.Equal(again, raw) {
			t.Errorf("%x is read, and written as %x", raw, again)
		}
	})
}
