package layout

import (
	"encoding/hex"
	"reflect"
	"strings"
	"testing"
)

const example = `{"form": 1, "tables": [{"number": 2, "name": "claimed", "width": 20, "fields": [
	{"name": "name", "type": "text:8", "at": 0}, {"name": "raw", "type": "bytes:4", "at": 8}, {"name": "owner", "type": "i64", "at": 12}]}],
	"procedures": [{"number": 1, "name": "p", "length": 16, "program_sha256": "00", "fields": [
	{"name": "a", "type": "u8", "at": 0}, {"name": "b", "type": "i16", "at": 2}, {"name": "c", "type": "u32", "at": 4}, {"name": "d", "type": "i64", "at": 8}]}],
	"codes": {"3": "NO_MONEY"}}`

func parsed(t *testing.T) *Layout {
	t.Helper()
	l, err := Parse([]byte(example))
	if err != nil {
		t.Fatal(err)
	}
	return l
}

// The bytes by Python's struct.
func TestArgumentsHaveTheirBytes(t *testing.T) {
	p := parsed(t).Procedure("p")
	for _, it := range []struct{ a, b, c, d, want string }{
		{"255", "-2", "0x10", "-9223372036854775808", "ff00feff100000000000000000000080"},
		{"0", "32767", "4294967295", "9223372036854775807", "0000ff7fffffffffffffffffffffff7f"},
	} {
		found, err := p.Pack(map[string]string{"a": it.a, "b": it.b, "c": it.c, "d": it.d})
		if err != nil || hex.EncodeToString(found) != it.want {
			t.Errorf("%x, %v", found, err)
		}
	}
	fine := map[string]string{"a": "1", "b": "1", "c": "1", "d": "1"}
	for field, values := range map[string][]string{
		"a": {"256", "-1", "x", "", "01", "1_0", "+1", "1.5"}, "b": {"32768", "-32769"}, "c": {"4294967296"}, "d": {"9223372036854775808"},
	} {
		for _, value := range values {
			given := map[string]string{}
			for name, it := range fine {
				given[name] = it
			}
			given[field] = value
			if found, err := p.Pack(given); err == nil {
				t.Errorf("%s=%s: %x", field, value, found)
			}
		}
	}
	for _, given := range []map[string]string{{}, {"a": "1", "b": "1", "c": "1"}, {"a": "1", "b": "1", "c": "1", "d": "1", "e": "1"}} {
		if _, err := p.Pack(given); err == nil || err.Error() != "p takes a= b= c= d=" {
			t.Errorf("%v: %v", given, err)
		}
	}
}

func TestRowsHaveTheirValues(t *testing.T) {
	row, _ := hex.DecodeString("616263000000000001020304feffffffffffffff")
	found := parsed(t).Table(2).Values(row)
	if want := []Value{{"name", "abc"}, {"raw", "01020304"}, {"owner", "-2"}}; !reflect.DeepEqual(found, want) {
		t.Errorf("%v", found)
	}
	if found := parsed(t).Table(2).Values(row[1:]); len(found) != 0 {
		t.Errorf("a row of another width: %v", found)
	}
}

func TestWhatIsNotThere(t *testing.T) {
	var none *Layout
	if none.Procedure("p") != nil || none.Table(1) != nil || none.Code(3) != "3" || none.String() != "none" {
		t.Error("no layout")
	}
	if l := parsed(t); l.Procedure("q") != nil || l.Table(1) != nil || l.Code(3) != "NO_MONEY" || l.Code(4) != "4" {
		t.Error("a layout")
	}
}

func TestALayoutGoesOverALine(t *testing.T) {
	l := parsed(t)
	l.Tables[0].Name = "größe\n"
	line := l.String()
	for at := range line {
		if line[at] < ' ' || line[at] > '~' {
			t.Fatalf("%q", line)
		}
	}
	if found, err := FromString(line); err != nil || !reflect.DeepEqual(found, l) {
		t.Errorf("%v, %v", found, err)
	}
	if found, err := FromString("none"); found != nil || err != nil {
		t.Error(found, err)
	}
}

func TestLayoutsAtFault(t *testing.T) {
	for _, it := range [][2]string{
		{`"form": 1`, `"form": 2`}, {`"u8"`, `"u9"`}, {`"u8"`, `"x"`}, {`"text:8"`, `"text:0"`}, {`"text:8"`, `"u8:8"`}, {`"text:8"`, `"text:257"`},
		{`"at": 12`, `"at": 13`}, {`"at": 12`, `"at": -1`}, {`"codes"`, `"cods"`},
	} {
		if _, err := Parse([]byte(strings.Replace(example, it[0], it[1], 1))); err == nil {
			t.Errorf("%s is taken", it[1])
		}
	}
}

func FuzzPack(f *testing.F) {
	f.Add("255", "-2", "7", "0x10")
	f.Fuzz(func(t *testing.T, a, b, c, d string) {
		l, _ := Parse([]byte(example))
		if found, err := l.Procedure("p").Pack(map[string]string{"a": a, "b": b, "c": c, "d": d}); err == nil && len(found) != 16 {
			t.Errorf("%x", found)
		}
	})
}
