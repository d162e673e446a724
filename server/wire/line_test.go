package wire

import (
	"errors"
	"fmt"
	"reflect"
	"strings"
	"testing"
	"time"
)

func TestLinesAreReadAsRecords(t *testing.T) {
	pair := func(c Call) *Call {
		c.Name, c.Args, c.Session, c.Sequence = "add", []byte{0, 255}, 7, 1
		return &c
	}
	for text, want := range map[string]Line{
		"call add 00ff 7 1":                                   {Ask: pair(Call{})},
		"call add 00FF 7 1 fresh":                             {Ask: pair(Call{Fresh: true})},
		"call add 00ff 7 1 after 18446744073709551615":        {Ask: pair(Call{After: 1<<64 - 1})},
		"call add 00ff 7 1 fresh after 3 upto 9 within 86400": {Ask: pair(Call{Fresh: true, After: 3, Upto: 9, Within: 24 * time.Hour})},
		"call add 00ff 7 1 upto 9 fresh":                      {Ask: pair(Call{Fresh: true, Upto: 9})},
		"call one - 0 0":                                      {Ask: &Call{Name: "one"}},
		"call one - 4294967295 4294967295":                    {Ask: &Call{Name: "one", Session: 1<<32 - 1, Sequence: 1<<32 - 1}},
		"call  - 0 0":                                         {Ask: &Call{}}, // a name that no procedure has
		"add one 65535 256 b700":                              {Ask: &Add{"one", 65535, 256, []byte{0xb7, 0}}},
		"session":                                             {Ask: NewSession{}},
		"rows":                                                {Ask: Rows{}},
		"position":                                            {Ask: Position{}},
		"status":                                              {Ask: Status{}},
		"hello":                                               {Ask: Hello{}},
		"token secret":                                        {Ask: Token{"secret"}},
		"#7 status":                                           {Tag: "#7 ", Ask: Status{}},
		"#18446744073709551615 session":                       {Tag: "#18446744073709551615 ", Ask: NewSession{}},
		"":                                                    {},
		"#":                                                   {},
		"# 7 status":                                          {},
		"#7":                                                  {},
		"#7status":                                            {},
		"#184467440737095516150 status":                       {},
		"#7 ":                                                 {Tag: "#7 "},
	} {
		if found, err := Read(text); err != nil || !reflect.DeepEqual(found, want) {
			t.Errorf("%q is %+v, %v", text, found, err)
		}
	}
}

// The rows that have no option, and those with one, are what the scripts before this server answered.
func TestFaultsAreTold(t *testing.T) {
	for text, want := range map[string]Fault{
		"position\t": NotPrintable, "#\t": NotPrintable, "\u00e9": NotPrintable, "#7 \x7f": NotPrintable,
		"jump 1": NoWord, " call": NoWord, "entry 00": NoWord, "window 4": NoWord, "#7 jump": NoWord, "#7  status": NoWord,
		"#7 #8 status": NoWord,
		"call":         WrongCount, "call add": WrongCount, "session 1": WrongCount, "status ": WrongCount, "add one 9 0": WrongCount,
		"add one 9 0 00 ": WrongCount, "token": WrongCount, "token a b": WrongCount,
		"call add 0 1 1": WrongField, "call add 00 01 1": WrongField, "call add 00 4294967296 1": WrongField,
		"call add 00 1 4294967296": WrongField, "call add  1 1": WrongField, "call add zz 1 1": WrongField,
		"call add 00 +1 1": WrongField, "call add 00 -1 1": WrongField, "call add 00  1": WrongField, "call add 00 1_0 1": WrongField,
		"call add 00 1 1 later": WrongField, "call add 00 1 1 ": WrongField,
		"call add 00 1 1 after": WrongCount, "call add 00 1 1 fresh 1": WrongCount, "call add 00 1 1 fresh fresh": WrongCount,
		"call add 00 1 1 after 01": WrongField, "call add 00 1 1 after 1 1": WrongCount, "call add 00 1 1 upto": WrongCount,
		"call add 00 1 1 fresh after x": WrongField, "call add 00 1 1 within 86401": WrongField,
		"call add 00 1 1 after 18446744073709551616": WrongField,
		"add one 9 257 00":                           WrongField, "add one 65536 0 00": WrongField, "add one 9 0 0": WrongField, "token ": WrongField,
	} {
		found, err := Read(text)
		if !errors.Is(err, want) || found.Ask != nil {
			t.Errorf("%q is %+v, %v and not %v", text, found, err, want)
		}
		if strings.HasPrefix(text, "#7 ") && want != NotPrintable && found.Tag != "#7 " {
			t.Errorf("%q has the tag %q", text, found.Tag)
		}
	}
	if _, err := Read("#" + strings.Repeat("x", LongestLine)); !errors.Is(err, NotPrintable) {
		t.Errorf("a line that is too long: %v", err)
	}
	if _, err := Read("#" + strings.Repeat("x", LongestLine-1)); err != nil {
		t.Errorf("the longest line: %v", err)
	}
}

func FuzzRead(f *testing.F) {
	for _, text := range []string{
		"call add 00ff 7 1 fresh after 3 upto 9 within 60", "add one 65535 256 b700", "#7 token x", "# none", "call a - 0 0",
	} {
		f.Add(text)
	}
	f.Fuzz(func(t *testing.T, text string) {
		line, err := Read(text)
		var fault Fault
		if err != nil {
			if !errors.As(err, &fault) || line.Ask != nil {
				t.Errorf("%q: %+v, %v", text, line, err)
			}
			return
		}
		if written, is := line.Ask.(fmt.Stringer); is {
			again, err := Read(line.Tag + written.String())
			if err != nil || !reflect.DeepEqual(again, line) {
				t.Errorf("%q is %+v, and then %+v, %v", text, line, again, err)
			}
		}
	})
}
