package ends

import (
	"reflect"
	"strings"
	"testing"

	"dsmdb/server/batch"
)

var there = []Table{{1, 8}, {3, 16}}

func TestWhatEndsAnOrder(t *testing.T) {
	for text, want := range map[string]End{
		"":                        {},
		"window 9\n":              {Window: 9},
		"idle\n":                  {Idle: true},
		"table 2 128\n":           {Tables: []Table{{2, 128}}},
		"table 64 1\ntable 2 8\n": {Tables: []Table{{64, 1}, {2, 8}}},
		"about -\n":               {About: []string{"-"}},
		"about 00fF\n":            {About: []string{"00fF"}},
		"\n# why\nidle\n":         {Idle: true},
		"window 4096\nidle\nabout 00\ntable 2 8\n": {Window: 4096, Idle: true, About: []string{"00"}, Tables: []Table{{2, 8}}},
	} {
		if found, is := Of([]byte("\x00\x03"+text), there); !is || !reflect.DeepEqual(*found, want) {
			t.Errorf("%q: %+v, %v", text, found, is)
		}
	}
	for _, text := range []string{
		"idle", "idle\nidle\n", "idle 1\n", "window 0\n", "window 4097\n", "window 09\n", "window +9\n", "window\n", "window 9\nwindow 9\n",
		"table 1 8\n", "table 2 8\ntable 2 8\n", "table 0 8\n", "table 65 8\n", "table 2 0\n", "table 2 129\n", "table 2\n", "about\n", "about 0\n",
		"about zz\n", "about 00\nabout 00\n", "additions\n", "row 1 5 00\n", "idle\r\n", " idle\n", "idle \n", "idle\n\x00", "\x7f\n",
		"about " + strings.Repeat("00", 35_000) + "\n",
	} {
		if found, is := Of([]byte("\x00\x03"+text), there); is {
			t.Errorf("%q: %+v", text, found)
		}
	}
	for _, text := range []string{"", "\x00", "\x00\x02idle\n", "\x01\x03", "idle\n"} {
		if found, is := Of([]byte(text), there); is {
			t.Errorf("%q: %+v", text, found)
		}
	}
}

func TestARemarkIsNoLongerThanALine(t *testing.T) {
	for length, want := range map[int]bool{34_997: true, 34_998: false} {
		if is := (&End{}).Read("about " + strings.Repeat("00", length)); is != want {
			t.Errorf("%d bytes: %v", length, is)
		}
	}
}

func TestEndsAreReadAsTheyWereWritten(t *testing.T) {
	for _, it := range []End{{}, {Idle: true}, {Window: 7, Tables: []Table{{2, 8}, {9, 1}}, Idle: true, About: []string{"c0ffee"}}} {
		if found, is := Of(it.Bytes(), there); !is || !reflect.DeepEqual(*found, it) {
			t.Errorf("%+v: %+v, %v", it, found, is)
		}
	}
}

func TestTheNextSettings(t *testing.T) {
	of := batch.ID{0xda, 1}
	identity := "# database da010000000000000000000000000000\n"
	own := "window 4\ntable 1 8\norigin 5 3\nrequest 1 3 20 1 05\nrequest 2 0 0 0 -\nrequest 3 7 1 1 -\n"
	dump := "window 4\ntable 1 8\nadditions\norigin 9 4\nproc p 1 0 b7\nrow 1 5 00\nrequest 1 4 20 1 05\nrequest 2 0 0 0 -\nrequest 3 7 1 1 -\nrequest 4 0 0 0 -\n"
	for text, want := range map[string]string{
		"":                                  identity + dump,
		"window 9\n":                        identity + strings.Replace(dump, "window 4", "window 9", 1),
		"idle\n":                            identity + strings.Replace(strings.Replace(dump, "request 2 0 0 0 -\n", "", 1), "request 3 7 1 1 -\n", "", 1),
		"table 3 9\ntable 2 16\nabout 00\n": identity + strings.Replace(dump, "table 1 8\n", "table 1 8\ntable 3 9\ntable 2 16\n", 1),
	} {
		end, is := Of([]byte("\x00\x03"+text), []Table{{1, 8}})
		if !is {
			t.Fatalf("%q is no end", text)
		}
		if found := string(Next(of, []byte(own), []byte(dump), end)); found != want {
			t.Errorf("%q: %s", text, found)
		}
	}
	// settings without tables, and with nothing but what stands before them
	end := &End{Tables: []Table{{2, 8}}}
	if found := string(Next(of, nil, []byte("window 4\norigin 0 0\n"), end)); found != identity+"window 4\ntable 2 8\norigin 0 0\n" {
		t.Error(found)
	}
}

func TestWhatSettingsSay(t *testing.T) {
	id := batch.ID{0xda, 1}
	for text, want := range map[string]Settings{
		"window 4\ntable 1 8\ntable 3 16\n":                                       {Tables: there},
		"window 4\norigin 0 0":                                                    {Origin: &Origin{}},
		Identity(id) + "table 1 8\norigin 5 7\nrow 1 5 00\ntable 3 16\n":          {Tables: there[:1], Origin: &Origin{5, 7}, Of: id},
		"window 4\n" + Identity(id) + "origin 18446744073709551615 4294967295\n":  {Origin: &Origin{1<<64 - 1, 1<<32 - 1}},
		"# database da\norigin 1\norigin x 1\norigin 01 1\norigin 1 4294967296\n": {},
	} {
		if found := Read([]byte(text)); !reflect.DeepEqual(found, want) {
			t.Errorf("%q: %+v", text, found)
		}
	}
}

func FuzzOf(f *testing.F) {
	f.Add([]byte("\x00\x03window 9\ntable 2 8\nidle\nabout 00\n"))
	f.Fuzz(func(t *testing.T, text []byte) {
		end, is := Of(text, there)
		if !is {
			return
		}
		if again, is := Of(end.Bytes(), there); !is || !reflect.DeepEqual(again, end) {
			t.Errorf("%q: %+v, and %+v", text, end, again)
		}
	})
}
