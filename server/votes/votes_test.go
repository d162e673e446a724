package votes

import (
	"fmt"
	"testing"

	"dsmdb/server/batch"
)

var settings = []byte("window 4\n")

func idOf(number int) batch.ID { return batch.ID{byte(number + 1)} }

// after returns a server's votes after some strings, of which it answered one otherwise than others (0 for none).
func after(own batch.ID, count, wrong int) *Votes {
	v := New(own, settings)
	for number := 1; number <= count; number++ {
		answer := fmt.Sprintf("entry %d stale", number)
		if number == wrong {
			answer = fmt.Sprintf("entry %d conflict 1", number)
		}
		v.Answered([]byte{byte(number)}, []byte(answer))
	}
	return v
}

func headerOf(number int, vote batch.Vote) *batch.Header {
	return &batch.Header{Maker: idOf(number), Vote: vote}
}

// Of some servers the first ones answer string 5 alike and wrongly, and all vote after string 9.
func TestWhoIsSilent(t *testing.T) {
	for _, it := range []struct {
		servers, wrong            int
		wrongSilent, honestSilent bool
	}{
		{2, 1, true, true},
		{3, 1, true, false},
		{3, 2, false, true}, // most are wrong
		{4, 2, true, true},
		{5, 1, true, false},
		{5, 2, true, false},
	} {
		var all []*Votes
		for number := 0; number < it.servers; number++ {
			wrong := 0
			if number < it.wrong {
				wrong = 5
			}
			all = append(all, after(idOf(number), 9, wrong))
		}
		for number, one := range all {
			for other := range all {
				one.Hear(headerOf(other, all[other].Own()), true)
			}
			found, diverges := one.Divergence()
			want := it.honestSilent
			if number < it.wrong {
				want = it.wrongSilent
			}
			if !diverges || found.Since != 9 || found.Silences() != want {
				t.Errorf("of %d with %d wrong, server %d finds %+v", it.servers, it.wrong, number, found)
			}
		}
	}
}

func TestOneOfThreeIsSilentUntilTheThirdVotes(t *testing.T) {
	honest, wrong := after(idOf(0), 9, 0), after(idOf(1), 9, 5)
	third := after(idOf(2), 4, 0)
	honest.Hear(headerOf(2, third.Own()), true) // from before the fault: it says nothing of it
	if _, diverges := honest.Divergence(); diverges {
		t.Fatal("nobody disagrees yet")
	}
	if !honest.Hear(headerOf(1, wrong.Own()), true) {
		t.Fatal("the vote of the wrong one agrees")
	}
	if found, _ := honest.Divergence(); !found.Silences() {
		t.Errorf("before the third votes: %+v", found)
	}
	if honest.Hear(headerOf(2, after(idOf(2), 9, 0).Own()), true) {
		t.Error("the third disagrees")
	}
	found, diverges := honest.Divergence()
	if !diverges || found.Silences() || found != (Divergence{Since: 9, Disagree: 1, Agree: 1}) {
		t.Errorf("after the third voted: %+v", found)
	}
	// the wrong one goes on: it disagrees since the same position
	honest.Answered([]byte{10}, nil)
	wrong.Answered([]byte{10}, nil)
	honest.Hear(headerOf(1, wrong.Own()), true)
	if found, _ := honest.Divergence(); found.Since != 9 {
		t.Errorf("then since %d", found.Since)
	}
}

func TestOtherStringsDisagree(t *testing.T) {
	one, other := New(idOf(0), settings), New(idOf(1), settings)
	one.Answered([]byte("a"), []byte("entry 1 nothing E1"))
	other.Answered([]byte("b"), []byte("entry 1 nothing E1"))
	if !one.Hear(headerOf(1, other.Own()), true) {
		t.Error("other strings agree")
	}
	if !New(idOf(0), settings).Hear(headerOf(1, New(idOf(1), nil).Own()), true) {
		t.Error("other settings agree")
	}
	if New(idOf(0), settings).Hear(headerOf(1, New(idOf(1), settings).Own()), true) {
		t.Error("the same settings disagree")
	}
}

func TestAPositionThatWasNotThereDisagrees(t *testing.T) {
	v := after(idOf(0), 3, 0)
	vote := v.Own()
	vote.Position++
	if !v.Hear(headerOf(1, vote), true) {
		t.Error("it agrees")
	}
}

func TestAnOwnVoteCountsWhereItDisagrees(t *testing.T) {
	v := after(idOf(0), 9, 0)
	if v.Hear(headerOf(0, after(idOf(0), 9, 0).Own()), false) {
		t.Error("an earlier vote of the same disagrees")
	}
	if v.Hear(headerOf(0, after(idOf(0), 9, 5).Own()), true) {
		t.Error("a vote since the start counts")
	}
	if _, diverges := v.Divergence(); diverges {
		t.Error("it diverges from itself")
	}
	if !v.Hear(headerOf(0, after(idOf(0), 7, 5).Own()), false) {
		t.Error("an earlier vote of another agrees")
	}
	if found, _ := v.Divergence(); found != (Divergence{Since: 7, Disagree: 1}) || !found.Silences() {
		t.Errorf("%+v", found)
	}
}

func TestVotesOfLongAgoAreNone(t *testing.T) {
	v := New(idOf(0), settings)
	var votes []batch.Vote
	for number := 0; number <= 3*Kept; number++ {
		if number == 5 || number == 2*Kept+1 || number == 3*Kept {
			votes = append(votes, v.Own())
		}
		if number < 3*Kept {
			v.Answered(nil, nil)
		}
	}
	for _, vote := range votes {
		if v.Hear(headerOf(1, vote), true) {
			t.Errorf("the own digest at %d disagrees", vote.Position)
		}
	}
	votes[0].Answers[0]++
	if v.Hear(headerOf(2, votes[0]), true) {
		t.Error("a vote of long ago counts")
	}
	votes[1].Answers[0]++
	if !v.Hear(headerOf(2, votes[1]), true) {
		t.Error("a vote within the last positions doesn't count")
	}
	if v.Hear(headerOf(2, votes[0]), true); len(v.heard) != 1 {
		t.Error("the maker's last vote is of long ago, and an older one counts")
	}
}
