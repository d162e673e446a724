// Package votes tells a server whether the other servers of its database have come to what its own engine has come to.
//
// Each batch carries its maker's vote: a position, and the digests of the strings and of the engine's answers up to
// there. A server compares each with its own. While more of the others disagree than agree, it answers nobody.
package votes

import "dsmdb/server/batch"

// Kept is for how many of the last positions votes count.
const Kept = 1 << 16

// Votes are the votes that one server has heard. The zero value isn't usable.
type Votes struct {
	own      batch.ID
	position uint64 // of the own engine
	digests  []pair // of the last Kept positions, each at its position modulo Kept
	heard    map[batch.ID]opinion
	earlier  *opinion // of this server before its start, where that disagrees
}

type pair struct{ strings, answers batch.Digest }

// opinion is a maker's last vote: where, whether it agrees, and since where it doesn't.
type opinion struct {
	position uint64
	agrees   bool
	since    uint64
	isOld    bool // whether it is of the order before
}

// Heard says of each other maker whether it agreed last.
type Heard map[batch.ID]bool

// New returns the votes that a server has heard before its first string: none. Its engine has been given the settings
// alone.
func New(own batch.ID, settings []byte) *Votes {
	start := pair{answers: batch.OfSettings(settings)}
	return &Votes{own: own, digests: []pair{start}, heard: map[batch.ID]opinion{}}
}

// Heard returns what the other makers think.
func (v *Votes) Heard() Heard {
	found := Heard{}
	for maker, it := range v.heard {
		found[maker] = it.agrees
	}
	return found
}

// Begin begins an order with what makers thought at the end of the one before. Each counts until it votes in this one.
func (v *Votes) Begin(before Heard) {
	for maker, agrees := range before {
		v.heard[maker] = opinion{agrees: agrees, isOld: true}
	}
}

// IsConfirmed returns whether another maker has voted in this order, and agrees.
func (v *Votes) IsConfirmed() bool {
	for _, it := range v.heard {
		if it.agrees && !it.isOld {
			return true
		}
	}
	return false
}

// Answered is told what the own engine has answered to the next string, without LF.
func (v *Votes) Answered(text, answer []byte) {
	last := v.digests[v.position%Kept]
	next := pair{last.strings.WithString(text), last.answers.WithAnswer(answer)}
	v.position++
	if len(v.digests) < Kept {
		v.digests = append(v.digests, next)
	} else {
		v.digests[v.position%Kept] = next
	}
}

// Own returns the vote that this server gives now.
func (v *Votes) Own() batch.Vote {
	last := v.digests[v.position%Kept]
	return batch.Vote{Position: v.position, Strings: last.strings, Answers: last.answers}
}

// Hear is told of a batch, once the own engine has answered all strings before it. A vote that this server gave after
// its start says nothing; one from before counts as another's where it disagrees. It returns whether the vote disagrees:
// then a server votes at once, so that the others know.
func (v *Votes) Hear(header *batch.Header, sinceStart bool) bool {
	if header.Maker == v.own && sinceStart {
		return false
	}
	if header.Vote.Position <= v.position && v.position-header.Vote.Position >= Kept {
		delete(v.heard, header.Maker) // too far back to be compared
		return false
	}
	found := opinion{position: header.Vote.Position, agrees: v.agrees(header.Vote)}
	if header.Maker == v.own {
		if !found.agrees {
			found.since = found.position
			v.earlier = &found
		}
		return !found.agrees
	}
	if !found.agrees {
		found.since = found.position
		if before, is := v.heard[header.Maker]; is && !before.agrees && before.since < found.since {
			found.since = before.since
		}
	}
	v.heard[header.Maker] = found
	return !found.agrees
}

func (v *Votes) agrees(vote batch.Vote) bool {
	if vote.Position > v.position {
		return false // it speaks of what wasn't there
	}
	own := v.digests[vote.Position%Kept]
	return own.strings == vote.Strings && own.answers == vote.Answers
}

// Divergence is what the votes of the others come to.
type Divergence struct {
	Since           uint64 // the least position at which a maker that disagrees did
	Disagree, Agree int    // of the others' votes from there on
}

// Silences returns whether a server that finds this divergence answers nobody.
func (d Divergence) Silences() bool { return d.Disagree > d.Agree }

// Divergence returns where and how many others disagree; false where none does.
func (v *Votes) Divergence() (Divergence, bool) {
	all := make([]opinion, 0, len(v.heard)+1)
	for _, it := range v.heard {
		all = append(all, it)
	}
	if v.earlier != nil {
		all = append(all, *v.earlier)
	}
	var found Divergence
	for _, it := range all {
		if !it.agrees && (found.Disagree == 0 || it.since < found.Since) {
			found.Since, found.Disagree = it.since, 1
		}
	}
	if found.Disagree == 0 {
		return found, false
	}
	found.Disagree = 0
	for _, it := range all {
		switch {
		case !it.agrees:
			found.Disagree++
		case it.position >= found.Since:
			found.Agree++
		}
	}
	return found, true
}
