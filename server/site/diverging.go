package site

import "time"

// voted is what this server has said of its own answers.
type voted struct {
	is         bool      // whether it has voted in this order
	last       uint64    // position of its last vote
	when       time.Time // it was given
	newStrings bool      // whether strings came since
	owed       bool      // whether a vote is owed to others, at a position from owedFrom on
	owedFrom   uint64
}

// hearVotes compares votes with the own engine's answers, as far as the engine has come.
func (s *Site) hearVotes() error {
	for s.unheard.len() > 0 && s.unheard.first().position <= s.position {
		it := s.unheard.pop()
		if s.overrule && it.early {
			continue
		}
		if s.votes.Hear(&it.header, it.made) {
			s.oweVote(it.header.Vote.Position)
		}
		s.compare()
	}
	s.payVote()
	return nil
}

// oweVote notes that others are to know what this server came to at a position.
func (s *Site) oweVote(position uint64) {
	if !s.voted.is || s.voted.last < position {
		s.voted.owed, s.voted.owedFrom = true, position
	}
}

// payVote gives a vote that is owed, once the engine has what stood in the order at the start.
func (s *Site) payVote() {
	if s.voted.owed && s.caughtUp() && (!s.voted.is || s.voted.last < s.position) {
		s.giveVote()
	}
}

// giveVote has a batch made that carries this server's vote.
func (s *Site) giveVote() {
	s.order.Append(nil)
	s.voted = voted{is: true, last: s.position, when: s.now}
}

// noteVote notes that a batch of this server is part of the order, with a vote that may be older than what is owed.
func (s *Site) noteVote(position uint64) {
	owed := s.voted.owed && position < s.voted.owedFrom
	s.voted = voted{is: true, last: position, when: s.now, owed: owed, owedFrom: s.voted.owedFrom}
}

// compare looks whether more others disagree than agree.
func (s *Site) compare() {
	before := s.isSilent()
	found, is := s.votes.Divergence()
	if is && (!s.isDiverged || found != s.diverged) {
		s.warn("divergence from position %d on: of other servers' votes %d disagree and %d agree", s.before+found.Since, found.Disagree, found.Agree)
	}
	s.diverged, s.isDiverged = found, is
	switch now := s.isSilent(); {
	case now && !before:
		s.silentSince = s.now
	case before && !now:
		s.speak()
	}
	s.confirm()
}

// isSilent returns whether more others disagree than agree, so that nobody is answered.
func (s *Site) isSilent() bool { return s.isDiverged && s.diverged.Silences() }

// confirm has a server that has begun an order answer, once another one agrees with its settings, or none has voted for a
// while.
func (s *Site) confirm() {
	if s.unconfirmed.IsZero() || !s.votes.IsConfirmed() && !(s.caughtUp() && s.now.Sub(s.unconfirmed) > confirmedIn) {
		return
	}
	s.unconfirmed = time.Time{}
	s.speak()
}

// holdsAnswers returns whether what rests on the rows isn't told now.
func (s *Site) holdsAnswers() bool { return s.isSilent() || !s.unconfirmed.IsZero() }

// speak tells what was held while votes disagreed, or none was heard.
func (s *Site) speak() {
	if s.holdsAnswers() {
		return
	}
	for r := s.asking.first; r != nil; {
		next := r.behind
		if r.held.Kind != None {
			s.tell(r, r.held)
		}
		r = next
	}
}
