package site

const (
	flushedAtOnce = 8  // askers that are flushed together
	flushersWait  = 16 // of such groups before the site's goroutine flushes itself
)

// flushLater notes that an asker has an answer. Where many have, another goroutine flushes them meanwhile.
func (s *Site) flushLater(it Asker) {
	for _, other := range s.flushes {
		if other == it {
			return
		}
	}
	if len(s.flushes) == flushedAtOnce {
		select {
		case s.flusher <- s.flushes:
			s.flushes = make([]Asker, 0, flushedAtOnce)
		default:
			s.flush()
		}
	}
	s.flushes = append(s.flushes, it)
}

// flush has those who were answered last told.
func (s *Site) flush() {
	for at, it := range s.flushes {
		it.Flush()
		s.flushes[at] = nil
	}
	s.flushes = s.flushes[:0]
}

// flushAll flushes groups of askers until there are no more.
func flushAll(groups <-chan []Asker) {
	for group := range groups {
		for _, it := range group {
			it.Flush()
		}
	}
}
