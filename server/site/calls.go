package site

import (
	"container/heap"
	"math/rand"
	"time"

	"dsmdb/server/order"
	"dsmdb/server/wire"
)

const (
	firstPause = 2 * time.Millisecond // before a call in conflict is tried again, at most
	lastPause  = 250 * time.Millisecond
	fillAfter  = time.Second // for which an order is given time to grow by itself
	// MostAhead is how far a call's upto may be behind the order's end for the order to be filled up to there.
	MostAhead  = 65_536
	leastAhead = 16
)

// arrive takes in a request.
func (s *Site) arrive(r *Request) {
	if s.now.IsZero() {
		s.now = time.Now()
	}
	if r.began.IsZero() { // else an earlier order's site has handed it over
		r.began, r.deadline = s.now, s.now.Add(s.patience)
		if call := r.call(); call != nil && call.Within > 0 {
			r.deadline = s.now.Add(call.Within)
		}
	}
	s.asking.add(r)
	switch r.Ask.(type) {
	case wire.Position:
		s.tell(r, Answer{Kind: Text, Text: s.positionLine()})
	case wire.Status:
		s.tell(r, Answer{Kind: Text, Text: s.statusLine()})
	case wire.Hello:
		s.hello(r)
	default:
		if s.begun {
			s.admit(r)
		} else {
			s.early = append(s.early, r)
		}
	}
}

// admit begins a request that needs the rows, or the order. A call waits until those of its session before are answered.
func (s *Site) admit(r *Request) {
	if r.done.Load() {
		return
	}
	call := r.call()
	switch {
	case call == nil:
		r.after = s.beginning
		s.place(r)
	case call.Session == 0 || s.turns.begin(call.Session, r):
		s.admitCall(r, call)
	}
}

func (s *Site) admitCall(r *Request, call *wire.Call) {
	r.after = s.beginning
	if call.After > s.before && call.After-s.before > r.after {
		r.after = call.After - s.before
	}
	r.fresh = call.Fresh
	if call.Fresh {
		s.askFresh(r, call)
	} else {
		s.place(r)
	}
}

// askFresh has a call begin on rows of the order's end, as it is asked for now.
func (s *Site) askFresh(r *Request, call *wire.Call) {
	r.fresh = true
	if call.After > 0 {
		r.padding = s.now.Add(fillAfter)
		if half := s.now.Add(r.deadline.Sub(s.now) / 2); half.Before(r.padding) {
			r.padding = half
		}
	}
	r.question = s.order.AskEnd()
	s.fresh.push(r)
}

// askReady hands the engine what may begin where it is.
func (s *Site) askReady() {
	if s.restarting != nil || s.ending != nil {
		return
	}
	for len(s.behind) > 0 && s.behind[0].for_ <= s.fed {
		s.ready.push(heap.Pop(&s.behind).(waiter).of)
	}
	for s.ready.len() > 0 {
		switch r := s.ready.pop(); {
		case r.done.Load():
		case r.after > s.fed: // the engine was started again
			s.place(r)
		default:
			s.try(r)
		}
	}
	s.askRows()
}

// try begins a request where the engine has all strings up to the last that it was handed.
func (s *Site) try(r *Request) {
	switch ask := r.Ask.(type) {
	case *wire.Call:
		if ask.Upto > 0 && s.before+s.fed > ask.Upto {
			s.tooLate(r)
			return
		}
		r.tries++
		s.out = append(ask.AppendRun(s.out), '\n')
		s.pending.push(pending{forCall, r})
	case *wire.Add:
		s.out = append(append(s.out, ask.String()...), '\n')
		s.pending.push(pending{forAddition, r})
	case wire.NewSession:
		text, err := order.NewSession()
		if err != nil {
			s.warn("%v", err)
			s.tell(r, Answer{Kind: Unknown, Text: NoOrder})
			return
		}
		s.submit(r, text)
	case wire.Rows, *wire.Scan, wire.Dump:
		s.rowsNext = append(s.rowsNext, r)
	case wire.Settings:
		s.tellSettings(r)
	case *wire.Roll:
		s.tryRoll(r, ask)
	case wire.Hello:
		s.hello(r)
	}
}

// tooLate answers a call that may not run on rows so new: by what the last try came to, where there was one.
func (s *Site) tooLate(r *Request) {
	if r.last.Kind != None {
		s.tell(r, r.last)
	} else {
		s.tell(r, Answer{Kind: Late, At: s.fed})
	}
}

func (s *Site) submit(r *Request, text []byte) {
	r.out, r.handed = true, s.now
	handed := &r.first
	if handed.Text != nil { // the order may still look at it
		handed = &order.String{}
	}
	handed.Text, handed.For = text, r
	s.submitted = append(s.submitted, handed)
}

// ran takes in what the engine answers to a call's run.
func (s *Site) ran(r *Request, line []byte) error {
	if r.done.Load() {
		return nil
	}
	it, ok := wire.ReadRun(line)
	if !ok {
		return &Stopped{"the engine answers a call by " + string(line)}
	}
	call := r.call()
	switch it.Kind {
	case wire.RunSubmit:
		if call.Session == 0 { // a copy of a call without a pair would be done twice
			s.tell(r, Answer{Kind: Refused, Text: "P13"})
			return nil
		}
		s.submit(r, it.Bytes)
	case wire.RunRead:
		s.tell(r, Answer{Kind: Read, At: it.At, Value: it.Value})
	case wire.RunCancelled:
		s.tell(r, Answer{Kind: Cancelled, At: it.At, Value: it.Value})
	case wire.RunRepeat:
		s.repeated(r, it.At, it.Value)
	case wire.RunRefused:
		s.refusedRun(r, call, string(it.Bytes))
	}
	return nil
}

// sessionIsOver is the rule that a session can't call any more, or not with so low a number.
const sessionIsOver = "P15"

// refusedRun tells why a call isn't taken. Where its session isn't known here the call is asked again on fresh rows, since
// the site may not have read the string that opened the session.
func (s *Site) refusedRun(r *Request, call *wire.Call, rule string) {
	switch {
	case rule != sessionIsOver || r.fresh:
		s.tell(r, Answer{Kind: Refused, Text: rule})
	case s.ending == nil: // else the next order's site asks
		s.askFresh(r, call)
	}
}

// repeated answers a call whose pair was done before, by whether that was this very call. Before the order is position 0.
func (s *Site) repeated(r *Request, position, reply uint64) {
	call := r.call()
	if s.asked.of(position, call.Session) == askedBy(uint16(s.procedures[call.Name].number), call.Args) {
		s.tell(r, Answer{Kind: Committed, At: position, Value: reply})
	} else {
		s.tell(r, Answer{Kind: Other, At: position})
	}
}

// again has a call tried once more behind what it met, after a pause that grows and is drawn, while its asker is there
// and its time isn't over.
func (s *Site) again(r *Request, met Answer) {
	if r.done.Load() {
		return
	}
	r.last, r.after, r.out = met, met.At, false
	most := firstPause << uint(r.tries-1)
	if most > lastPause || most <= 0 {
		most = lastPause
	}
	due := s.now.Add(time.Duration(rand.Int63n(int64(most))))
	if due.After(r.deadline) || r.Asker.Gone() {
		s.tell(r, met)
		return
	}
	s.stats.retried++
	heap.Push(&s.retries, waiter{uint64(due.UnixNano()), r})
}

// retryDue has calls tried again whose time has come.
func (s *Site) retryDue() {
	now := uint64(s.now.UnixNano())
	for len(s.retries) > 0 && s.retries[0].for_ <= now {
		r := heap.Pop(&s.retries).(waiter).of
		if !r.done.Load() {
			s.place(r)
		}
	}
}

// adds takes in what the engine answers to an addition.
func (s *Site) adds(r *Request, line []byte) error {
	if r.done.Load() || s.isThere(r) {
		return nil
	}
	it, ok := wire.ReadRun(line)
	switch {
	case ok && it.Kind == wire.RunSubmit:
		s.submit(r, it.Bytes)
	case ok && it.Kind == wire.RunRefused:
		s.tell(r, Answer{Kind: Refused, Text: string(it.Bytes)})
	default:
		return &Stopped{"the engine answers an addition by " + string(line)}
	}
	return nil
}

// isThere answers an addition whose name is that very procedure's already.
func (s *Site) isThere(r *Request) bool {
	add := r.Ask.(*wire.Add)
	found, is := s.procedures[add.Name]
	if !is || found != procedureIn(add) {
		return false
	}
	s.tell(r, Answer{Kind: Added, At: uint64(add.Number)})
	return true
}

// tell answers a request, once, by positions of this order. What rests on the rows is held while votes disagree, or while
// none of others is there that is waited for.
func (s *Site) tell(r *Request, answer Answer) {
	if r.done.Load() {
		return
	}
	if s.holdsAnswers() && answer.Kind.restsOnRows() {
		r.held = answer
		return
	}
	if r.held.Lines != nil && r.held.Lines != answer.Lines {
		r.held.Lines.Close()
	}
	r.done.Store(true)
	s.asking.remove(r)
	s.stats.answered(answer.Kind, s.now.Sub(r.began), r.call() != nil)
	r.Asker.Answer(r, answer.behind(s.before))
	s.flushLater(r.Asker)
	if call := r.call(); call != nil && call.Session != 0 {
		if next := s.turns.end(call.Session, r); next != nil {
			s.admitCall(next, next.call())
		}
	}
}

// expire answers the requests whose time is over, and those whose askers have left where others wait for them.
func (s *Site) expire() {
	why := NoTime
	switch {
	case s.isSilent():
		why = Diverged
	case s.isAway():
		why = NoOrder
	}
	for r := s.asking.first; r != nil; {
		next := r.behind
		if s.now.After(r.deadline) {
			if r.last.Kind != None && !r.out {
				s.tell(r, r.last)
			}
			s.tell(r, Answer{Kind: Unknown, Text: why})
		}
		r = next
	}
	for _, it := range s.turns {
		if len(it.behind) > 0 && !it.out.out && it.out.Asker.Gone() {
			s.tell(it.out, Answer{Kind: Unknown, Text: NoTime})
		}
	}
}

func (s *Site) isAway() bool {
	_, why := s.order.Reached()
	return why != nil
}

// fillUp makes an order longer for calls that ask for rows behind its end, where it doesn't grow by itself.
func (s *Site) fillUp() {
	most := s.end
	for r := s.asking.first; r != nil; r = r.behind {
		if !r.padding.IsZero() && s.now.After(r.padding) && r.after > most && r.after-s.end <= MostAhead {
			most = r.after
		}
	}
	if most <= s.end || most <= s.filledTo {
		return
	}
	from := s.end
	if s.filledTo > from {
		from = s.filledTo
	}
	for s.filledTo = from; s.filledTo < most; s.filledTo++ {
		s.submitted = append(s.submitted, &order.String{Text: order.Filling})
	}
}
