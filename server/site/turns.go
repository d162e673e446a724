package site

// turns has of each session the call that is out, and those that wait until that one is answered: of two that were out
// at once the one with the greater number might commit first, and the other would be refused for good.
type turns map[uint32]turn

type turn struct {
	out    *Request
	behind []*Request
}

// begin returns whether a call may begin now. Else end returns the call once those before are answered.
func (t turns) begin(session uint32, r *Request) bool {
	if found, is := t[session]; is {
		found.behind = append(found.behind, r)
		t[session] = found
		return false
	}
	t[session] = turn{out: r}
	return true
}

// end takes in that a call is answered, and returns the next one that may begin; nil for none.
func (t turns) end(session uint32, r *Request) *Request {
	found := t[session]
	if found.out != r {
		return nil
	}
	for len(found.behind) > 0 {
		next := found.behind[0]
		found.behind = found.behind[1:]
		if !next.done.Load() {
			found.out = next
			t[session] = found
			return next
		}
	}
	delete(t, session)
	return nil
}
