package site

// queue is a first-in, first-out queue.
type queue[T any] struct {
	items []T
	head  int
}

func (q *queue[T]) len() int  { return len(q.items) - q.head }
func (q *queue[T]) push(it T) { q.items = append(q.items, it) }
func (q *queue[T]) first() *T { return &q.items[q.head] }

func (q *queue[T]) pop() T {
	var none T
	it := q.items[q.head]
	q.items[q.head] = none
	q.head++
	switch {
	case q.head == len(q.items):
		q.items, q.head = q.items[:0], 0
	case q.head >= 4096 && 2*q.head >= len(q.items):
		kept := copy(q.items, q.items[q.head:])
		for at := kept; at < len(q.items); at++ {
			q.items[at] = none
		}
		q.items, q.head = q.items[:kept], 0
	}
	return it
}

// all returns the items, the first one first, and leaves none.
func (q *queue[T]) all() []T {
	found := append([]T(nil), q.items[q.head:]...)
	*q = queue[T]{}
	return found
}
