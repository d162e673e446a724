package engine

import "runtime"

// keepThread does something on a thread that ends only when done is closed. A process that is to be killed with its
// parent is killed when the thread that made it ends, and Go ends threads as it likes.
func keepThread(do func(), done <-chan struct{}) {
	runtime.LockOSThread()
	do()
	<-done
}
