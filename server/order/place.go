package order

import (
	"context"
	"errors"
	"fmt"
	"sync"
)

// Place is where the orders of a database lie, each under its number from 1 on. Its methods may be called from any
// goroutine.
type Place interface {
	// Open opens the order of a number, which is begun where it isn't there. ErrGone says that the order was forgotten.
	// Where only etcd knows that, the order is opened, and ends with ErrGone.
	Open(number uint64, maker Maker) (Order, error)
	// Forget deletes all orders below a number, and returns the numbers of those of which something was deleted now,
	// rising. The order of that number has to be there, and no order below may be open at this server. Each is marked as
	// gone before anything of it is deleted, so that no server begins it again. What a Forget that failed has left is
	// deleted by the next one.
	Forget(ctx context.Context, below uint64) (deleted []uint64, err error)
}

// Folders are where this machine keeps orders, or copies of them, each in a folder of its own.
type Folders interface {
	// Order returns the folder of the order of a number, which is made where it isn't there.
	Order(number uint64) (path string, err error)
	// OrderFolders returns the numbers of the orders that have a folder, rising.
	OrderFolders() ([]uint64, error)
	// RemoveOrder deletes the folder of an order with all that it holds.
	RemoveOrder(number uint64) error
	// MarkGone marks an order as gone, for good.
	MarkGone(number uint64) error
	// IsGone returns whether an order is marked as gone.
	IsGone(number uint64) (bool, error)
}

var errNumber = errors.New("orders are numbered from 1")

// goneError says which order is gone, and what to do. Such an error is ErrGone.
type goneError struct {
	number uint64
	advice string
}

func (g *goneError) Error() string {
	return fmt.Sprintf("order %d is gone: it was forgotten%s", g.number, g.advice)
}

// Is implements the interface of errors.Is.
func (g *goneError) Is(target error) bool { return target == ErrGone }

// errNotThere says that an order isn't there whose number was given to Forget.
func errNotThere(number uint64) error {
	return fmt.Errorf("order %d isn't there, so no order before it is forgotten", number)
}

// folderPlace has orders in the folder of one server.
type folderPlace struct {
	mutex   sync.Mutex
	folders Folders
}

// InFolder returns where the orders of one server lie, who alone appends to them.
func InFolder(folders Folders) Place { return &folderPlace{folders: folders} }

// Open implements Place.
func (p *folderPlace) Open(number uint64, maker Maker) (Order, error) {
	p.mutex.Lock()
	defer p.mutex.Unlock()
	if number == 0 {
		return nil, errNumber
	}
	gone, err := p.folders.IsGone(number)
	if err != nil {
		return nil, fmt.Errorf("looking for the mark of order %d: %w", number, err)
	}
	if gone {
		return nil, &goneError{number: number}
	}
	path, err := p.folders.Order(number)
	if err != nil {
		return nil, fmt.Errorf("the folder of order %d: %w", number, err)
	}
	return OpenLocal(path, maker), nil
}

// Forget implements Place.
func (p *folderPlace) Forget(ctx context.Context, below uint64) (deleted []uint64, err error) {
	p.mutex.Lock()
	defer p.mutex.Unlock()
	numbers, err := p.folders.OrderFolders()
	if err != nil {
		return nil, fmt.Errorf("looking for orders: %w", err)
	}
	if err := p.isThere(below, numbers); err != nil {
		return nil, err
	}
	for _, number := range numbers {
		if number >= below {
			break
		}
		if err := ctx.Err(); err != nil {
			return deleted, err
		}
		if err := p.forget(number); err != nil {
			return deleted, fmt.Errorf("forgetting order %d: %w", number, err)
		}
		deleted = append(deleted, number)
	}
	return deleted, nil
}

// isThere returns nil where an order is among those that have a folder, or is gone.
func (p *folderPlace) isThere(number uint64, numbers []uint64) error {
	for _, it := range numbers {
		if it == number {
			return nil
		}
	}
	gone, err := p.folders.IsGone(number)
	if err == nil && !gone {
		err = errNotThere(number)
	}
	return err
}

// forget deletes an order, which is marked before.
func (p *folderPlace) forget(number uint64) error {
	gone, err := p.folders.IsGone(number)
	if err != nil {
		return fmt.Errorf("looking for its mark: %w", err)
	}
	if !gone {
		if err := p.folders.MarkGone(number); err != nil {
			return fmt.Errorf("marking it as gone: %w", err)
		}
	}
	if err := p.folders.RemoveOrder(number); err != nil {
		return fmt.Errorf("deleting its folder: %w", err)
	}
	return nil
}
