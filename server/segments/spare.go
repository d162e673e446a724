package segments

// Names of files that become segments.
const (
	spareName   = "next"
	renewedName = "renewed"
)

// spare is a file of zeros that is made beforehand, so that no append waits for it.
type spare struct {
	done chan struct{}
	file file
	err  error
}

func makeSpare(disk disk, size int64) *spare {
	s := &spare{done: make(chan struct{})}
	go func() {
		defer close(s.done)
		s.file, s.err = zeros(disk, spareName, size)
	}()
	return s
}

func (s *spare) wait() (file, error) {
	<-s.done
	return s.file, s.err
}

// zeros makes a forced file of zeros. Where that fails the file is removed.
func zeros(disk disk, name string, size int64) (file, error) {
	made, err := disk.create(name)
	if err != nil {
		return nil, err
	}
	if err := fill(made, size); err != nil {
		made.Close()
		disk.remove(name) // what can't be removed is removed at the next start
		return nil, err
	}
	return made, nil
}

func fill(made file, size int64) error {
	block := make([]byte, 1<<20)
	for at := int64(0); at < size; at += int64(len(block)) {
		if left := size - at; left < int64(len(block)) {
			block = block[:left]
		}
		if _, err := made.WriteAt(block, at); err != nil {
			return err
		}
	}
	return made.force()
}
