package cluster

import "fmt"

// Prepared returns the name of the member for which a folder was prepared; empty where it was for none.
func Prepared(folder string) (name string, err error) {
	found, err := readMark(folder)
	if err != nil {
		return "", fmt.Errorf("the cluster's member in %s: %w", folder, err)
	}
	if found == nil {
		return "", nil
	}
	return found.name, nil
}
