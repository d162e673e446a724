package batch

import "crypto/sha256"

// Digest is a SHA-256.
type Digest [sha256.Size]byte

// OfSettings returns the digest of answers before the first: that of the settings.
func OfSettings(settings []byte) Digest { return sha256.Sum256(settings) }

// WithString returns the digest of strings with one more: the SHA-256 of the digest so far and of the string's SHA-256.
// The digest of none is zeros.
func (d Digest) WithString(text []byte) Digest {
	var both [2 * sha256.Size]byte
	of := sha256.Sum256(text)
	copy(both[:], d[:])
	copy(both[sha256.Size:], of[:])
	return sha256.Sum256(both[:])
}

// WithAnswer returns the digest of answers with one more, which has no LF: the SHA-256 of the digest so far and the
// answer.
func (d Digest) WithAnswer(answer []byte) Digest {
	var room [256]byte // enough for most
	return sha256.Sum256(append(append(room[:0], d[:]...), answer...))
}
