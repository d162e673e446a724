package order

import (
	"context"
	"errors"
	"strings"

	"google.golang.org/grpc/codes"
	"google.golang.org/grpc/status"
)

// fault is what became of a request that etcd didn't answer as was wanted.
type fault int

const (
	lost       fault = iota // no answer: what was asked may have been done, or may still be
	refused                 // etcd hasn't done what was asked, and won't
	full                    // etcd has no space; what was asked may have been done
	tooLarge                // etcd won't take so much
	badToken                // the login has to be made anew
	compacted               // what was asked for isn't kept any more
	unfinished              // the request's own context is over
)

// faultOf returns what became of a request.
func faultOf(ctx context.Context, err error) fault {
	var told *said
	if errors.As(err, &told) {
		err = told.cause
	}
	text := wordsOf(err)
	switch code := codeOf(err); {
	case ctx.Err() != nil && !errors.Is(ctx.Err(), context.DeadlineExceeded):
		return unfinished
	case strings.Contains(text, "database space exceeded"), strings.Contains(text, "no space"):
		return full
	case strings.Contains(text, "request is too large"):
		return tooLarge
	case strings.Contains(text, "invalid auth token"), strings.Contains(text, "auth store is old"),
		strings.Contains(text, "user name is empty"):
		return badToken
	case strings.Contains(text, "compacted"):
		return compacted
	case code == codes.PermissionDenied, code == codes.Unauthenticated, code == codes.InvalidArgument,
		strings.Contains(text, "too many requests"):
		return refused
	}
	return lost
}

// codeOf returns a request's gRPC code. A member in this process answers with errors of etcd that carry none.
func codeOf(err error) codes.Code {
	if errors.Is(err, context.DeadlineExceeded) {
		return codes.DeadlineExceeded
	}
	return status.Code(err)
}

// wordsOf returns what an error says, without the frame of gRPC.
func wordsOf(err error) string {
	text := err.Error()
	if found, ok := status.FromError(err); ok {
		text = found.Message()
	}
	text = strings.TrimPrefix(text, "etcdserver: ")
	if at := strings.Index(text, "desc = \""); at >= 0 && strings.HasPrefix(text, "connection error") {
		text = strings.TrimSuffix(text[at+len("desc = \""):], "\"")
		text = strings.TrimPrefix(text, "transport: ")
		text = strings.TrimPrefix(text, "Error while dialing ")
	}
	return text
}

// said is an error in the words of an administrator.
type said struct {
	words string
	cause error
}

func (s *said) Error() string { return s.words }
func (s *said) Unwrap() error { return s.cause }

// explained says why an endpoint didn't answer.
func explained(endpoint string, err error) error {
	words := wordsOf(err)
	switch {
	case errors.Is(err, context.DeadlineExceeded), status.Code(err) == codes.DeadlineExceeded:
		words = "no answer in " + answerIn.String()
	case strings.Contains(words, "permission denied"):
		words += ": the login's user may not read or write the order's keys"
	case strings.Contains(words, "user name is empty"):
		words += ": etcd has users, and wants a login"
	case strings.Contains(words, "authentication is not enabled"):
		words += ": etcd has no users, and takes no login"
	case strings.Contains(words, "no leader"):
		words += ": most members of etcd don't reach each other"
	}
	return &said{endpoint + ": " + words, err}
}
