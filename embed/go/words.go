package supervision

import (
	"fmt"
	"strings"
)

// OrderKind is what an order orders.
type OrderKind uint32

// The kinds of orders.
const (
	Start OrderKind = 1 + iota
	Ask
	Kill
	Replied
	Ready
	End
)

// NoteKind is what a process tells.
type NoteKind uint32

// The kinds of notes.
const (
	Up NoteKind = 1 + iota
	Ignored
	Failed
	Exit
)

// Cause is what made a supervisor end.
type Cause uint32

// The causes of an end.
const (
	Intensity Cause = 1 + iota
	Significant
	Asked
	InitFailed
)

func (c Cause) String() string {
	switch c {
	case Intensity:
		return "more restarts within the period than the intensity allows"
	case Significant:
		return "a significant child has ended"
	case Asked:
		return "it was told to shut down"
	case InitFailed:
		return "a child didn't start"
	}
	return "it hasn't ended"
}

// Call is a call on a supervisor, but for StartChild with a specification.
type Call uint32

// The calls.
const (
	StartDynamic Call = 1 + iota
	RestartChild
	DeleteChild
	TerminateChild
	TerminateProcess
	WhichChildren
	CountChildren
	GetChildspec
)

// The words of the tree file, by the numbers that the library gives them from 1.
var (
	restarts = []string{"permanent", "transient", "temporary"}
	types    = []string{"worker", "supervisor"}
	reasons  = []string{"normal", "shutdown", "shutdown", "kill", "killed", "noproc", "error"}
	refusals = []string{
		"not_found", "running", "restarting", "simple_one_for_one", "not_simple", "already_present", "already_started",
		"too_many_children", "bad_spec", "start",
	}
)

func word(of []string, number uint32) string {
	if number == 0 || int(number) > len(of) {
		return "?"
	}
	return of[number-1]
}

func numberOf(of []string, word string) uint32 {
	for place, it := range of {
		if it == word {
			return uint32(place) + 1
		}
	}
	return 0
}

// Reason is why a process ended, or didn't start: normal, shutdown, kill, killed, noproc, shutdown:TEXT or error:TEXT.
type Reason struct {
	number uint32
	text   string
}

// The reasons without a text.
var (
	Normal   = Reason{1, ""}
	Shutdown = Reason{2, ""}
	Killed   = Reason{5, ""}
)

// Error is an error with this text, cut to 64 visible letters of ASCII: another byte becomes _.
func Error(text string) Reason {
	told := []byte(text)
	if len(told) > 64 {
		told = told[:64]
	}
	for place, it := range told {
		if it < 0x21 || it > 0x7e {
			told[place] = '_'
		}
	}
	if len(told) == 0 {
		told = []byte("_")
	}
	return Reason{7, string(told)}
}

// ParseReason reads a reason as it is written.
func ParseReason(text string) (Reason, error) {
	word, rest, has := strings.Cut(text, ":")
	switch {
	case has && word == "shutdown":
		return Reason{3, rest}, nil
	case has && word == "error":
		return Reason{7, rest}, nil
	case !has && numberOf(reasons, word) != 0:
		return Reason{numberOf(reasons, word), ""}, nil
	}
	return Reason{}, fmt.Errorf("supervision: %q is no reason", text)
}

func (r Reason) String() string {
	if r.text != "" {
		return word(reasons, r.number) + ":" + r.text
	}
	return word(reasons, r.number)
}
