package supervision

import (
	"errors"
	"os"
	"path/filepath"
	"strconv"
	"strings"
	"testing"
)

var notes = map[string]NoteKind{"up": Up, "ignore": Ignored, "fail": Failed, "exit": Exit}
var byID = map[string]Call{"restart": RestartChild, "delete": DeleteChild, "get": GetChildspec, "terminate": TerminateChild}
var alone = map[string]Call{"start": StartDynamic, "which": WhichChildren, "count": CountChildren}

// Tells what a line of otp sim says, at this reading.
func tell(tree *Tree, now uint64, words []string) (err error) {
	verb, rest := words[0], words[1:]
	switch {
	case notes[verb] != 0:
		reason := Normal
		if len(rest) > 1 {
			if reason, err = ParseReason(rest[1]); err != nil {
				return err
			}
		}
		number, err := strconv.ParseUint(rest[0], 10, 64)
		if err != nil {
			return err
		}
		return tree.Note(now, 0, notes[verb], number, reason)
	case verb == "stop":
		return tree.Stop(now)
	case verb == "terminate" && rest[0][0] == '#':
		number, err := strconv.ParseUint(rest[0][1:], 10, 64)
		if err != nil {
			return err
		}
		_, err = tree.Call(now, 0, TerminateProcess, "", number)
		return err
	case verb == "start" && len(rest) == 6:
		_, err = tree.StartChild(now, 0, Spec{rest[0], rest[1], rest[2], rest[3] == "true", rest[4], rest[5]})
	case byID[verb] != 0:
		_, err = tree.Call(now, 0, byID[verb], rest[0], 0)
	case alone[verb] != 0:
		_, err = tree.Call(now, 0, alone[verb], "", 0)
	default:
		err = errors.New("no line of a script: " + verb)
	}
	return err
}

func orders(t *testing.T, tree *Tree, printed *strings.Builder) {
	for {
		order, ok, err := tree.Next()
		if err != nil {
			t.Fatal(err)
		}
		if !ok {
			return
		}
		printed.WriteString(order.String() + "\n")
	}
}

func play(t *testing.T, text, lines string) string {
	tree, err := Open(text)
	var refused *Refused
	if errors.As(err, &refused) {
		return "tree refused: E" + strconv.Itoa(int(refused.Code))
	}
	if err != nil {
		t.Fatal(err)
	}
	defer tree.Close()
	var printed strings.Builder
	now := uint64(0)
	orders(t, tree, &printed)
	for _, line := range strings.Split(lines, "\n") {
		words := strings.Split(line, " ")
		switch {
		case line == "":
			continue
		case words[0] == "at":
			now, _ = strconv.ParseUint(words[1], 10, 64)
			err = tree.Tick(now)
		default:
			err = tell(tree, now, words)
		}
		if err != nil {
			t.Fatal(line, err)
		}
		orders(t, tree, &printed)
	}
	return printed.String()
}

// The transcripts of OTP that the gate replays: the same orders, to the byte. OTP_TRANSCRIPTS names their folder.
func TestTranscripts(t *testing.T) {
	folder := os.Getenv("OTP_TRANSCRIPTS")
	if folder == "" {
		t.Skip("OTP_TRANSCRIPTS names no folder")
	}
	paths, _ := filepath.Glob(filepath.Join(folder, "*.txt"))
	played := 0
	for _, path := range paths {
		data, err := os.ReadFile(path)
		if err != nil {
			t.Fatal(err)
		}
		for _, one := range strings.Split(string(data), "\n== ")[1:] {
			parts := strings.SplitN(one, "\n", 3)
			tree, rest, _ := strings.Cut(parts[2], "-- lines\n")
			lines, wanted, _ := strings.Cut(rest, "-- orders\n")
			found := play(t, tree, lines)
			if strings.Trim(found, "\n") != strings.Trim(wanted, "\n") {
				t.Fatalf("%s\n%s\n%s\nwanted:\n%s\nfound:\n%s", parts[0], tree, lines, wanted, found)
			}
			played++
		}
	}
	if played < 1500 {
		t.Fatalf("only %d transcripts were found", played)
	}
	t.Logf("%d transcripts of OTP were played", played)
}
