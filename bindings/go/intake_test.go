package intake

import (
	"bytes"
	"fmt"
	"os"
	"path/filepath"
	"strings"
	"testing"
)

// A sheet that passes one rule and admits its second outcome; its condition misses a name.
var sheet = []byte(`{"entity":"e","version":1,"args":{"v":2},"fields":{},"old_fields":{},"to_state":"b","state":"a","states":["a","b"],
	"condition":{"eq":["$args.w",1]},"preconditions":[{"assert":{"gt":["$args.v",1]}}],"invariants":[{"assert":false,"name":"i","message":"m"}],
	"outcomes":[{"name":"first","when":{"lt":["$args.v",1]}},{"name":"second"}]}`)

func gives(t *testing.T, found Decision, number Number, line string) {
	t.Helper()
	if found.Number != number || string(found.Line) != line {
		t.Errorf("%d %q, not %d %q", found.Number, found.Line, number, line)
	}
}

func read(t *testing.T, path string) []byte {
	t.Helper()
	text, err := os.ReadFile(path)
	if err != nil {
		t.Fatal(err)
	}
	return text
}

func TestEveryExampleGivesItsLine(t *testing.T) {
	intake := New()
	sheets, err := filepath.Glob("../../examples/*.json")
	if err != nil || len(sheets) == 0 {
		t.Fatal("no examples")
	}
	for _, path := range sheets {
		decision := intake.Decide(read(t, path))
		printed := decision.Line
		if printed == nil {
			printed = []byte(fmt.Sprintf("(refused %d)\n", decision.Number))
		}
		if !bytes.Equal(printed, read(t, strings.TrimSuffix(path, ".json")+".line")) {
			t.Errorf("%s gives %s", path, printed)
		}
	}
}

func TestEachCallAnswers(t *testing.T) {
	intake := New()
	gives(t, intake.Evaluate(sheet), Answered, "(truth unknown (names \"$args.w\"))\n")
	gives(t, intake.Preconditions(sheet), Answered, "(passed)\n")
	gives(t, intake.Invariants(sheet), InvariantFalse, "(refused 17 0 \"i\" \"m\")\n")
	gives(t, intake.Select(sheet), Answered, "(selected 1 \"second\")\n")
	gives(t, intake.Admit(0, sheet), Answered, "(admitted 0 \"first\")\n")
	gives(t, intake.Admit(2, sheet), NoInput, "")
	gives(t, intake.Decide(sheet), Answered, "(admitted 1 \"second\")\n")
}

func TestNoLinePastTheOutput(t *testing.T) {
	line := "(admitted 1 \"second\")\n"
	gives(t, WithOutput(len(line)).Decide(sheet), Answered, line)
	gives(t, WithOutput(len(line)-1).Decide(sheet), LineTooLong, "")
	gives(t, WithOutput(0).Decide(sheet), LineTooLong, "")
}

func TestAnyBytesAreAnswered(t *testing.T) {
	intake := New()
	gives(t, intake.Decide(nil), NotJSON, "")
	gives(t, intake.Decide([]byte{255}), NotUTF8, "")
	gives(t, intake.Decide(bytes.Repeat([]byte{' '}, 32769)), SheetTooLong, "")
}

func TestNoCallAllocates(t *testing.T) {
	intake := New()
	if count := testing.AllocsPerRun(100, func() { intake.Decide(sheet) }); count != 0 {
		t.Errorf("%v allocations a call", count)
	}
}

func TestTheLibraryHasTheVersion(t *testing.T) {
	var major, minor, patch uint32
	if _, err := fmt.Sscanf(string(read(t, "../../VERSION")), "%d.%d.%d", &major, &minor, &patch); err != nil {
		t.Fatal(err)
	}
	if Version() != 10000*major+100*minor+patch {
		t.Errorf("the library has version %d", Version())
	}
}
