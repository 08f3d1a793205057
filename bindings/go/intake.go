// Package intake decides JSON sheets by the proved library intake, which pkg-config finds (include/intake.h says what each call answers).
package intake

// #cgo pkg-config: intake
// #include <intake.h>
import "C"

// Number is what a call ended with.
type Number uint32

const (
	Answered            Number = C.INTAKE_ANSWERED
	WorkTooShort        Number = C.INTAKE_WORK_TOO_SHORT
	SheetTooLong        Number = C.INTAKE_SHEET_TOO_LONG
	NotUTF8             Number = C.INTAKE_NOT_UTF8
	NotJSON             Number = C.INTAKE_NOT_JSON
	TooDeep             Number = C.INTAKE_TOO_DEEP
	NumberTooLong       Number = C.INTAKE_NUMBER_TOO_LONG
	TooManyNodes        Number = C.INTAKE_TOO_MANY_NODES
	RepeatedName        Number = C.INTAKE_REPEATED_NAME
	NotASheet           Number = C.INTAKE_NOT_A_SHEET
	WrongShape          Number = C.INTAKE_WRONG_SHAPE
	NotCarried          Number = C.INTAKE_NOT_CARRIED
	NoInput             Number = C.INTAKE_NO_INPUT
	UnknownExpression   Number = C.INTAKE_UNKNOWN_EXPRESSION
	NoID                Number = C.INTAKE_NO_ID
	PreconditionFalse   Number = C.INTAKE_PRECONDITION_FALSE
	PreconditionUnknown Number = C.INTAKE_PRECONDITION_UNKNOWN
	InvariantFalse      Number = C.INTAKE_INVARIANT_FALSE
	InvariantUnknown    Number = C.INTAKE_INVARIANT_UNKNOWN
	NoOutcome           Number = C.INTAKE_NO_OUTCOME
	GuardUnknown        Number = C.INTAKE_GUARD_UNKNOWN
	WrongState          Number = C.INTAKE_WRONG_STATE
	NotASource          Number = C.INTAKE_NOT_A_SOURCE
	LineTooLong         Number = C.INTAKE_LINE_TOO_LONG
)

// OutputBytes is an output that no line exceeds.
const OutputBytes = C.INTAKE_OUTPUT_BYTES

// Decision is a call's number, and its line with LF, nil where it has none.
type Decision struct {
	Number Number
	Line   []byte
}

// Intake is the memory that calls are lent: no call allocates, and a line stands until the next one. Each goroutine needs one of its own.
type Intake struct {
	work   []C.uint32_t
	output []byte
}

// New makes one with an output that no line exceeds.
func New() *Intake {
	return WithOutput(OutputBytes)
}

// WithOutput makes one with an output of so many bytes; a longer line is refused (LineTooLong).
func WithOutput(bytes int) *Intake {
	return &Intake{work: make([]C.uint32_t, C.INTAKE_WORK_WORDS), output: make([]byte, bytes)}
}

// Evaluate gives the truth of the sheet's condition, and the names that it misses.
func (i *Intake) Evaluate(sheet []byte) Decision {
	return i.decision(C.intake_evaluate(start(sheet), size(sheet), &i.work[0], C.INTAKE_WORK_WORDS, start(i.output), size(i.output)))
}

// Preconditions says whether all preconditions are true.
func (i *Intake) Preconditions(sheet []byte) Decision {
	return i.decision(C.intake_preconditions(start(sheet), size(sheet), &i.work[0], C.INTAKE_WORK_WORDS, start(i.output), size(i.output)))
}

// Invariants says whether all invariants are true.
func (i *Intake) Invariants(sheet []byte) Decision {
	return i.decision(C.intake_invariants(start(sheet), size(sheet), &i.work[0], C.INTAKE_WORK_WORDS, start(i.output), size(i.output)))
}

// Select gives the first eligible outcome whose guard is true or missing.
func (i *Intake) Select(sheet []byte) Decision {
	return i.decision(C.intake_select(start(sheet), size(sheet), &i.work[0], C.INTAKE_WORK_WORDS, start(i.output), size(i.output)))
}

// Admit says whether the outcome at a place, from 0 on, is kept in the sheet's state.
func (i *Intake) Admit(place uint64, sheet []byte) Decision {
	return i.decision(C.intake_admit(C.uint64_t(place), start(sheet), size(sheet), &i.work[0], C.INTAKE_WORK_WORDS, start(i.output), size(i.output)))
}

// Decide makes the whole decision: preconditions, then the outcome selected, then its admission.
func (i *Intake) Decide(sheet []byte) Decision {
	return i.decision(C.intake_decide(start(sheet), size(sheet), &i.work[0], C.INTAKE_WORK_WORDS, start(i.output), size(i.output)))
}

// Version is that of the library: 10,000 times the major number, 100 times the minor one, and the patch.
func Version() uint32 {
	return uint32(C.intake_version())
}

// The number stands in the upper half of the word, the line's length in the lower half.
func (i *Intake) decision(answer C.uint64_t) Decision {
	decision := Decision{Number: Number(answer >> 32)}
	if length := uint32(answer); length > 0 {
		decision.Line = i.output[:length]
	}
	return decision
}

func start(bytes []byte) *C.uint8_t {
	if len(bytes) == 0 {
		return nil
	}
	return (*C.uint8_t)(&bytes[0])
}

func size(bytes []byte) C.size_t {
	return C.size_t(len(bytes))
}
