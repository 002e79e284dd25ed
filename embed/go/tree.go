// Package supervision has supervision trees with the rules of Erlang/OTP, decided by a library that is proved.
//
// A Supervisor supervises goroutines. A Tree is the core by itself, for any other kind of process: what happened goes in, orders come
// out. This layer is tested, not proved.
package supervision

/*
#cgo CFLAGS: -I${SRCDIR}/native
#cgo LDFLAGS: ${SRCDIR}/native/libotp-supervision.a
#include <stdlib.h>
#include <otp.h>
*/
import "C"

import (
	"errors"
	"fmt"
	"runtime"
	"strings"
	"unsafe"
)

// Fault is a status of the library's header: the call isn't taken, and the tree is as it was.
type Fault uint32

// Memory says that memory was refused: the same call may be made again.
const Memory Fault = C.OTP_MEMORY

func (f Fault) Error() string {
	return "supervision: " + C.GoString(C.otp_status_text(C.uint32_t(f)))
}

// Refused says why a tree file is refused: Code is the N of EN, as otp check prints it.
type Refused struct {
	Code uint32
	Text string
}

func (r *Refused) Error() string {
	return fmt.Sprintf("supervision: tree refused: E%d: %s", r.Code, r.Text)
}

// Order is an order of a tree. Number is the process, or of a reply the call.
type Order struct {
	Kind       OrderKind
	Supervisor uint32
	Number     uint64
	ID, Start  string
	// The reading at which the order to kill it comes, of an Ask; HasDeadline says whether there is one.
	Deadline    uint64
	HasDeadline bool
	// Of an End.
	Reason Reason
	Cause  Cause
	// Of a reply, as otp sim prints it.
	Answer string
}

func (o Order) String() string {
	switch o.Kind {
	case Replied:
		return fmt.Sprintf("reply %d %s", o.Number, o.Answer)
	case Ready:
		return "ready"
	case End:
		return "end " + o.Reason.String()
	}
	id := o.ID
	if id == "" {
		id = "-"
	}
	return fmt.Sprintf("%s %s #%d", [...]string{"?", "start", "ask", "kill"}[o.Kind], id, o.Number)
}

// Spec is a child's specification. Shutdown is milliseconds, brutal_kill or infinity.
type Spec struct {
	ID, Start, Restart string
	Significant        bool
	Shutdown, Type     string
}

// Tree is a whole tree of supervisors. One goroutine uses it at a time. A reading of the clock is in milliseconds since any beginning;
// what is told carries the one at which it happens.
type Tree struct {
	// In C's memory: a handle is never copied or moved.
	at *C.otp_tree
}

// Open opens the tree of the text of a tree file.
func Open(text string) (*Tree, error) {
	if C.otp_fits() == 0 {
		return nil, errors.New("supervision: the library has another interface than its header")
	}
	tree := &Tree{(*C.otp_tree)(C.calloc(1, C.sizeof_otp_tree))}
	if tree.at == nil {
		return nil, Memory
	}
	var fault C.otp_fault
	at, length := bytesOf(text)
	if status := C.otp_open(tree.at, at, length, &fault); status != C.OTP_OK {
		C.free(unsafe.Pointer(tree.at))
		if status == C.OTP_BAD_TREE {
			return nil, &Refused{uint32(fault.code), C.GoStringN((*C.char)(unsafe.Pointer(&fault.text[0])), C.int(fault.text_len))}
		}
		return nil, Fault(status)
	}
	runtime.SetFinalizer(tree, (*Tree).Close)
	return tree, nil
}

// Close frees the tree. A closed one takes no call but this.
func (t *Tree) Close() {
	if t.at != nil {
		C.otp_close(t.at)
		C.free(unsafe.Pointer(t.at))
		t.at = nil
	}
}

// A pointer to the bytes of a text, which is never nil.
func bytesOf(text string) (*C.uint8_t, C.size_t) {
	data := append([]byte(text), 0)
	return (*C.uint8_t)(unsafe.Pointer(&data[0])), C.size_t(len(text))
}

func check(status C.uint32_t) error {
	if status != C.OTP_OK {
		return Fault(status)
	}
	return nil
}

// Tick tells what time it is: what is due by then comes with the next orders.
func (t *Tree) Tick(reading uint64) error {
	return check(C.otp_tick(t.at, C.uint64_t(reading)))
}

// Note tells at this reading how a process stands, to the supervisor that ordered its start.
func (t *Tree) Note(reading uint64, supervisor uint32, kind NoteKind, number uint64, reason Reason) error {
	at, length := bytesOf(reason.text)
	return check(C.otp_note(
		t.at, C.uint64_t(reading), C.uint32_t(supervisor), C.uint32_t(kind), C.uint64_t(number), C.uint32_t(reason.number), at, length))
}

// Stop wants the root to shut down.
func (t *Tree) Stop(reading uint64) error {
	return check(C.otp_stop(t.at, C.uint64_t(reading)))
}

// Call asks for a call, whose answer comes with an order Replied under the number that this returns.
func (t *Tree) Call(reading uint64, supervisor uint32, call Call, id string, number uint64) (uint64, error) {
	var told C.uint64_t
	name := rawName(id)
	err := check(C.otp_call(t.at, C.uint64_t(reading), C.uint32_t(supervisor), C.uint32_t(call), &name, C.uint64_t(number), &told))
	return uint64(told), err
}

// StartChild asks for start_child/2 with a specification; its answer comes as that of any call.
func (t *Tree) StartChild(reading uint64, supervisor uint32, spec Spec) (uint64, error) {
	raw := C.otp_spec{restart: C.uint32_t(numberOf(restarts, spec.Restart)), modules: 1}
	raw._type = C.uint32_t(numberOf(types, spec.Type))
	if spec.Significant {
		raw.significant = 1
	}
	switch spec.Shutdown {
	case "brutal_kill":
		raw.shutdown = C.OTP_SHUTDOWN_BRUTAL_KILL
	case "infinity":
		raw.shutdown = C.OTP_SHUTDOWN_INFINITY
	default:
		raw.shutdown = C.OTP_SHUTDOWN_MILLISECONDS
		var time uint32
		if _, err := fmt.Sscanf(spec.Shutdown, "%d", &time); err != nil {
			return 0, fmt.Errorf("supervision: a shutdown isn't %q", spec.Shutdown)
		}
		raw.shutdown_ms = C.uint32_t(time)
	}
	raw.id, raw.start = rawName(spec.ID), rawName(spec.Start)
	raw.module[0] = raw.start
	var told C.uint64_t
	err := check(C.otp_start_child(t.at, C.uint64_t(reading), C.uint32_t(supervisor), &raw, &told))
	return uint64(told), err
}

// Next is the next order; ok says whether there was one. Each comes once: carry it out before the next one is taken.
func (t *Tree) Next() (order Order, ok bool, err error) {
	var raw C.otp_order
	switch status := C.otp_next(t.at, &raw); status {
	case C.OTP_OK:
	case C.OTP_NONE:
		return Order{}, false, nil
	default:
		return Order{}, false, Fault(status)
	}
	order = Order{
		Kind: OrderKind(raw.kind), Supervisor: uint32(raw.supervisor), Number: uint64(raw.number), ID: name(raw.id), Start: name(raw.start),
		Deadline: uint64(raw.deadline), HasDeadline: raw.has_deadline != 0,
	}
	switch order.Kind {
	case End:
		order.Reason, order.Cause = Reason{uint32(raw.reason), text(raw.text)}, Cause(raw.cause)
	case Replied:
		order.Answer, err = t.answer()
	}
	return order, err == nil, err
}

// Deadline is the reading at which the clock is to be read again at the latest, if there is one.
func (t *Tree) Deadline() (reading uint64, ok bool) {
	var raw C.uint64_t
	status := C.otp_deadline(t.at, &raw)
	return uint64(raw), status == C.OTP_OK
}

// Path is the ids from the root's child on, each with a / behind it; the root's is empty.
func (t *Tree) Path(supervisor uint32) (string, error) {
	path := ""
	for supervisor != 0 {
		var raw C.otp_supervisor
		if err := check(C.otp_look(t.at, C.uint32_t(supervisor), &raw)); err != nil {
			return "", err
		}
		path, supervisor = name(raw.id)+"/"+path, uint32(raw.parent)
	}
	return path, nil
}

func (t *Tree) answer() (string, error) {
	var raw C.otp_answer
	if err := check(C.otp_answer_of(t.at, &raw)); err != nil {
		return "", err
	}
	switch raw.kind {
	case C.OTP_ANSWER_OK:
		return "ok", nil
	case C.OTP_ANSWER_PROCESS:
		return fmt.Sprintf("ok #%d", raw.number), nil
	case C.OTP_ANSWER_UNDEFINED:
		return "ok undefined", nil
	case C.OTP_ANSWER_NOPROC:
		return "noproc", nil
	case C.OTP_ANSWER_COUNT:
		return fmt.Sprintf("count specs %d active %d supervisors %d workers %d", raw.specs, raw.active, raw.supervisors, raw.workers), nil
	case C.OTP_ANSWER_WHICH:
		return t.lines(uint32(raw.lines))
	case C.OTP_ANSWER_SPEC:
		return t.spec()
	}
	return "error " + refusal(raw), nil
}

func refusal(raw C.otp_answer) string {
	said := word(refusals, uint32(raw.fault))
	switch raw.fault {
	case C.OTP_REFUSED_ALREADY_STARTED:
		return fmt.Sprintf("%s #%d", said, raw.number)
	case C.OTP_REFUSED_BAD_SPEC:
		return fmt.Sprintf("%s E%d", said, raw.spec_fault)
	case C.OTP_REFUSED_START_FAILED:
		return said + " " + Reason{uint32(raw.reason), text(raw.text)}.String()
	}
	return said
}

func (t *Tree) lines(count uint32) (string, error) {
	said := "which"
	for place := uint32(0); place < count; place++ {
		var raw C.otp_line
		if err := check(C.otp_answer_line(t.at, C.uint32_t(place), &raw)); err != nil {
			return "", err
		}
		id, process := name(raw.id), "undefined"
		if id == "" {
			id = "undefined"
		}
		switch raw.process {
		case 1:
			process = fmt.Sprintf("#%d", raw.number)
		case 2:
			process = "restarting"
		}
		said += fmt.Sprintf(" %s,%s,%s,%s", id, process, word(types, uint32(raw._type)), modules(uint32(raw.modules), raw.module))
	}
	return said, nil
}

func (t *Tree) spec() (string, error) {
	var raw C.otp_spec
	if err := check(C.otp_answer_spec(t.at, &raw)); err != nil {
		return "", err
	}
	shutdown := fmt.Sprint(raw.shutdown_ms)
	switch raw.shutdown {
	case C.OTP_SHUTDOWN_BRUTAL_KILL:
		shutdown = "brutal_kill"
	case C.OTP_SHUTDOWN_INFINITY:
		shutdown = "infinity"
	}
	return fmt.Sprintf("spec %s start %s restart %s significant %t shutdown %s type %s modules %s", name(raw.id), name(raw.start),
		word(restarts, uint32(raw.restart)), raw.significant != 0, shutdown, word(types, uint32(raw._type)),
		modules(uint32(raw.modules), raw.module)), nil
}

func modules(count uint32, named [4]C.otp_name) string {
	if count == C.OTP_MODULES_DYNAMIC {
		return "dynamic"
	}
	names := make([]string, 0, len(named))
	for place := 0; place < int(count) && place < len(named); place++ {
		names = append(names, name(named[place]))
	}
	if len(names) == 0 {
		return "-"
	}
	return strings.Join(names, "+")
}

func name(raw C.otp_name) string {
	return C.GoStringN((*C.char)(unsafe.Pointer(&raw.bytes[0])), C.int(raw.len))
}

func text(raw C.otp_text) string {
	return C.GoStringN((*C.char)(unsafe.Pointer(&raw.bytes[0])), C.int(raw.len))
}

// A name for the library, which refuses one that it can't have.
func rawName(text string) C.otp_name {
	var raw C.otp_name
	length := len(text)
	if length > 255 {
		length = 255
	}
	raw.len = C.uint8_t(length)
	for place := 0; place < length && place < len(raw.bytes); place++ {
		raw.bytes[place] = C.uint8_t(text[place])
	}
	return raw
}
