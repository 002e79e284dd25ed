"""The library for C by ctypes (embed/c/otp.h): a tree whose processes are the caller's. Answers and orders are given in the words
of `sim`, so that they can be compared with what the programs print."""

import ctypes as c

OK, NONE, NESTED = 0, 1, 13
NOTES = {"up": 1, "ignore": 2, "fail": 3, "exit": 4}
REASONS = ["", "normal", "shutdown", "shutdown:", "kill", "killed", "noproc", "error:"]
ORDERS = ["", "start", "ask", "kill", "reply", "ready", "end"]
CAUSES = ["", "intensity", "significant", "asked", "init_failed"]
CALLS = {"start": 1, "restart": 2, "delete": 3, "terminate": 4, "terminate_process": 5, "which": 6, "count": 7, "get": 8}
FAULTS = ["", "not_found", "running", "restarting", "simple_one_for_one", "not_simple", "already_present", "already_started",
          "too_many_children", "bad_spec", "start"]
RESTARTS = ["", "permanent", "transient", "temporary"]
TYPES = ["", "worker", "supervisor"]
DYNAMIC = 5
STATES = ["", "undefined", "starting", "up", "asked", "killed", "restarting"]
PHASES = ["", "unopened", "runs", "ended"]


class Name(c.Structure):
    _fields_ = [("len", c.c_uint8), ("bytes", c.c_uint8 * 32)]

    @classmethod
    def of(cls, text):
        return cls(len(text), (c.c_uint8 * 32)(*text.encode()))

    def __str__(self):
        return bytes(self.bytes)[: self.len].decode()


class Text(c.Structure):
    _fields_ = [("len", c.c_uint8), ("bytes", c.c_uint8 * 64)]

    def __str__(self):
        return bytes(self.bytes)[: self.len].decode()


class Spec(c.Structure):
    _fields_ = [("restart", c.c_uint32), ("significant", c.c_uint32), ("type", c.c_uint32), ("shutdown", c.c_uint32),
                ("shutdown_ms", c.c_uint32), ("modules", c.c_uint32), ("id", Name), ("start", Name), ("module", Name * 4)]

    @classmethod
    def of(cls, words):
        """The specification that a line's words say: ID START RESTART SIGNIFICANT SHUTDOWN TYPE."""
        name, start, restart, significant, shutdown, kind = words
        how = {"brutal_kill": (1, 0), "infinity": (3, 0)}.get(shutdown) or (2, int(shutdown))
        modules = (Name * 4)(Name.of(start))
        return cls(RESTARTS.index(restart), significant == "true", TYPES.index(kind), *how, 1, Name.of(name), Name.of(start), modules)

    def text(self):
        shutdown = ["", "brutal_kill", self.shutdown_ms, "infinity"][self.shutdown]
        significant = "true" if self.significant else "false"
        return (f"spec {self.id} start {self.start} restart {RESTARTS[self.restart]} significant {significant} "
                f"shutdown {shutdown} type {TYPES[self.type]} modules {modules_of(self)}")


class Order(c.Structure):
    _fields_ = [("number", c.c_uint64), ("deadline", c.c_uint64), ("kind", c.c_uint32), ("supervisor", c.c_uint32),
                ("has_deadline", c.c_uint32), ("reason", c.c_uint32), ("cause", c.c_uint32), ("id", Name), ("start", Name), ("text", Text)]


class Answer(c.Structure):
    _fields_ = [(name, c.c_uint64) for name in ("call", "number", "specs", "active", "supervisors", "workers")]
    _fields_ += [(name, c.c_uint32) for name in ("kind", "fault", "spec_fault", "spec_key", "reason", "lines")] + [("text", Text)]


class Line(c.Structure):
    _fields_ = [("number", c.c_uint64), ("process", c.c_uint32), ("type", c.c_uint32), ("modules", c.c_uint32), ("id", Name),
                ("module", Name * 4)]

    def __str__(self):
        process = ["", f"#{self.number}", "restarting", "undefined"][self.process]
        return f"{self.id if self.id.len else 'undefined'},{process},{TYPES[self.type]},{modules_of(self)}"


class Supervisor(c.Structure):
    _fields_ = [(name, c.c_uint64) for name in ("intensity", "period", "process", "specs", "active", "supervisors", "workers", "restarts",
                                                "in_period", "starts", "rows")]
    _fields_ += [(name, c.c_uint32) for name in ("parent", "strategy", "auto_shutdown", "phase", "has_process", "is_stopping",
                                                 "has_open_work", "cause")] + [("id", Name)]


class Child(c.Structure):
    _fields_ = [("number", c.c_uint64), ("deadline", c.c_uint64), ("state", c.c_uint32), ("has_deadline", c.c_uint32),
                ("nested", c.c_uint32), ("spec", Spec), ("id", Name)]

    def process(self):
        """Its process, or None where it has none."""
        return self.number if STATES[self.state] in ("starting", "up", "asked", "killed") else None


class Fault(c.Structure):
    _fields_ = [(name, c.c_uint32) for name in ("code", "table", "place", "index", "key", "text_len")] + [("text", c.c_uint8 * 160)]


HANDLE, READING, BYTES, WORD = c.c_void_p, c.c_uint64, [c.c_char_p, c.c_size_t], c.c_uint32
# What each call takes behind the handle.
FUNCTIONS = {
    "otp_open": [*BYTES, c.POINTER(Fault)], "otp_close": [], "otp_tick": [READING], "otp_stop": [READING],
    "otp_note": [READING, WORD, WORD, c.c_uint64, WORD, *BYTES], "otp_next": [c.POINTER(Order)],
    "otp_start_child": [READING, WORD, c.POINTER(Spec), c.POINTER(c.c_uint64)],
    "otp_call": [READING, WORD, WORD, c.POINTER(Name), c.c_uint64, c.POINTER(c.c_uint64)],
    "otp_answer_of": [c.POINTER(Answer)], "otp_answer_line": [WORD, c.POINTER(Line)], "otp_answer_spec": [c.POINTER(Spec)],
    "otp_deadline": [c.POINTER(c.c_uint64)], "otp_supervisors": [c.POINTER(WORD)], "otp_look": [WORD, c.POINTER(Supervisor)],
    "otp_look_child": [WORD, WORD, c.POINTER(Child)],
}


class Refused(Exception):
    """A call of the library was refused that a player may make."""


def modules_of(it):
    return "dynamic" if it.modules == DYNAMIC else "+".join(str(name) for name in it.module[: it.modules]) or "-"


def reason_of(number, text):
    word = REASONS[number]
    return f"{word}{text}" if word.endswith(":") else word


def cut(reason):
    """The number of a reason, and its text."""
    word, colon, text = reason.partition(":")
    return REASONS.index(word + colon), text.encode()


def load(path):
    library = c.CDLL(path)
    for name, words in FUNCTIONS.items():
        function = getattr(library, name)
        function.argtypes, function.restype = [HANDLE, *words], c.c_uint32
    return library


class Driver:
    """A tree that the library drives."""

    def __init__(self, library, text):
        self.library, self.handle = library, (c.c_uint64 * 2)()
        self.room = c.addressof(self.handle)
        fault = Fault()
        if library.otp_open(self.room, text.encode(), len(text.encode()), fault) != OK:
            raise Refused(bytes(fault.text)[: fault.text_len].decode())
        count = WORD()
        library.otp_supervisors(self.room, count)
        self.count = count.value

    def close(self):
        self.library.otp_close(self.room)

    def call(self, name, *words):
        """Makes a call: whether there was what it asks for."""
        status = getattr(self.library, name)(self.room, *words)
        if status not in (OK, NONE):
            raise Refused(f"{name}{words}: status {status}")
        return status == OK

    def tick(self, reading):
        self.call("otp_tick", reading)

    def stop(self, reading):
        self.call("otp_stop", reading)

    def note(self, reading, supervisor, what, number, reason=""):
        kind, text = cut(reason) if reason else (0, b"")
        self.call("otp_note", reading, supervisor, NOTES[what], number, kind, text, len(text))

    def ask(self, reading, supervisor, words):
        """Makes the call that a line's words say; its number."""
        number, verb, name, process = c.c_uint64(), words[0], Name(), 0
        if verb == "start" and len(words) > 1:
            self.call("otp_start_child", reading, supervisor, Spec.of(words[1:]), number)
            return number.value
        if len(words) > 1 and words[1].startswith("#"):
            verb, process = "terminate_process", int(words[1][1:])
        elif len(words) > 1:
            name = Name.of(words[1])
        self.call("otp_call", reading, supervisor, CALLS[verb], name, process, number)
        return number.value

    def next(self):
        order = Order()
        return order if self.call("otp_next", order) else None

    def deadline(self):
        reading = c.c_uint64()
        return reading.value if self.call("otp_deadline", reading) else None

    def look(self, supervisor):
        found = Supervisor()
        self.call("otp_look", supervisor, found)
        return found

    def children(self, supervisor):
        found = []
        while self.call("otp_look_child", supervisor, len(found), it := Child()):
            found.append(it)
        return found

    def answer(self):
        """The answer of the last reply, as `sim` prints it behind the call's number."""
        it = Answer()
        self.call("otp_answer_of", it)
        return [None, self.done, self.process, self.undefined, self.refused, self.which, self.counted, self.spec, self.noproc][it.kind](it)

    def done(self, _):
        return "ok"

    def process(self, it):
        return f"ok #{it.number}"

    def undefined(self, _):
        return "ok undefined"

    def refused(self, it):
        word = FAULTS[it.fault]
        more = {"already_started": f" #{it.number}", "bad_spec": f" E{it.spec_fault}"}.get(word, "")
        return f"error {word}{more}" + (f" {reason_of(it.reason, it.text)}" if word == "start" else "")

    def which(self, it):
        lines = [Line() for _ in range(it.lines)]
        for index, line in enumerate(lines):
            self.call("otp_answer_line", index, line)
        return " ".join(["which", *map(str, lines)])

    def counted(self, it):
        return f"count specs {it.specs} active {it.active} supervisors {it.supervisors} workers {it.workers}"

    def spec(self, _):
        self.call("otp_answer_spec", it := Spec())
        return it.text()

    def noproc(self, _):
        return "noproc"
