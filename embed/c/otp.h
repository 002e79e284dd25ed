/* Supervision as Erlang/OTP 26 decides it (`supervisor`), for programs whose processes are their own: a whole tree of
 * supervisors behind one handle. What happened goes in, orders come out. Nothing here reads a clock, starts a process or
 * takes a lock; the decisions are proved (docs/PROVED.md).
 *
 * A loop that uses it:
 *
 *     otp_open(&tree, text, length, &fault);
 *     for (;;) {
 *         while ((status = otp_next(&tree, &order)) == OTP_OK)
 *             carry_out(&order);                        start, ask or kill a process; read an answer; the root's end
 *         wait until otp_deadline(&tree, &time), or until something happens;
 *         otp_note(&tree, now(), ...) or otp_call(&tree, now(), ...) or otp_stop(&tree, now());     what has happened
 *         otp_tick(&tree, now());                       what is due by now
 *     }
 *
 * A reading of the clock is in milliseconds from any beginning. What is told carries the one at which it happens: restarts and
 * deadlines are counted from it, however long nothing was told before. Take it after the wait, not before. The tree's clock never
 * goes back: a reading below an earlier one counts as that one. One above OTP_MAX_READING is refused (OTP_BAD_READING).
 *
 * What follows by itself from what was told (a deadline that has come, a retry, what waited, a nested supervisor's start,
 * shutdown or end) is done by otp_next. So otp_deadline is right once otp_next has answered OTP_NONE.
 *
 * What a caller owes, and nothing checks: each pointer is valid and not NULL, also where its length is 0. A handle begins
 * zeroed (OTP_TREE_INIT), is never copied or written to, and is used by one call at a time, also by one that only looks: each
 * takes the tree out of its handle and puts it back, so none takes a const one. It may move to another thread between two
 * calls. A call keeps no pointer that it is given.
 *
 * What is answered by a status: everything else. Where a call answers neither OTP_OK nor OTP_NONE, the tree is as it was, and
 * what a call would have written is not written (the fault of otp_open and otp_change apart). After OTP_MEMORY the same call may be made again.
 */
#ifndef OTP_H
#define OTP_H
#include <stddef.h>
#include <stdint.h>
#ifdef __cplusplus
extern "C" {
#endif

/* ---- version: one for all that a release has (otp_version, otp_fits) ---- */
#define OTP_VERSION_MAJOR  0
#define OTP_VERSION_MINOR  3
#define OTP_VERSION_PATCH  0
#define OTP_VERSION        "0.3.0"
#define OTP_VERSION_NUMBER ((uint32_t)OTP_VERSION_MAJOR << 16 | OTP_VERSION_MINOR << 8 | OTP_VERSION_PATCH)

/* ---- limits (the library's own numbers: otp_limit) ---- */
#define OTP_NAME_SIZE    32u
#define OTP_TEXT_SIZE    64u
#define OTP_FAULT_SIZE   160u
#define OTP_MAX_CHILDREN 256u
#define OTP_MAX_TABLES   64u
#define OTP_MAX_READING  (UINT64_C(1) << 62)

enum otp_limit_kind {            /* of otp_limit */
    OTP_LIMIT_NAME_SIZE = 1, OTP_LIMIT_TEXT_SIZE = 2, OTP_LIMIT_FAULT_SIZE = 3, OTP_LIMIT_CHILDREN = 4,
    OTP_LIMIT_TABLES = 5, OTP_LIMIT_READING = 6,
    OTP_LIMIT_EVENTS = 7         /* so many events of a supervisor are kept at the most once its orders were taken; while some
                                    wait, 65,536 events or lines of which_children are: then OTP_FULL */
};

/* ---- what every call answers ---- */
enum otp_status {
    OTP_OK = 0,
    OTP_NONE = 1,                /* there is none: no order is left, no deadline, no such line, no answer so far */
    OTP_CLOSED = 2,              /* the handle is empty */
    OTP_OPEN = 3,                /* otp_open: the handle has a tree already */
    OTP_MEMORY = 4,              /* memory was refused: nothing was done; the same call may be made again */
    OTP_FULL = 5,                /* orders of that supervisor wait: take them (otp_next), then make the call again */
    OTP_SPENT = 6,               /* 2^62 events or process numbers: the tree takes no more, ever */
    OTP_BAD_READING = 7,         /* the reading is above OTP_MAX_READING */
    OTP_BAD_KIND = 8,            /* the kind, or a number that stands for a word, is none of those listed */
    OTP_BAD_TEXT = 9,            /* a reason's text is not 1 to 64 bytes from 0x21 to 0x7E */
    OTP_BAD_NAME = 10,           /* a name says more than 32 bytes */
    OTP_BAD_TREE = 11,           /* otp_open, otp_change: the tree file is refused; the fault is told */
    OTP_NO_SUPERVISOR = 12,      /* no supervisor has this number */
    OTP_NESTED = 13,             /* otp_note: the process is a supervisor of the tree itself, of which nobody tells from outside */
    OTP_BUSY = 14,               /* otp_change: orders wait, or children are starting or stopping: make the call again later */
    OTP_RUNNING = 15,            /* otp_change: a child or a supervisor that isn't in the new file, or is of another kind there, has a
                                    process or waits for a restart: stop it first */
    OTP_TURNED = 16              /* otp_change: there are children, and the strategy becomes simple_one_for_one, or was it */
};

/* ---- words; 0 is none of them. Each word begins with its enum's name, or has a prefix of that enum alone ---- */
enum otp_note_kind { OTP_NOTE_UP = 1, OTP_NOTE_IGNORED = 2, OTP_NOTE_FAILED = 3, OTP_NOTE_EXIT = 4 };
enum otp_reason { OTP_REASON_NORMAL = 1, OTP_REASON_SHUTDOWN = 2, OTP_REASON_SHUTDOWN_WITH = 3, OTP_REASON_KILL = 4,
                  OTP_REASON_KILLED = 5, OTP_REASON_NOPROC = 6,
                  OTP_REASON_ERROR = 7 };  /* OTP_REASON_SHUTDOWN_WITH and OTP_REASON_ERROR have a text */
enum otp_order_kind { OTP_ORDER_START = 1, OTP_ORDER_ASK = 2, OTP_ORDER_KILL = 3, OTP_ORDER_REPLY = 4, OTP_ORDER_READY = 5,
                      OTP_ORDER_END = 6 };
enum otp_cause { OTP_CAUSE_INTENSITY = 1, OTP_CAUSE_SIGNIFICANT = 2, OTP_CAUSE_ASKED = 3, OTP_CAUSE_INIT_FAILED = 4 };
enum otp_restart { OTP_RESTART_PERMANENT = 1, OTP_RESTART_TRANSIENT = 2, OTP_RESTART_TEMPORARY = 3 };
enum otp_shutdown { OTP_SHUTDOWN_BRUTAL_KILL = 1, OTP_SHUTDOWN_MILLISECONDS = 2, OTP_SHUTDOWN_INFINITY = 3 };
enum otp_type { OTP_TYPE_WORKER = 1, OTP_TYPE_SUPERVISOR = 2 };
enum otp_modules { OTP_MODULES_DYNAMIC = 5 };      /* else how many there are: 0 to 4 */
enum otp_strategy { OTP_STRATEGY_ONE_FOR_ONE = 1, OTP_STRATEGY_ONE_FOR_ALL = 2, OTP_STRATEGY_REST_FOR_ONE = 3,
                    OTP_STRATEGY_SIMPLE_ONE_FOR_ONE = 4 };
enum otp_auto_shutdown { OTP_AUTO_SHUTDOWN_NEVER = 1, OTP_AUTO_SHUTDOWN_ANY_SIGNIFICANT = 2,
                         OTP_AUTO_SHUTDOWN_ALL_SIGNIFICANT = 3 };
enum otp_call_kind { OTP_CALL_START_DYNAMIC = 1, OTP_CALL_RESTART_CHILD = 2, OTP_CALL_DELETE_CHILD = 3,
                     OTP_CALL_TERMINATE_CHILD = 4, OTP_CALL_TERMINATE_PROCESS = 5, OTP_CALL_WHICH_CHILDREN = 6,
                     OTP_CALL_COUNT_CHILDREN = 7, OTP_CALL_GET_CHILDSPEC = 8 };
enum otp_answer_kind { OTP_ANSWER_OK = 1, OTP_ANSWER_PROCESS = 2, OTP_ANSWER_UNDEFINED = 3, OTP_ANSWER_REFUSED = 4,
                       OTP_ANSWER_WHICH = 5, OTP_ANSWER_COUNT = 6, OTP_ANSWER_SPEC = 7, OTP_ANSWER_NOPROC = 8 };
enum otp_call_fault { OTP_REFUSED_NOT_FOUND = 1, OTP_REFUSED_RUNNING = 2, OTP_REFUSED_RESTARTING = 3,
                      OTP_REFUSED_IS_SIMPLE = 4, OTP_REFUSED_NOT_SIMPLE = 5, OTP_REFUSED_ALREADY_PRESENT = 6,
                      OTP_REFUSED_ALREADY_STARTED = 7, OTP_REFUSED_TOO_MANY_CHILDREN = 8, OTP_REFUSED_BAD_SPEC = 9,
                      OTP_REFUSED_START_FAILED = 10 };
enum otp_child_state { OTP_CHILD_UNDEFINED = 1, OTP_CHILD_STARTING = 2, OTP_CHILD_UP = 3, OTP_CHILD_ASKED = 4,
                       OTP_CHILD_KILLED = 5, OTP_CHILD_RESTARTING = 6 };
enum otp_phase { OTP_PHASE_UNOPENED = 1, OTP_PHASE_RUNS = 2, OTP_PHASE_ENDED = 3 };
enum otp_fault_place { OTP_AT_TABLE = 1, OTP_AT_FLAG = 2, OTP_AT_CHILD = 3, OTP_AT_CHILD_KEY = 4 };
enum otp_flag_key { OTP_KEY_STRATEGY = 1, OTP_KEY_INTENSITY = 2, OTP_KEY_PERIOD = 3, OTP_KEY_AUTO_SHUTDOWN = 4,
                    OTP_KEY_CHILD = 5 };
enum otp_child_key { OTP_KEY_ID = 1, OTP_KEY_START = 2, OTP_KEY_RESTART = 3, OTP_KEY_SIGNIFICANT = 4, OTP_KEY_SHUTDOWN = 5,
                     OTP_KEY_TYPE = 6, OTP_KEY_MODULES = 7, OTP_KEY_TREE = 8 };

/* ---- structs: plain, no pointers; a caller may copy them. Another interface (otp_fits) may give them more fields ---- */

typedef struct { uint8_t is_open; struct { void *at; } room; } otp_tree;       /* a handle: never copy this one */
#define OTP_TREE_INIT {0, {0}}

typedef struct { uint8_t len; uint8_t bytes[32]; } otp_name;    /* len 0: none, as of a dynamic child's id */
typedef struct { uint8_t len; uint8_t bytes[64]; } otp_text;    /* len 0: none */

typedef struct {                 /* a child's specification (Supervisor Behaviour, "Child Specification") */
    uint32_t restart;            /* otp_restart */
    uint32_t significant;        /* 0 or 1 */
    uint32_t type;               /* otp_type */
    uint32_t shutdown;           /* otp_shutdown */
    uint32_t shutdown_ms;        /* of OTP_SHUTDOWN_MILLISECONDS */
    uint32_t modules;            /* how many: 0 to 4, or OTP_MODULES_DYNAMIC */
    otp_name id, start;
    otp_name module[4];          /* the first `modules` of them */
} otp_spec;

typedef struct {
    uint64_t number;             /* the process; of a reply the call; of an end by OTP_CAUSE_SIGNIFICANT the significant child */
    uint64_t deadline;           /* of an ask, if has_deadline: at this reading the order to kill it comes */
    uint32_t kind;               /* otp_order_kind */
    uint32_t supervisor;         /* whose order: the number of its table, the root's 0, as `check` counts them */
    uint32_t has_deadline;       /* 0 or 1 */
    uint32_t reason;             /* of an end: otp_reason */
    uint32_t cause;              /* of an end: otp_cause */
    otp_name id;                 /* the child; of an end by OTP_CAUSE_INIT_FAILED the child that didn't start */
    otp_name start;              /* of a start, ask or kill: the child's start word, as the tree file has it */
    otp_text text;               /* of an end: the reason's text */
} otp_order;

typedef struct {                 /* the answer to a call */
    uint64_t call;
    uint64_t number;             /* OTP_ANSWER_PROCESS: the child's process; OTP_REFUSED_ALREADY_STARTED: the one that runs */
    uint64_t specs, active, supervisors, workers;               /* OTP_ANSWER_COUNT */
    uint32_t kind;               /* otp_answer_kind */
    uint32_t fault;              /* OTP_ANSWER_REFUSED: otp_call_fault */
    uint32_t spec_fault;         /* OTP_REFUSED_BAD_SPEC: 1 to 7, as E1 to E7 */
    uint32_t spec_key;           /* where that is 2: 1 id, 2 start, 3 modules */
    uint32_t reason;             /* OTP_REFUSED_START_FAILED: otp_reason */
    uint32_t lines;              /* OTP_ANSWER_WHICH: how many there are */
    otp_text text;               /* OTP_REFUSED_START_FAILED: the reason's text */
} otp_answer;

typedef struct {                 /* a line of which_children */
    uint64_t number;             /* the process; 0 where there is none */
    uint32_t process;            /* 1: it has one; 2: `restarting`; 3: `undefined` */
    uint32_t type;               /* otp_type */
    uint32_t modules;            /* as of otp_spec */
    otp_name id;
    otp_name module[4];
} otp_line;

typedef struct {                 /* a supervisor as it stands */
    uint64_t intensity, period;  /* period in seconds */
    uint64_t process;            /* its own number, if has_process; the root's is 0 */
    uint64_t specs, active, supervisors, workers;               /* as count_children would answer now */
    uint64_t restarts;           /* since it was last started */
    uint64_t in_period;          /* of those, within the last period at this reading: at most intensity + 1 */
    uint64_t starts;             /* how often its parent has started it; the root's is 0 */
    uint64_t rows;               /* how many children otp_look_child tells */
    uint32_t parent;             /* the number of its parent's table; the root's is 0 */
    uint32_t strategy, auto_shutdown;
    uint32_t phase;              /* otp_phase */
    uint32_t has_process;        /* 0 or 1 */
    uint32_t is_stopping;        /* 0 or 1: it is wanted to shut down */
    uint32_t has_open_work;      /* 0 or 1: children are being started or stopped */
    uint32_t cause;              /* why it ended last, also once it was started again: otp_cause; 0 where it never ended */
    otp_name id;                 /* its id as its parent's child; the root has none */
} otp_supervisor;

typedef struct {                 /* a child as it stands */
    uint64_t number;             /* its process, or the waiting retry's; 0 where there is none */
    uint64_t deadline;           /* OTP_CHILD_ASKED, if has_deadline */
    uint32_t state;              /* otp_child_state */
    uint32_t has_deadline;       /* 0 or 1 */
    uint32_t nested;             /* the number of the child's own table; 0 where it has none */
    otp_spec spec;               /* a dynamic child has the one that all share */
    otp_name id;                 /* a dynamic child has none */
} otp_child;

typedef struct {                 /* why a tree file is refused; of otp_change also why the tree doesn't go on under it */
    uint32_t code;               /* as `check` prints it: 1 to 7 and 10 to 16 for E1 to E7 and E10 to E16; 0 where the file has no fault */
    uint32_t table;              /* the number of the table that has it; where the code is 0 that of the supervisor of the running tree */
    uint32_t place;              /* otp_fault_place; 0 where the code says all (E10, E14, E15) */
    uint32_t index;              /* OTP_AT_CHILD, OTP_AT_CHILD_KEY: the child's place, from 0 */
    uint32_t key;                /* OTP_AT_FLAG: otp_flag_key; OTP_AT_CHILD_KEY: otp_child_key */
    uint32_t text_len;
    uint8_t text[160];           /* the sentence, as "table 0, child 2, shutdown: the value is of the wrong kind" */
} otp_fault;

/* ---- calls ---- */

/* Opens the tree that a tree file says (docs/FORMATS.md) in an empty handle; the root starts, so that orders come at once.
   Answers OTP_OK, OTP_OPEN, OTP_MEMORY, or OTP_BAD_TREE, with which `fault` is told. */
uint32_t otp_open(otp_tree *tree, const uint8_t *text, size_t length, otp_fault *fault);

/* The tree goes on under another tree file, with its clock, its numbers and its calls. A supervisor of both files (the root, or one whose
   ids down to it are the same) gets the flags and specifications of the new one, and keeps its process and the restarts that count, as
   many as the new intensity bears. A child of both keeps its process, under the new specification; one that is added has none until
   otp_call starts it (OTP_CALL_RESTART_CHILD), as has a supervisor that is added. The supervisors are numbered as the new file's tables.
   Take all orders before, and stop what is not in the new file. Where it is refused the tree is as it was, and `fault` is told, with
   the supervisor, but for OTP_MEMORY.
   Answers OTP_OK, OTP_CLOSED, OTP_MEMORY, OTP_BAD_TREE, OTP_BUSY, OTP_RUNNING, OTP_TURNED, OTP_SPENT. */
uint32_t otp_change(otp_tree *tree, const uint8_t *text, size_t length, otp_fault *fault);

/* Frees the tree and leaves the handle empty. An empty handle stays empty. */
void otp_close(otp_tree *tree);

/* The clock is read: what is due by then comes with the next orders. Answers OTP_OK, OTP_CLOSED, OTP_BAD_READING. */
uint32_t otp_tick(otp_tree *tree, uint64_t reading);

/* At this reading the process `number`, whose start supervisor number `supervisor` ordered, tells this: it is up; its start
   answered `ignore`; its start failed; or it has ended. The last two have a reason, and OTP_REASON_SHUTDOWN_WITH and OTP_REASON_ERROR a text; else `reason` and
   the text are not looked at. A number that no child has changes nothing of the tree.
   Answers OTP_OK, OTP_CLOSED, OTP_MEMORY, OTP_FULL, OTP_SPENT, OTP_BAD_READING, OTP_BAD_KIND, OTP_BAD_TEXT, OTP_NO_SUPERVISOR,
   OTP_NESTED. */
uint32_t otp_note(otp_tree *tree, uint64_t reading, uint32_t supervisor, uint32_t kind, uint64_t number, uint32_t reason,
                  const uint8_t *text, size_t length);

/* The root is wanted to shut down, from this reading on. Answers OTP_OK, OTP_CLOSED, OTP_BAD_READING. */
uint32_t otp_stop(otp_tree *tree, uint64_t reading);

/* Asks at this reading for start_child/2 with a specification. Its answer comes with an order OTP_ORDER_REPLY of that supervisor under the
   number `call`. A specification that the rules refuse is answered so there (OTP_REFUSED_BAD_SPEC); a struct that says none is not
   taken: OTP_BAD_KIND or OTP_BAD_NAME.
   Answers OTP_OK, OTP_CLOSED, OTP_MEMORY, OTP_FULL, OTP_SPENT, OTP_BAD_READING, OTP_BAD_KIND, OTP_BAD_NAME,
   OTP_NO_SUPERVISOR. */
uint32_t otp_start_child(otp_tree *tree, uint64_t reading, uint32_t supervisor, const otp_spec *spec, uint64_t *call);

/* Asks at this reading for another call. `id` names the child of OTP_CALL_RESTART_CHILD, OTP_CALL_DELETE_CHILD, OTP_CALL_TERMINATE_CHILD and
   OTP_CALL_GET_CHILDSPEC, `number` the process of OTP_CALL_TERMINATE_PROCESS; of the others neither is looked at. Answers as above. */
uint32_t otp_call(otp_tree *tree, uint64_t reading, uint32_t supervisor, uint32_t kind, const otp_name *id, uint64_t number,
                  uint64_t *call);

/* The next order for the outside, which counts as carried out from now on. Each comes once, those of a supervisor in the
   order in which it gave them; orders for supervisors of the tree itself are done by the library.
   OTP_ORDER_START, OTP_ORDER_ASK and OTP_ORDER_KILL are of processes outside; OTP_ORDER_READY and OTP_ORDER_END are the
   root's; OTP_ORDER_REPLY says that a call was answered, which otp_answer_of tells.
   Answers OTP_OK, OTP_NONE, OTP_CLOSED, OTP_MEMORY, OTP_FULL, OTP_SPENT. */
uint32_t otp_next(otp_tree *tree, otp_order *order);

/* The answer of the last OTP_ORDER_REPLY that otp_next told; it stays until the next such order.
   Answers OTP_OK, OTP_CLOSED, OTP_NONE where there was none. */
uint32_t otp_answer_of(otp_tree *tree, otp_answer *answer);

/* A line of that answer, if it is OTP_ANSWER_WHICH: in start order, from 0. Answers OTP_OK, OTP_CLOSED, OTP_NONE. */
uint32_t otp_answer_line(otp_tree *tree, uint32_t index, otp_line *line);

/* The specification of that answer, if it is OTP_ANSWER_SPEC. Answers OTP_OK, OTP_CLOSED, OTP_NONE. */
uint32_t otp_answer_spec(otp_tree *tree, otp_spec *spec);

/* The reading at which the clock is to be read again at the latest: the least deadline of all supervisors.
   Answers OTP_OK, OTP_CLOSED, OTP_NONE where there is none. */
uint32_t otp_deadline(otp_tree *tree, uint64_t *reading);

/* How many supervisors the tree has, the root included. Answers OTP_OK, OTP_CLOSED. */
uint32_t otp_supervisors(otp_tree *tree, uint32_t *count);

/* A supervisor as it stands. Answers OTP_OK, OTP_CLOSED, OTP_NO_SUPERVISOR. */
uint32_t otp_look(otp_tree *tree, uint32_t supervisor, otp_supervisor *out);

/* A child of it as it stands, in start order from 0. Answers OTP_OK, OTP_CLOSED, OTP_NO_SUPERVISOR, OTP_NONE. */
uint32_t otp_look_child(otp_tree *tree, uint32_t supervisor, uint32_t index, otp_child *out);

/* A limit of the library (otp_limit_kind); 0 for any other number. */
uint64_t otp_limit(uint32_t kind);

/* The version of the library that runs, as OTP_VERSION_NUMBER is that of this header. */
uint32_t otp_version(void);

/* Whether that library has the interface of this header. Before version 1 each minor version is another interface. Ask once, where
   the library may be another one than the program was built with. */
static inline int otp_fits(void) {
    uint32_t version = otp_version();
    return OTP_VERSION_MAJOR ? version >> 16 == OTP_VERSION_MAJOR && version >= OTP_VERSION_NUMBER
                             : version >> 8 == OTP_VERSION_NUMBER >> 8;
}

/* What a status means, as a sentence's end; never NULL. */
static inline const char *otp_status_text(uint32_t status) {
    switch (status) {
    case OTP_OK: return "done";
    case OTP_NONE: return "there is none";
    case OTP_CLOSED: return "the tree is closed";
    case OTP_OPEN: return "the handle has a tree already";
    case OTP_MEMORY: return "memory was refused; the same call may be made again";
    case OTP_FULL: return "orders of that supervisor wait; take them, then make the call again";
    case OTP_SPENT: return "the tree has had all the events or process numbers that there are";
    case OTP_BAD_READING: return "the reading of the clock is too large";
    case OTP_BAD_KIND: return "a number stands for none of its words";
    case OTP_BAD_TEXT: return "a reason's text is not 1 to 64 visible letters of ASCII";
    case OTP_BAD_NAME: return "a name has more than 32 bytes";
    case OTP_BAD_TREE: return "the tree file is refused";
    case OTP_NO_SUPERVISOR: return "no supervisor has this number";
    case OTP_NESTED: return "that process is a supervisor of the tree itself";
    case OTP_BUSY: return "orders wait, or children are starting or stopping; make the call again later";
    case OTP_RUNNING: return "what the new tree file no longer has so has a process";
    case OTP_TURNED: return "children can't turn into dynamic ones, nor dynamic ones into others";
    default: return "no status of this version";
    }
}

#ifdef __cplusplus
}
#endif
#endif
