/* Prints what a C compiler makes of otp.h: sizes, places of fields, and the numbers of the words. A test of the Rust crate
 * compares them with its own declarations, and embed/header with those of the library's source. */
#include "otp.h"
#include <stdio.h>
#include <string.h>

#define SIZE(type) printf(#type " %zu\n", sizeof(type))
#define AT(type, field) printf(#type "." #field " %zu\n", offsetof(type, field))
#define WORD(word) printf(#word " %llu\n", (unsigned long long)(word))

int main(void) {
    SIZE(otp_tree); AT(otp_tree, is_open); AT(otp_tree, room);
    SIZE(otp_name); AT(otp_name, len); AT(otp_name, bytes);
    SIZE(otp_text); AT(otp_text, len); AT(otp_text, bytes);
    SIZE(otp_spec); AT(otp_spec, restart); AT(otp_spec, significant); AT(otp_spec, type); AT(otp_spec, shutdown);
    AT(otp_spec, shutdown_ms); AT(otp_spec, modules); AT(otp_spec, id); AT(otp_spec, start); AT(otp_spec, module);
    SIZE(otp_order); AT(otp_order, number); AT(otp_order, deadline); AT(otp_order, kind); AT(otp_order, supervisor);
    AT(otp_order, has_deadline); AT(otp_order, reason); AT(otp_order, cause); AT(otp_order, id); AT(otp_order, start);
    AT(otp_order, text);
    SIZE(otp_answer); AT(otp_answer, call); AT(otp_answer, number); AT(otp_answer, specs); AT(otp_answer, active);
    AT(otp_answer, supervisors); AT(otp_answer, workers); AT(otp_answer, kind); AT(otp_answer, fault);
    AT(otp_answer, spec_fault); AT(otp_answer, spec_key); AT(otp_answer, reason); AT(otp_answer, lines); AT(otp_answer, text);
    SIZE(otp_line); AT(otp_line, number); AT(otp_line, process); AT(otp_line, type); AT(otp_line, modules); AT(otp_line, id);
    AT(otp_line, module);
    SIZE(otp_supervisor); AT(otp_supervisor, intensity); AT(otp_supervisor, period); AT(otp_supervisor, process);
    AT(otp_supervisor, specs); AT(otp_supervisor, active); AT(otp_supervisor, supervisors); AT(otp_supervisor, workers);
    AT(otp_supervisor, restarts); AT(otp_supervisor, in_period); AT(otp_supervisor, starts); AT(otp_supervisor, rows); AT(otp_supervisor, parent);
    AT(otp_supervisor, strategy); AT(otp_supervisor, auto_shutdown); AT(otp_supervisor, phase);
    AT(otp_supervisor, has_process); AT(otp_supervisor, is_stopping); AT(otp_supervisor, has_open_work);
    AT(otp_supervisor, cause); AT(otp_supervisor, id);
    SIZE(otp_child); AT(otp_child, number); AT(otp_child, deadline); AT(otp_child, state); AT(otp_child, has_deadline);
    AT(otp_child, nested); AT(otp_child, spec); AT(otp_child, id);
    SIZE(otp_fault); AT(otp_fault, code); AT(otp_fault, table); AT(otp_fault, place); AT(otp_fault, index); AT(otp_fault, key);
    AT(otp_fault, text_len); AT(otp_fault, text);
    WORD(OTP_OK); WORD(OTP_NONE); WORD(OTP_MEMORY); WORD(OTP_FULL); WORD(OTP_SPENT); WORD(OTP_BAD_READING);
    WORD(OTP_BAD_TREE); WORD(OTP_NO_SUPERVISOR); WORD(OTP_NESTED);
    WORD(OTP_BUSY); WORD(OTP_RUNNING); WORD(OTP_TURNED);
    WORD(OTP_RESTART_PERMANENT); WORD(OTP_RESTART_TRANSIENT); WORD(OTP_RESTART_TEMPORARY); WORD(OTP_TYPE_WORKER); WORD(OTP_TYPE_SUPERVISOR);
    WORD(OTP_STRATEGY_ONE_FOR_ONE); WORD(OTP_STRATEGY_ONE_FOR_ALL); WORD(OTP_STRATEGY_REST_FOR_ONE); WORD(OTP_STRATEGY_SIMPLE_ONE_FOR_ONE);
    WORD(OTP_AUTO_SHUTDOWN_NEVER); WORD(OTP_AUTO_SHUTDOWN_ANY_SIGNIFICANT); WORD(OTP_AUTO_SHUTDOWN_ALL_SIGNIFICANT);
    WORD(OTP_CHILD_UNDEFINED); WORD(OTP_CHILD_STARTING); WORD(OTP_CHILD_UP); WORD(OTP_CHILD_ASKED); WORD(OTP_CHILD_KILLED);
    WORD(OTP_CHILD_RESTARTING); WORD(OTP_PHASE_UNOPENED); WORD(OTP_PHASE_RUNS); WORD(OTP_PHASE_ENDED);
    WORD(OTP_CAUSE_INTENSITY); WORD(OTP_CAUSE_SIGNIFICANT); WORD(OTP_CAUSE_ASKED); WORD(OTP_CAUSE_INIT_FAILED);
    WORD(OTP_REASON_NORMAL); WORD(OTP_REASON_SHUTDOWN); WORD(OTP_REASON_SHUTDOWN_WITH); WORD(OTP_REASON_KILL); WORD(OTP_REASON_KILLED); WORD(OTP_REASON_NOPROC);
    WORD(OTP_REASON_ERROR); WORD(OTP_NOTE_UP); WORD(OTP_NOTE_IGNORED); WORD(OTP_NOTE_FAILED); WORD(OTP_NOTE_EXIT);
    /* The limits: what the header says, and what the library answers. */
    const uint64_t limits[] = {0, OTP_NAME_SIZE, OTP_TEXT_SIZE, OTP_FAULT_SIZE, OTP_MAX_CHILDREN, OTP_MAX_TABLES, OTP_MAX_READING};
    for (uint32_t kind = OTP_LIMIT_NAME_SIZE; kind <= OTP_LIMIT_READING; kind++)
        if (otp_limit(kind) != limits[kind]) return fprintf(stderr, "limit %u differs\n", kind), 1;
    if (otp_version() != OTP_VERSION_NUMBER || !otp_fits()) return fprintf(stderr, "the versions differ\n"), 1;
    /* Each status has a text of its own. */
    for (uint32_t one = OTP_OK; one <= OTP_TURNED; one++)
        for (uint32_t other = one + 1; other <= OTP_TURNED + 1; other++)
            if (!strcmp(otp_status_text(one), otp_status_text(other))) return fprintf(stderr, "status %u has no text\n", one), 1;
    return otp_limit(0) != 0 || otp_limit(OTP_LIMIT_EVENTS) == 0;
}
