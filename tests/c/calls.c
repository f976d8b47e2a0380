#include "calls.h"

#include "readings.h"

#include <stddef.h>
#include <stdio.h>
#include <string.h>

/* ---- how a call is made ---- */

#define INVOKE(name, code) \
    static int32_t invoke_##name(runner *p, const arguments *a, outputs *o) \
    { \
        (void)p, (void)a, (void)o; \
        return code; \
    }
INVOKE(write, dma330_write(&p->controller, a->numbers[0], a->bytes, a->len, &o->conflict))
INVOKE(submit, dma330_submit(&p->controller, a->channel, a->src, a->src_count, a->dst, a->dst_count, a->wait, a->signal,
                             &o->number))
INVOKE(submit_fill, dma330_submit_fill(&p->controller, a->channel, a->from, a->dst, a->dst_count, a->wait, a->signal,
                                       &o->number))
INVOKE(issue, dma330_issue(&p->controller, a->channel, &o->number))
INVOKE(pause, dma330_pause(&p->controller, a->channel))
INVOKE(resume, dma330_resume(&p->controller, a->channel))
INVOKE(terminate, dma330_terminate(&p->controller, a->channel, &o->number))
INVOKE(step, dma330_step(&p->controller, a->channel, a->numbers[0], &o->report))
INVOKE(result, dma330_result(&p->controller, a->channel, a->numbers[0], &o->outcome))
INVOKE(running, dma330_running(&p->controller, a->channel, &o->run))
INVOKE(unfinished, dma330_unfinished(&p->controller, a->channel, &o->number))
INVOKE(forgotten, dma330_forgotten(&p->controller, a->channel, &o->number))
INVOKE(steps, dma330_steps(&p->controller, &o->wide))
INVOKE(history_entries, dma330_history_entries(&p->controller, &o->wide))
INVOKE(history_bytes, dma330_history_bytes(&p->controller, &o->wide))
INVOKE(running_count, dma330_running_count(&p->controller, &o->number))
INVOKE(uninject_errors, dma330_uninject_errors(&p->controller))
INVOKE(raise, dma330_raise(&p->controller, (uint8_t)a->numbers[0]))
INVOKE(checkpoint, dma330_checkpoint(&p->controller, &o->conflict))
INVOKE(version, dma330_version((char *)o->bytes, a->numbers[0], &o->len))
INVOKE(run_program, dma330_run_program(a->bytes, a->len, p->ram, a->numbers[0], a->numbers[1], &o->end))
INVOKE(assemble, dma330_assemble(a->text, a->text_len, o->bytes, a->numbers[0], &o->len, &o->place))
INVOKE(disassemble, dma330_disassemble(a->bytes, a->len, (char *)o->bytes, a->numbers[0], &o->len, &o->place))
INVOKE(plan, dma330_plan(a->src, a->src_count, a->dst, a->dst_count, a->wait, a->signal, a->numbers[0], o->bytes,
                         a->numbers[1], &o->len))
INVOKE(plan_fill, dma330_plan_fill(a->from, a->dst, a->dst_count, a->wait, a->signal, a->numbers[0], o->bytes,
                                   a->numbers[1], &o->len))

static int32_t invoke_open(runner *p, const arguments *a, outputs *o)
{
    int32_t code = dma330_open(&p->controller, a->numbers[0], (uint8_t)a->numbers[1]);
    (void)o;
    if (code == DMA330_OK)
        p->size = a->numbers[0];
    return code;
}

/* Explains a program that may begin with any registers. */
static int32_t invoke_explain(runner *p, const arguments *a, outputs *o)
{
    static const dma330_start any = DMA330_ANY_REGISTERS;
    size_t room = a->numbers[2];
    (void)p;
    return dma330_explain(a->bytes, a->len, a->numbers[0], &any, a->numbers[1], o->src, room, o->dst, room, o->zeros, room,
                          o->events, room, &o->explanation);
}

static int32_t invoke_close(runner *p, const arguments *a, outputs *o)
{
    (void)a, (void)o;
    dma330_close(&p->controller);
    return DMA330_OK;
}

static int32_t invoke_read(runner *p, const arguments *a, outputs *o)
{
    int32_t code;
    if (a->numbers[1] > MOST_TEXT && a->numbers[1] <= p->size)
        bad_line("too many bytes", "read");
    code = dma330_read(&p->controller, a->numbers[0], o->bytes, a->numbers[1], &o->conflict);
    if (code == DMA330_OK)
        o->len = a->numbers[1];
    return code;
}

static int32_t invoke_status(runner *p, const arguments *a, outputs *o)
{
    int32_t state = dma330_status(&p->controller, a->channel, a->numbers[0]);
    if (state >= 0)
        o->number = (uint32_t)state;
    return state < 0 ? state : DMA330_OK;
}

static int32_t invoke_inject_error(runner *p, const arguments *a, outputs *o)
{
    dma330_segment range;
    (void)o;
    range.addr = a->numbers[1];
    range.len = a->numbers[2];
    return dma330_inject_error(&p->controller, a->numbers[0], range);
}

/* ---- what a call prints ---- */

#define PRINT(name, act) \
    static void print_##name(answer *to, const arguments *a, const outputs *o) \
    { \
        (void)a, (void)o; \
        act; \
    }
PRINT(ok, append(to, "ok"))
PRINT(cookie, append(to, "cookie %lu", (unsigned long)o->number))
PRINT(issued, append(to, "issued %lu", (unsigned long)o->number))
PRINT(aborted, append(to, "aborted %lu", (unsigned long)o->number))
PRINT(unfinished, append(to, "unfinished %lu", (unsigned long)o->number))
PRINT(forgotten, append(to, "forgotten %lu", (unsigned long)o->number))
PRINT(wide, append(to, "%lu", (unsigned long)o->wide))
PRINT(number, append(to, "%lu", (unsigned long)o->number))
PRINT(run, append(to, "running %lu stored %lu", (unsigned long)o->run.cookie, (unsigned long)o->run.stored))
PRINT(bytes, o->len == 0 ? append(to, "ok") : append_bytes(to, o->bytes, o->len))

static void append_outcome(answer *to, uint32_t result, uint32_t residue)
{
    append_camel(to, dma330_result_name(result));
    append(to, " residue %lu", (unsigned long)residue);
}

void append_last(answer *to, const dma330_report *report)
{
    append_lower(to, dma330_last_step_name(report->last));
    if (report->last == DMA330_HELD)
        append(to, " %lu", (unsigned long)report->channel);
    if (report->last == DMA330_STARTED || report->last == DMA330_HELD || report->last == DMA330_FINISHED)
        append(to, " %lu", (unsigned long)report->cookie);
    if (report->last == DMA330_WAITING)
        append(to, " %lu", (unsigned long)report->event);
    if (report->last != DMA330_FINISHED)
        return;
    append(to, " ");
    append_outcome(to, report->result, report->residue);
}

int goes_on(const dma330_report *report)
{
    return report->last == DMA330_STARTED || report->last == DMA330_MOVED;
}

static void print_report(answer *to, const arguments *a, const outputs *o)
{
    append(to, "steps %u taken %lu ", a->channel, (unsigned long)o->report.taken);
    append_last(to, &o->report);
}

static void print_status(answer *to, const arguments *a, const outputs *o)
{
    static const char *const states[] = {"Unknown", "InProgress", "Complete"};
    (void)a;
    append(to, "status %s", states[o->number]);
}

static void print_result(answer *to, const arguments *a, const outputs *o)
{
    (void)a;
    append(to, "result ");
    append_outcome(to, o->outcome.result, o->outcome.residue);
}

static void print_read(answer *to, const arguments *a, const outputs *o)
{
    size_t n;
    append(to, "read 0x%08lX", (unsigned long)a->numbers[0]);
    for (n = 0; n < o->len; n++)
        append(to, " %02X", o->bytes[n]);
}

static void print_end(answer *to, const arguments *a, const outputs *o)
{
    static const char *const ends[] = {"out_of_steps", "ended", "waiting", "fault "};
    (void)a;
    append(to, "%s", ends[o->end.end]);
    if (o->end.end == DMA330_END_ENDED)
        append(to, " %lu", (unsigned long)o->end.steps);
    if (o->end.end == DMA330_END_WAITING)
        append(to, " %lu", (unsigned long)o->end.event);
    if (o->end.end != DMA330_END_FAULT)
        return;
    append_camel(to, dma330_fault_name(o->end.fault));
    append(to, " %lu", (unsigned long)o->end.pc);
}

/* Writes a text with " /" for a line feed. */
static void print_text(answer *to, const arguments *a, const outputs *o)
{
    size_t n;
    (void)a;
    if (o->len == 0)
        append(to, "ok");
    for (n = 0; n < o->len; n++) {
        const char *before = n > 0 && o->bytes[n - 1] == '\n' ? " " : "";
        if (o->bytes[n] == '\n')
            append(to, " /");
        else
            append(to, "%s%c", before, o->bytes[n]);
    }
}

static void print_explained(answer *to, const arguments *a, const outputs *o)
{
    static const char *const kinds[] = {"waits", "signals"};
    const dma330_explanation *e = &o->explanation;
    size_t n;
    (void)a;
    append(to, "%lu %lu", (unsigned long)e->copied, (unsigned long)e->steps);
    for (n = 0; n < e->src_len; n++)
        append(to, " 0x%lX+%lux%lu", (unsigned long)o->src[n].addr, (unsigned long)o->src[n].len,
               (unsigned long)o->src[n].times);
    append(to, " to");
    for (n = 0; n < e->dst_len; n++)
        append(to, " 0x%lX+%lu", (unsigned long)o->dst[n].addr, (unsigned long)o->dst[n].len);
    if (e->zeros_len > 0)
        append(to, " zeros");
    for (n = 0; n < e->zeros_len; n++)
        append(to, " 0x%lX+%lu", (unsigned long)o->zeros[n].addr, (unsigned long)o->zeros[n].len);
    for (n = 0; n < e->events_len; n++)
        append(to, " %s %lu at %lu", kinds[o->events[n].kind], (unsigned long)o->events[n].event,
               (unsigned long)(o->events[n].copied + o->events[n].cleared));
}

/* ---- the calls ---- */

static const call calls[] = {
    {"open", "nn", invoke_open, print_ok},
    {"close", "", invoke_close, print_ok},
    {"write", "nb", invoke_write, print_ok},
    {"read", "r", invoke_read, print_read},
    {"submit", "cT", invoke_submit, print_cookie},
    {"submit_fill", "cT", invoke_submit_fill, print_cookie},
    {"issue", "c", invoke_issue, print_issued},
    {"pause", "c", invoke_pause, print_ok},
    {"resume", "c", invoke_resume, print_ok},
    {"terminate", "c", invoke_terminate, print_aborted},
    {"step", "cn", invoke_step, print_report},
    {"status", "cn", invoke_status, print_status},
    {"result", "cn", invoke_result, print_result},
    {"running", "c", invoke_running, print_run},
    {"unfinished", "c", invoke_unfinished, print_unfinished},
    {"forgotten", "c", invoke_forgotten, print_forgotten},
    {"steps", "", invoke_steps, print_wide},
    {"history_entries", "", invoke_history_entries, print_wide},
    {"history_bytes", "", invoke_history_bytes, print_wide},
    {"running_count", "", invoke_running_count, print_number},
    {"inject_error", "kr", invoke_inject_error, print_ok},
    {"uninject_errors", "", invoke_uninject_errors, print_ok},
    {"raise", "n", invoke_raise, print_ok},
    {"checkpoint", "", invoke_checkpoint, print_ok},
    {"version", "n", invoke_version, print_text},
    {"run_program", "nnb", invoke_run_program, print_end},
    {"assemble", "nt", invoke_assemble, print_bytes},
    {"disassemble", "nb", invoke_disassemble, print_text},
    {"explain", "nnnb", invoke_explain, print_explained},
    {"plan", "nnsd", invoke_plan, print_bytes},
    {"plan_fill", "nnfd", invoke_plan_fill, print_bytes},
};

enum { CALLS = sizeof calls / sizeof calls[0] };

static unsigned char returned[CALLS][MOST_CODES];

const call *call_of(const char *name)
{
    int n;
    for (n = 0; n < CALLS; n++)
        if (strcmp(calls[n].name, name) == 0)
            return &calls[n];
    bad_line("no call", name);
    return NULL;
}

int has_returned(const char *name, const char *code)
{
    int n;
    for (n = 0; n < MOST_CODES; n++)
        if (strcmp(dma330_code_name(-n), code) == 0)
            return returned[call_of(name) - calls][n];
    bad_line("no code", code);
    return 0;
}

/* ---- rules for every call ---- */

enum { UNWRITTEN = 0xA5 };

static void wrong(runner *p, const call *c, const char *what)
{
    printf("WRONG: %s %s\n", c->name, what);
    p->wrongs++;
}

/* Returns how many bytes of the outputs a call can write. */
static size_t extent_of(const call *c)
{
    int is_long = c->print == print_read || c->print == print_text || c->print == print_bytes || c->print == print_explained;
    return is_long ? sizeof(outputs) : offsetof(outputs, src);
}

static int is_unwritten(const void *from, size_t len)
{
    static outputs blank;
    static int is_made;
    if (!is_made)
        memset(&blank, UNWRITTEN, sizeof blank);
    is_made = 1;
    return memcmp(from, &blank, len) == 0;
}

/* Returns whether the call writes a place in its input with this code. */
static int has_place(const call *c, int32_t code)
{
    return (code <= DMA330_BAD_MNEMONIC && code >= DMA330_BAD_FIELD) ||
           (code == DMA330_PROGRAM_TOO_LONG && c->invoke == invoke_assemble);
}

/* Returns whether a call writes a conflicting transfer with this code. */
static int has_conflict(int32_t code)
{
    return code == DMA330_BUSY || code == DMA330_RUNNING;
}

/* Returns whether a call that fails with this code writes an explanation. */
static int has_explanation(const call *c, int32_t code)
{
    return code == DMA330_UNEXPLAINED || (code == DMA330_BUFFER_TOO_SMALL && c->invoke == invoke_explain);
}

/* Return whether all members that the turn, or the end, doesn't have are 0. */
static int other_members_are_0(const dma330_report *r)
{
    int finished = r->last == DMA330_FINISHED, held = r->last == DMA330_HELD;
    return (held || r->channel == 0) && (held || finished || r->last == DMA330_STARTED || r->cookie == 0) &&
           (r->last == DMA330_WAITING || r->event == 0) && (finished || (r->result == 0 && r->residue == 0));
}

static int other_members_of_end_are_0(const dma330_run_end *e)
{
    int faulted = e->end == DMA330_END_FAULT;
    return (e->end == DMA330_END_ENDED || e->steps == 0) && (e->end == DMA330_END_WAITING || e->event == 0) &&
           (faulted || (e->fault == 0 && e->pc == 0));
}

static void check_outputs(runner *p, const call *c, int32_t code, outputs *o)
{
    size_t place = o->place;
    dma330_conflict conflict = o->conflict;
    dma330_explanation explanation = o->explanation;
    size_t used;
    if (!is_code(code))
        wrong(p, c, "returned a code that the header doesn't have");
    if (has_place(c, code))
        memset(&o->place, UNWRITTEN, sizeof o->place);
    if (has_conflict(code))
        memset(&o->conflict, UNWRITTEN, sizeof o->conflict);
    if (has_explanation(c, code))
        memset(&o->explanation, UNWRITTEN, sizeof o->explanation);
    if (!is_unwritten(&o->place, sizeof o->place))
        wrong(p, c, "wrote a place, which its code doesn't have");
    if (!is_unwritten(&o->conflict, sizeof o->conflict))
        wrong(p, c, "wrote a conflict, which its code doesn't have");
    if (code < 0 && !is_unwritten(o, extent_of(c)))
        wrong(p, c, "failed and wrote an output");
    o->place = place;
    o->conflict = conflict;
    o->explanation = explanation;
    if (code == DMA330_OK && c->invoke == invoke_step && !other_members_are_0(&o->report))
        wrong(p, c, "set a member that its turn does not have");
    if (code == DMA330_OK && c->invoke == invoke_run_program && !other_members_of_end_are_0(&o->end))
        wrong(p, c, "set a member that its end does not have");
    if (code < 0 || extent_of(c) < sizeof *o)
        return;
    used = is_unwritten(&o->len, sizeof o->len) ? 0 : o->len + (c->invoke == invoke_version);
    if (!is_unwritten(o->bytes + used, MOST_TEXT - used))
        wrong(p, c, "wrote past its reported length");
    if (c->invoke == invoke_version && o->bytes[o->len] != '\0')
        wrong(p, c, "wrote no zero byte after the version");
}

/* Returns whether a call of step was out of memory after some of its steps. */
static int is_cut_short(const call *c, int32_t code, const arguments *a, const dma330_report *report)
{
    return c->invoke == invoke_step && code == DMA330_OK && report->taken < a->numbers[0] && goes_on(report);
}

/* Makes a call once. If the runner is watched, checks that it changes no reading if it fails. */
static int32_t call_once(runner *p, const call *c)
{
    static readings before, after;
    int32_t code;
    memset(&p->outputs, UNWRITTEN, extent_of(c));
    if (p->is_watched)
        take_readings(&p->controller, p->size, &before);
    code = c->invoke(p, &p->arguments, &p->outputs);
    if (p->is_watched && code != DMA330_OK) {
        take_readings(&p->controller, p->size, &after);
        if (!are_same(&before, &after))
            wrong(p, c, "failed and changed a reading");
    }
    p->has_reads |= p->is_watched;
    check_outputs(p, c, code, &p->outputs);
    if (is_code(code))
        returned[c - calls][-code] = 1;
    return code;
}

int32_t make_call(runner *p, const call *c)
{
    uint32_t taken = 0;
    for (;;) {
        int32_t code;
        int is_cut;
        if (p->calls == p->stop_at) {
            p->is_stopped = 1;
            return STOPPED;
        }
        p->calls++;
        code = call_once(p, c);
        is_cut = is_cut_short(c, code, &p->arguments, &p->outputs.report);
        if (!p->on_no_memory || (code != DMA330_NO_MEMORY && !is_cut)) {
            p->outputs.report.taken += taken;
            return code;
        }
        p->on_no_memory(p, c, is_cut ? &p->outputs.report : NULL);
        if (is_cut) {
            taken += p->outputs.report.taken;
            p->arguments.numbers[0] -= p->outputs.report.taken;
        }
    }
}

static void append_cause(answer *to, const dma330_explanation *e)
{
    append(to, " ");
    append_camel(to, dma330_cause_name(e->cause));
    append(to, " %lu %lu", (unsigned long)e->pc, (unsigned long)e->steps);
}

void append_refusal(const runner *p, const call *c, int32_t code, answer *to)
{
    append(to, "refused ");
    append_camel(to, dma330_code_name(code));
    if (has_place(c, code))
        append(to, " %lu", (unsigned long)p->outputs.place);
    else if (code == DMA330_UNEXPLAINED)
        append_cause(to, &p->outputs.explanation);
    else if (has_conflict(code))
        append(to, " %lu %lu", (unsigned long)p->outputs.conflict.channel, (unsigned long)p->outputs.conflict.cookie);
}
