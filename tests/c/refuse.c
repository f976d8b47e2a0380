/* Carries out each group of the files that it is given, rows.txt and calls of dmasim, once for each of its allocations,
 * which fails in that run, and once more for each with all later allocations failing too. When a call is out of memory,
 * checks that all readings are those of a controller that has made the calls before it with enough memory, and that the
 * call, made again, prints what it should. Also checks that nothing is leaked, and that each call and each kind of step
 * that allocates memory was out of it. */
#include "heap.h"
#include "lines.h"
#include "readings.h"
#include "rows.h"

#include <stdio.h>
#include <stdlib.h>
#include <string.h>

/* ---- the allocator ---- */

enum mode { ALONE, WITH_ALL_AFTER };

/* Whether an allocation succeeds: yes; yes, until `left` others have succeeded; no. */
static enum { SUCCEEDS, COUNTS, FAILS } allocator;
static enum mode mode;
static long left;         /* the number of allocations before the one that fails */
static int has_failed;    /* whether an allocation has failed in this run */
static int is_unreported; /* whether one has failed, and no call has reported it yet */

int allocation_fails(void)
{
    int fails = allocator == FAILS || (allocator == COUNTS && left-- == 0);
    if (fails) {
        has_failed = is_unreported = 1;
        allocator = mode == WITH_ALL_AFTER ? FAILS : SUCCEEDS;
    }
    return fails;
}

/* ---- a group, with one failing allocation ---- */

static const group *current;
static runner tested, reference;
static int must_fail_next; /* a call ended early, and the next must be out of memory */
static long passed, failed, out_of_memory;

static int is_right(int holds, const char *what)
{
    if (!holds)
        printf("WRONG: %s: %s\n", current->title, what);
    return holds;
}

/* What steps that were out of memory do otherwise. */
static const char *const kinds[] = {"starts", "passes a wait", "signals", "finishes", "fails"};
enum { KINDS = sizeof kinds / sizeof kinds[0] };
static long refused_steps[KINDS];

/* Counts the kind of a channel's next step, which was out of memory. If it moves, it passes a wait, which comes before
 * all stores, or signals, which comes after them. */
static void note_step(dma330_controller *controller, uint8_t channel)
{
    dma330_report report;
    dma330_run run = {0, 0};
    dma330_running(controller, channel, &run);
    if (!is_right(dma330_step(controller, channel, 1, &report) == DMA330_OK, "a step is refused with enough memory"))
        return;
    if (report.last == DMA330_MOVED)
        refused_steps[run.stored > 0 ? 2 : 1]++;
    if (report.last == DMA330_STARTED)
        refused_steps[0]++;
    if (report.last == DMA330_FINISHED)
        refused_steps[report.result == DMA330_NO_ERROR ? 3 : 4]++;
}

/* Makes the first `calls` calls of the group with enough memory, then the steps of the report, and compares. */
static int is_as_before(const runner *p, const call *refused, long calls, const dma330_report *steps)
{
    static char output[OUTPUT_ROOM];
    static readings here, there;
    dma330_report report;
    int n, is_same = 1;
    make_runner(&reference, MANY);
    reference.stop_at = calls;
    for (n = 0; n < current->count && !reference.is_stopped; n++)
        carry_out(&reference, current, &current->rows[n], output);
    if (steps)
        is_same = dma330_step(&reference.controller, p->arguments.channel, steps->taken, &report) == DMA330_OK &&
                  memcmp(&report, steps, sizeof report) == 0;
    take_readings(&tested.controller, p->size, &here);
    take_readings(&reference.controller, p->size, &there);
    tested.has_reads = 1;
    is_same = is_same && are_same(&here, &there) && memcmp(p->ram, reference.ram, RAM_BYTES) == 0;
    if (refused == call_of("step"))
        note_step(&reference.controller, p->arguments.channel);
    dma330_close(&reference.controller);
    return is_same;
}

/* Checks a call that is out of memory. The report has the steps that it took before, or is NULL. */
static void on_no_memory(runner *p, const call *c, const dma330_report *cut_short)
{
    static dma330_report steps_before;
    allocator = SUCCEEDS;
    out_of_memory++;
    if (!is_right(is_unreported, "a call is out of memory, though no allocation failed")) {
        p->wrongs++;
        p->on_no_memory = NULL; /* or it may be called for ever */
    }
    is_unreported = 0;
    if (cut_short)
        steps_before = *cut_short;
    if (cut_short && mode == WITH_ALL_AFTER) {
        /* The next call must be out of memory. Nothing is read before it: a read would make room in the history. */
        must_fail_next = 1;
        allocator = FAILS;
        return;
    }
    /* with must_fail_next, another call came after these steps */
    if (!is_right(is_as_before(p, c, p->calls - (must_fail_next ? 2 : 1), cut_short || must_fail_next ? &steps_before : NULL),
                  "a call that was out of memory changed something"))
        p->wrongs++;
    must_fail_next = 0;
}

/* Returns whether each line prints what it should, though the allocation of this number fails. */
static int passes(long number)
{
    static char output[OUTPUT_ROOM];
    const char *rest = current->wanted;
    int n, is_ok = 1;
    make_runner(&tested, MANY);
    tested.on_no_memory = on_no_memory;
    has_failed = is_unreported = must_fail_next = 0;
    left = number;
    for (n = 0; n < current->count && rest != NULL; n++) {
        allocator = has_failed ? SUCCEEDS : COUNTS;
        carry_out(&tested, current, &current->rows[n], output);
        allocator = SUCCEEDS;
        rest = text_after(rest, output);
        if (!is_right(rest != NULL && !must_fail_next, current->rows[n].line)) {
            printf("with allocation %ld failing it prints %.200s\n", number, output);
            is_ok = 0;
        }
    }
    dma330_close(&tested.controller);
    is_ok = is_right(live_blocks == 0, "a block was leaked") && is_ok;
    return is_ok && tested.wrongs == 0;
}

/* Runs the group with its first, second and each further allocation failing, until none fails. */
static int fail_each(void)
{
    long number = 0;
    int is_ok = 1;
    do
        is_ok = passes(number++) && is_ok;
    while (has_failed && is_ok);
    return is_ok;
}

/* ---- all of them ---- */

/* The calls of dma330.h that name NO_MEMORY. */
static const char *const growing[] = {"open", "write", "read", "submit", "submit_fill", "issue", "terminate", "step",
                                      "inject_error", "uninject_errors", "raise", "checkpoint", "run_program", "assemble",
                                      "disassemble"};

static void count(int holds)
{
    if (holds)
        passed++;
    else
        failed++;
}

int main(int words_count, char **words)
{
    size_t n;
    while (--words_count > 0)
        for (current = read_groups(*++words); current->title != NULL; current++) {
            mode = ALONE;
            count(fail_each());
            mode = WITH_ALL_AFTER;
            count(fail_each());
        }
    for (n = 0; n < sizeof growing / sizeof growing[0]; n++) {
        int has = has_returned(growing[n], "NO_MEMORY");
        count(has);
        if (!has)
            printf("WRONG: %s was never out of memory\n", growing[n]);
    }
    for (n = 0; n < KINDS; n++) {
        count(refused_steps[n] > 0);
        if (refused_steps[n] == 0)
            printf("WRONG: no step that %s was out of memory\n", kinds[n]);
    }
    printf("%ld calls were out of memory\n", out_of_memory);
    printf("%ld passed, %ld failed\n", passed, failed);
    return failed != 0;
}
