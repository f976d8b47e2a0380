/* Calls of the library with the arguments of a line, the rules that hold for every call, and what a call prints. */
#ifndef CALLS_H
#define CALLS_H

#include "words.h"

enum { RAM_BYTES = 1 << 16, MOST_ITEMS = 80, STOPPED = 1 };

/* Everything that a call may write. Only calls with lists or bytes get the members from `src` on. */
typedef struct outputs {
    uint32_t number;
    uint64_t wide;
    dma330_outcome outcome;
    dma330_run run;
    dma330_report report;
    dma330_run_end end;
    dma330_conflict conflict;
    dma330_explanation explanation;
    size_t len;
    size_t place;
    dma330_repeated src[MOST_ITEMS];
    dma330_segment dst[MOST_ITEMS];
    dma330_segment zeros[MOST_ITEMS];
    dma330_event events[MOST_ITEMS];
    uint8_t bytes[MOST_TEXT];
} outputs;

/* How the steps of a line are taken: with a call for each, or with as few calls as possible. */
typedef enum way { SINGLE, MANY } way;

struct call;

/* The state of a run of lines. make_runner makes one. */
typedef struct runner {
    dma330_controller controller;
    uint32_t size;          /* of the controller's memory */
    uint8_t ram[RAM_BYTES]; /* the memory of programs that are run alone */
    arguments arguments;
    outputs outputs;
    way way;
    int is_watched; /* whether a call that fails must leave all readings the same */
    int has_reads;  /* whether readings were taken, which add entries to the history: totals prints ? for their number */
    long calls;     /* the number of calls made */
    long stop_at;   /* the most calls to make, or -1 for no limit */
    int is_stopped;
    int wrongs;     /* the number of broken rules for every call */
    /* Called after a call that was out of memory, which is then made again: without a report if the call returned
     * NO_MEMORY, with one if it ended after the steps of the report. If this is NULL, no call is made again. */
    void (*on_no_memory)(struct runner *runner, const struct call *c, const dma330_report *cut_short);
} runner;

/* A call: its name without dma330_, the shape of its arguments, how it is made, and what it prints if it succeeds. */
typedef struct call {
    const char *name;
    const char *shape;
    int32_t (*invoke)(runner *p, const arguments *a, outputs *o);
    void (*print)(answer *to, const arguments *a, const outputs *o);
} call;

/* Returns the call of a name. Ends the program if there is none. */
const call *call_of(const char *name);

/* Makes a call with the runner's arguments, and makes it again after it was out of memory, if the runner has an
 * `on_no_memory`. Returns its code, or STOPPED if the runner has made its most calls. */
int32_t make_call(runner *p, const call *c);

/* Writes that a call failed with a code, and what it names. */
void append_refusal(const runner *p, const call *c, int32_t code, answer *to);

/* Writes what a step did. */
void append_last(answer *to, const dma330_report *report);

/* Returns whether dma330_step goes on after this step. */
int goes_on(const dma330_report *report);

/* Returns whether a call has returned a code since the program began. */
int has_returned(const char *call, const char *code);

#endif
