#include "lines.h"

#include <stdio.h>
#include <string.h>

/* Makes a call with the arguments of the runner, and writes its line. */
static void print_call(runner *p, const call *c, answer *to)
{
    int32_t code = make_call(p, c);
    if (code == DMA330_OK && p->has_reads && strcmp(c->name, "history_bytes") == 0)
        append(to, "?");
    else if (code == DMA330_OK)
        c->print(to, &p->arguments, &p->outputs);
    else if (code == DMA330_NO_RESULT)
        append(to, "result none");
    else
        append_refusal(p, c, code, to);
    append(to, "\n");
}

/* Equal answers of steps, which are printed once, with their number. */
typedef struct same_steps {
    char text[64];
    unsigned long count;
} same_steps;

static void print_steps(const same_steps *same, uint8_t channel, answer *to)
{
    if (same->count > 0)
        append(to, "step %u %s x%lu\n", channel, same->text, same->count);
}

static void add_steps(same_steps *same, const char *text, unsigned long count, uint8_t channel, answer *to)
{
    if (count > 0 && strcmp(same->text, text) != 0) {
        print_steps(same, channel, to);
        same->count = 0;
        strcpy(same->text, text);
    }
    same->count += count;
}

/* Adds the steps of a call before its last: a start if none ran before, and moves. */
static void add_earlier(runner *p, same_steps *same, int is_running, uint8_t channel, answer *to)
{
    const dma330_report *report = &p->outputs.report;
    uint32_t earlier = report->taken - 1;
    dma330_run run;
    char text[64];
    if (earlier > 0 && !is_running) {
        if (report->last == DMA330_FINISHED)
            run.cookie = report->cookie;
        else if (dma330_running(&p->controller, channel, &run) != DMA330_OK)
            run.cookie = 0;
        sprintf(text, "started %lu", (unsigned long)run.cookie);
        add_steps(same, text, 1, channel, to);
        earlier--;
    }
    add_steps(same, "moved", earlier, channel, to);
}

enum { IDLE_STEPS = 100 };

/* Takes steps of a channel. Of steps that change nothing no more than IDLE_STEPS are taken, and one if `way` is MANY. */
static void carry_out_steps(runner *p, answer *to)
{
    const call *step = call_of("step");
    uint8_t channel = p->arguments.channel;
    uint32_t left = p->arguments.numbers[0], idle = 0;
    same_steps same = {"", 0};
    while (left > 0) {
        char text[64];
        answer turn = {text, sizeof text};
        dma330_run run;
        int is_running = dma330_running(&p->controller, channel, &run) == DMA330_OK;
        int32_t code;
        uint32_t taken = 1;
        int is_idle;
        p->arguments.numbers[0] = p->way == MANY ? left : 1;
        code = make_call(p, step);
        if (code == DMA330_OK) {
            taken = p->outputs.report.taken;
            add_earlier(p, &same, is_running, channel, to);
            append_last(&turn, &p->outputs.report);
        } else
            append_refusal(p, step, code, &turn);
        left -= taken;
        is_idle = code != DMA330_OK || (!goes_on(&p->outputs.report) && p->outputs.report.last != DMA330_FINISHED);
        idle = is_idle ? idle + 1 : 0;
        if (idle == (p->way == MANY ? 1 : IDLE_STEPS)) {
            add_steps(&same, text, left, channel, to);
            left = 0;
        }
        add_steps(&same, text, 1, channel, to);
    }
    print_steps(&same, channel, to);
}

/* Returns whether channel 0 has an unfinished transfer, is paused or is halted. */
static int is_in_use(runner *p)
{
    uint32_t count = 0;
    if (dma330_unfinished(&p->controller, 0, &count) != DMA330_OK || count > 0)
        return 1;
    p->arguments.numbers[0] = 1;
    return make_call(p, call_of("step")) == DMA330_OK && p->outputs.report.last != DMA330_NOTHING;
}

/* Copies or fills by channel 0, at once: plans the transfer, which tests its rules, submits it, issues it, and steps. */
static void carry_out_copy(runner *p, answer *to)
{
    int is_fill = p->arguments.is_fill, n = 0;
    const call *calls[4];
    int32_t code = DMA330_OK;
    calls[0] = call_of(is_fill ? "plan_fill" : "plan");
    calls[1] = call_of(is_fill ? "submit_fill" : "submit");
    calls[2] = call_of("issue");
    calls[3] = call_of("step");
    p->arguments.channel = 0;
    p->arguments.numbers[1] = DMA330_MAX_PROGRAM;
    while (n < 4) {
        if (n == 1 && is_in_use(p)) {
            append(to, "refused ChannelInUse\n");
            return;
        }
        p->arguments.numbers[0] = n < 3 ? 0 : p->way == MANY ? 0xFFFFFFFF : 1;
        code = make_call(p, calls[n]);
        if (code != DMA330_OK)
            break;
        n += n < 3 || !goes_on(&p->outputs.report);
    }
    if (code == DMA330_OK) {
        append(to, is_fill ? "fill " : "copy ");
        append_last(to, &p->outputs.report);
    } else
        append_refusal(p, calls[n], code, to);
    append(to, "\n");
}

static void carry_out_totals(runner *p, answer *to)
{
    static const char *const names[] = {"history_entries", "steps", "running_count"};
    static const char *const texts[] = {"totals entries ", " steps ", " running "};
    int n;
    for (n = 0; n < 3; n++) {
        const call *c = call_of(names[n]);
        int32_t code = make_call(p, c);
        append(to, "%s", code == DMA330_OK ? texts[n] : "");
        if (code == DMA330_OK && n == 0 && p->has_reads)
            append(to, "?");
        else if (code == DMA330_OK)
            c->print(to, &p->arguments, &p->outputs);
        else if (n == 2)
            append_refusal(p, c, code, to);
    }
    append(to, "\n");
}

/* Returns the call that a statement of a script, or the name of a call, makes. */
static const call *call_of_line(const char *word)
{
    static const char *const names[][2] = {{"steps", "step"}, {"mark", "inject_error"}, {"unmark", "uninject_errors"}};
    size_t n;
    for (n = 0; n < sizeof names / sizeof names[0]; n++)
        if (strcmp(word, names[n][0]) == 0)
            return call_of(names[n][1]);
    return call_of(word);
}

static void carry_out_line(runner *p, const char *line, answer *to)
{
    char word[32];
    next_word(&line, word, sizeof word);
    if (word[0] == '\0' || word[0] == '#') {
        return;
    } else if (strcmp(word, "memory") == 0) {
        read_arguments("nn", line, &p->arguments);
        if (make_call(p, call_of("open")) != DMA330_OK && !p->is_stopped)
            bad_line("no memory line", line);
    } else if (strcmp(word, "step") == 0) {
        read_arguments("co", line, &p->arguments);
        carry_out_steps(p, to);
    } else if (strcmp(word, "copy") == 0 || strcmp(word, "fill") == 0) {
        read_arguments(word[0] == 'c' ? "sd" : "fd", line, &p->arguments);
        carry_out_copy(p, to);
    } else if (strcmp(word, "totals") == 0) {
        carry_out_totals(p, to);
    } else if (strcmp(word, "poke") == 0) {
        read_arguments("nb", line, &p->arguments);
        memcpy(p->ram + p->arguments.numbers[0], p->arguments.bytes, p->arguments.len);
        append(to, "ok\n");
    } else if (strcmp(word, "peek") == 0) {
        read_arguments("r", line, &p->arguments);
        append_bytes(to, p->ram + p->arguments.numbers[0], p->arguments.numbers[1]);
        append(to, "\n");
    } else {
        const call *c = call_of_line(word);
        read_arguments(c->shape, line, &p->arguments);
        print_call(p, strcmp(word, "submit") == 0 && p->arguments.is_fill ? call_of("submit_fill") : c, to);
    }
}

/* ---- programs and their texts ---- */

/* Writes bytes, 16 to a line. */
static void append_lines(answer *to, const uint8_t *bytes, size_t len)
{
    size_t n;
    for (n = 0; n < len; n++)
        append(to, "%02X%s", bytes[n], n + 1 == len || n % 16 == 15 ? "\n" : " ");
}

static void carry_out_asm(runner *p, const char *text, answer *to)
{
    arguments *a = &p->arguments;
    unsigned long line;
    int32_t code;
    a->numbers[0] = DMA330_MAX_PROGRAM;
    a->text_len = strlen(text);
    if (a->text_len > MOST_TEXT)
        bad_line("the text is too long", "asm");
    memcpy(a->text, text, a->text_len);
    code = make_call(p, call_of("assemble"));
    line = (unsigned long)p->outputs.place;
    if (code == DMA330_OK)
        append_lines(to, p->outputs.bytes, p->outputs.len);
    else if (code == DMA330_PROGRAM_TOO_LONG)
        append(to, "line %lu: ProgramTooLong\n", line);
    else
        append(to, "line %lu: %s\n", line,
               code == DMA330_BAD_MNEMONIC ? "mnemonic" : code == DMA330_BAD_OPERAND ? "operand" : "range");
}

static void carry_out_dis(runner *p, const char *text, answer *to)
{
    unsigned long place;
    int32_t code;
    read_arguments("b", text, &p->arguments);
    p->arguments.numbers[0] = MOST_TEXT;
    code = make_call(p, call_of("disassemble"));
    place = (unsigned long)p->outputs.place;
    if (code == DMA330_OK)
        append(to, "%.*s", (int)p->outputs.len, (const char *)p->outputs.bytes);
    else if (code == DMA330_UNKNOWN_INSTRUCTION)
        append(to, "offset %lu: Unknown %02X\n", place, p->arguments.bytes[place]);
    else
        append(to, "offset %lu: %s\n", place, code == DMA330_CUT_INSTRUCTION ? "Cut" : "BadField");
}

/* Plans a transfer, and explains its program, for the number of instructions that it executes. */
static void plan_transfer(runner *p, unsigned long line, answer *to)
{
    arguments *a = &p->arguments;
    int32_t code;
    a->numbers[0] = 0;
    a->numbers[1] = DMA330_MAX_PROGRAM;
    code = make_call(p, call_of(a->is_fill ? "plan_fill" : "plan"));
    if (code != DMA330_OK) {
        append(to, "line %lu: ", line);
        append_camel(to, dma330_code_name(code));
        append(to, "\n");
        return;
    }
    append_lines(to, p->outputs.bytes, p->outputs.len);
    append(to, "bytes %lu\n", (unsigned long)p->outputs.len);
    a->len = p->outputs.len;
    memcpy(a->bytes, p->outputs.bytes, a->len);
    a->numbers[1] = 1000000;
    a->numbers[2] = MOST_ITEMS;
    if (make_call(p, call_of("explain")) == DMA330_OK)
        append(to, "cost %lu\n", (unsigned long)p->outputs.explanation.steps);
}

static void carry_out_plan(runner *p, const char *text, answer *to)
{
    static char line[MOST_WORD];
    unsigned long number;
    for (number = 1; *text != '\0'; number++) {
        size_t len = strcspn(text, "\n"), word;
        snprintf(line, sizeof line, "%.*s", (int)(len > 0 && text[len - 1] == '\r' ? len - 1 : len), text);
        word = strspn(line, " \t");
        if (line[word] != '\0' && line[word] != '#') {
            read_arguments("T", line, &p->arguments);
            plan_transfer(p, number, to);
        }
        text += len + (text[len] == '\n');
    }
}

/* ---- rows ---- */

void carry_out(runner *p, const group *of, const row *row, char *output)
{
    answer to = {output, OUTPUT_ROOM};
    const char *command = of->command ? of->command : "run";
    output[0] = '\0';
    if (strcmp(command, "run") == 0)
        carry_out_line(p, row->line, &to);
    else if (strcmp(command, "asm") == 0)
        carry_out_asm(p, row->line, &to);
    else if (strcmp(command, "dis") == 0)
        carry_out_dis(p, row->line, &to);
    else
        carry_out_plan(p, row->line, &to);
}

const char *text_after(const char *text, const char *output)
{
    for (; *output != '\0'; output++) {
        if (*output == '?')
            text += strspn(text, "0123456789");
        else if (*output != *text++)
            return NULL;
    }
    return text;
}

void make_runner(runner *p, way way)
{
    memset(p, 0, sizeof *p);
    p->way = way;
    p->stop_at = -1;
}
