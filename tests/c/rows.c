#include "rows.h"

#include <stdio.h>
#include <stdlib.h>
#include <string.h>

enum { MOST_CHARACTERS = 1 << 23, MOST_ROWS = 1 << 13, MOST_GROUPS = 500 };

static char characters[MOST_CHARACTERS]; /* the file */
static char texts[MOST_CHARACTERS];      /* texts of several lines, each ended by a zero */
static size_t texts_len;                 /* the place of the last zero */
static row rows[MOST_ROWS];
static group groups[MOST_GROUPS + 1];
static int row_count, group_count;

static void bad_row(const char *why, const char *line)
{
    fprintf(stderr, "not a row: %s: %.60s\n", why, line);
    exit(2);
}

static void read_characters(const char *path)
{
    FILE *file = fopen(path, "rb");
    size_t count;
    if (!file)
        bad_row("cannot be read", path);
    count = fread(characters, 1, MOST_CHARACTERS - 1, file);
    if (count == MOST_CHARACTERS - 1 || ferror(file) || fclose(file) != 0)
        bad_row("cannot be read whole", path);
    characters[count] = '\0';
    while (count > 0)
        if (characters[--count] == '\0')
            characters[count] = '?';
}

/* Begins a new text, and returns it. */
static const char *begin_text(void)
{
    texts[++texts_len] = '\0';
    return texts + texts_len;
}

/* Adds to the text that was begun last. */
static void add_text(const char *text, const char *end)
{
    size_t len = strlen(text) + strlen(end);
    if (texts_len + len + 2 > MOST_CHARACTERS)
        bad_row("the file is too long", text);
    sprintf(texts + texts_len, "%s%s", text, end);
    texts_len += len;
}

static void begin_group(const char *title, const char *command)
{
    group *next = &groups[group_count++];
    if (group_count > MOST_GROUPS)
        bad_row("there are too many groups", title);
    next->title = title;
    next->command = command;
    next->rows = rows + row_count;
    next->count = 0;
    next->wanted = "";
}

static void add_row(const char *line, const char *answer)
{
    if (group_count == 0 || row_count == MOST_ROWS)
        bad_row("no group has begun, or there are too many rows", line);
    rows[row_count].line = line;
    rows[row_count++].answer = answer;
    groups[group_count - 1].count++;
}

/* Adds a line to what the last group prints. */
static void add_wanted(const char *line)
{
    group *last = &groups[group_count - 1];
    if (last->wanted[0] == '\0')
        last->wanted = begin_text();
    add_text(line, "\n");
}

/* Adds a row, LINE = ANSWER, which it splits at its last " = ". */
static void split(char *line)
{
    char *at, *last = NULL;
    for (at = line; (at = strstr(at, " = ")) != NULL; at++)
        last = at;
    if (!last)
        bad_row("it has no answer", line);
    *last = '\0';
    add_row(line, last + 3);
    add_wanted(last + 3);
}

/* Begins a call, COMMAND TITLE. */
static void begin_call(char *words)
{
    char *title = strchr(words, ' ');
    if (!title)
        bad_row("it has no title", words);
    *title = '\0';
    begin_group(title + 1, words);
    if (strcmp(words, "run") != 0)
        add_row(begin_text(), NULL);
}

/* Adds a line of the input of a call, with a line feed at its end or without. */
static void add_input(char *line, const char *end)
{
    char *last = line + strlen(line);
    if (strcmp(groups[group_count - 1].command, "run") != 0) {
        add_text(line, end);
        return;
    }
    if (last > line && last[-1] == '\r')
        last[-1] = '\0';
    add_row(line, NULL);
}

const group *read_groups(const char *path)
{
    char *line;
    int is_calls;
    row_count = group_count = 0;
    texts_len = 0;
    read_characters(path);
    is_calls = characters[0] == '$';
    for (line = strtok(characters, "\n"); line != NULL; line = strtok(NULL, "\n")) {
        if (is_calls && line[0] == '$')
            begin_call(line + 2);
        else if (is_calls && line[0] == '>')
            add_wanted(line + 1);
        else if (is_calls)
            add_input(line + 1, line[0] == '<' ? "\n" : "");
        else if (strncmp(line, "== ", 3) == 0)
            begin_group(line + 3, NULL);
        else if (line[0] != '#')
            split(line);
    }
    groups[group_count].title = NULL;
    return groups;
}
