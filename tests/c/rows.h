/* The groups of rows.txt and of channels.txt, and the calls that tests/test_rows --plain prints. */
#ifndef ROWS_H
#define ROWS_H

/* A line, and its answer, which is NULL in a call. */
typedef struct row {
    const char *line;
    const char *answer;
} row;

/* Lines for one controller or channel, which isn't open before the first, and everything that they print. The one row of
 * asm, dis and plan is their whole input. */
typedef struct group {
    const char *title;
    const char *command; /* run, asm, dis or plan of a call, else NULL */
    const row *rows;
    int count;
    const char *wanted;
} group;

/* Returns the groups of a file, and after them a group without a title. The next call reuses their room. Ends the program
 * if the file can't be read, or if it is wrong. */
const group *read_groups(const char *path);

#endif
