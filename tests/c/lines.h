/* Carries out rows by calls of the library: lines of scripts of `dmasim run` (docs/SCRIPTS.md), those that rows.txt adds,
 * and inputs of `dmasim asm`, `dis` and `plan`. */
#ifndef LINES_H
#define LINES_H

#include "calls.h"
#include "rows.h"

enum { OUTPUT_ROOM = 1 << 17 };

/* Makes a runner with a controller that isn't open. */
void make_runner(runner *p, way way);

/* Carries out a row of a group, and writes the lines that it prints. */
void carry_out(runner *p, const group *of, const row *row, char *output);

/* Returns what follows if a text begins with this output, whose ? is any number; else NULL. */
const char *text_after(const char *text, const char *output);

#endif
