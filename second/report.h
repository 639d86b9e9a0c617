/* The lines of the report. */
#ifndef REPORT_H
#define REPORT_H

#include "objects.h"

/* Writes the line of an event: its number, its word, its name and the answer to it. */
void write_line(uint64_t number, Object event, const char *answer);

void write_summary(uint64_t events, uint64_t accepted, uint64_t steps_left);

#endif
