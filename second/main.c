/*
 * A second checker of Milawa's logs of single steps, by other hands and in another language: it was
 * written from the pages of docs/ alone. It reads a log on standard input, and writes what `milawa
 * recheck` writes, and ends with its status.
 */
#include "bytes.h"
#include "data.h"
#include "events.h"
#include "map.h"
#include "report.h"
#include "steps.h"
#include "theory.h"

int main(void)
{
    uint64_t events = 0, accepted = 0;
    Object datum = NIL;
    choose_hash_seed();
    begin_objects();
    begin_theory();
    read_from_input();
    while (read_datum(&datum)) {
        if (is_pair(datum) && car(datum) == STEP) {
            collect_step(datum);
            continue;
        }
        const char *answer = answer_to(datum);
        accepted += answer[0] == 'y';
        write_line(++events, datum, answer);
        forget_steps();
    }
    write_summary(events, accepted, count_steps());
    finish(accepted == events && count_steps() == 0 ? GOOD : BAD);
}
