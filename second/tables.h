/*
 * The texts of the axioms and of the built-in definitions, each list ended by NULL. They were typed
 * from docs/AXIOMS.md and stay a copy: a second opinion that read them from where the first one
 * does would share its mistakes.
 */
#ifndef TABLES_H
#define TABLES_H

#include <stddef.h>

/* The axioms of the primitives, and those that the second profile adds for `*`. */
extern const char *const primitive_axioms[];
extern const char *const product_axioms[];

/*
 * The definitions that are the same in both profiles, in the order in which they are admitted; and
 * those that are not.
 */
extern const char *const shared_definitions[];
extern const char *const first_profile_definitions[];
extern const char *const second_profile_definitions[];

#endif
