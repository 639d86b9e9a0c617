/* Tokens: bare ones, those in bars, and labels. A fault in one ends the program. */
#ifndef TOKENS_H
#define TOKENS_H

#include <stdbool.h>
#include <stddef.h>
#include <stdint.h>

/* What a bare token is. */
enum { A_NAME, A_NUMBER, A_DOT, MALFORMED };

int kind_of_token(const char *bytes, size_t length);

bool is_token_byte(int byte);
bool is_small_letter(int byte);

/*
 * Of the token that was read last: its bytes, with letters raised in a bare one, or those between
 * the bars.
 */
extern char *token;
extern size_t token_length;

/*
 * Reads a bare token, which begins at the next byte, and answers its kind, which is not MALFORMED.
 */
int read_bare_token(void);

/* Reads a name in bars, which begins at the next byte. */
void read_barred_token(void);

/* Reads `#n=` or `#n#`, and answers the byte that ended it. */
int read_label(uint32_t *number);

/* Refuses a byte that may not follow the token that was read last, and forgets that token. */
void refuse_glue(void);

void skip_white_space(void);

#endif
