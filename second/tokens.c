#include "tokens.h"

#include "bytes.h"
#include "memory.h"

char *token;
size_t token_length;
static size_t token_capacity;

/* What was read last, as far as it matters for the byte after it. */
enum { NO_TOKEN, BARE_TOKEN, BARRED_TOKEN };
static int last_token;

static bool is_digit(int byte) { return byte >= '0' && byte <= '9'; }

bool is_small_letter(int byte) { return byte >= 'a' && byte <= 'z'; }

bool is_token_byte(int byte)
{
    static const char bytes[] =
        "0123456789abcdefghijklmnopqrstuvwxyzABCDEFGHIJKLMNOPQRSTUVWXYZ!$%&*+-./<=>?@[]^_{}~";
    static bool table[256];
    if (!table['0'])
        for (size_t i = 0; i < sizeof bytes - 1; i++)
            table[(unsigned char)bytes[i]] = true;
    return byte >= 0 && table[byte];
}

static bool is_name_byte(int byte)
{
    return byte >= ' ' && byte <= '~' && byte != '\\' && byte != '|';
}

static bool are_digits(const char *bytes, size_t length)
{
    for (size_t i = 0; i < length; i++)
        if (!is_digit(bytes[i]))
            return false;
    return true;
}

static bool are_dots(const char *bytes, size_t length)
{
    for (size_t i = 0; i < length; i++)
        if (bytes[i] != '.')
            return false;
    return true;
}

int kind_of_token(const char *bytes, size_t length)
{
    if (are_digits(bytes, length))
        return A_NUMBER;
    if (is_digit(bytes[0]) ||
        ((bytes[0] == '+' || bytes[0] == '-') && length > 1 && is_digit(bytes[1])))
        return MALFORMED;
    if (are_dots(bytes, length))
        return length == 1 ? A_DOT : MALFORMED;
    return A_NAME;
}

static void add_to_token(int byte)
{
    token = with_room(token, &token_capacity, token_length + 1, 1);
    token[token_length++] = (char)byte;
}

int read_bare_token(void)
{
    uint64_t start = source.offset;
    for (token_length = 0; is_token_byte(peek()); skip())
        add_to_token(is_small_letter(peek()) ? peek() - 'a' + 'A' : peek());
    int kind = kind_of_token(token, token_length);
    if (kind == MALFORMED)
        fault("TOKEN", start);
    last_token = BARE_TOKEN;
    return kind;
}

void read_barred_token(void)
{
    uint64_t start = source.offset;
    skip();
    for (token_length = 0; peek() != '|'; skip()) {
        if (peek() == EOF)
            fault("END", source.offset);
        if (!is_name_byte(peek()))
            fault("BYTE", source.offset);
        add_to_token(peek());
    }
    if (token_length == 0)
        fault("TOKEN", start);
    skip();
    peek(); /* a name in bars is complete only once the byte after it is there, or the end */
    last_token = BARRED_TOKEN;
}

int read_label(uint32_t *number)
{
    uint64_t start = source.offset;
    int digits = 0;
    *number = 0;
    for (skip(); is_digit(peek()); skip(), digits++) {
        if (digits == 9)
            fault("LABEL", start);
        *number = *number * 10 + (uint32_t)(peek() - '0');
    }
    int byte = peek();
    if (byte == EOF)
        fault("END", source.offset);
    if (digits == 0 || (byte != '=' && byte != '#'))
        fault("LABEL", start);
    skip();
    return byte;
}

void refuse_glue(void)
{
    int byte = last_token == NO_TOKEN ? EOF : peek();
    if (byte == '|' || byte == '#' || (last_token == BARRED_TOKEN && is_token_byte(byte)))
        fault("TOKEN", source.offset);
    last_token = NO_TOKEN;
}

static void skip_comment(void)
{
    while (peek() != '\n' && peek() != EOF)
        skip();
}

void skip_white_space(void)
{
    for (;;) {
        switch (peek()) {
        case ' ':
        case '\t':
        case '\n':
        case '\f':
        case '\r': skip(); break;
        case ';': skip_comment(); break;
        default: return;
        }
    }
}
