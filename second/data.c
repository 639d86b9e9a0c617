#include "data.h"

#include "bytes.h"
#include "map.h"
#include "tokens.h"

#include <string.h>

/* A list, quote or label that was begun and not ended. Of a list: what comes now. */
enum { MEMBER_OR_DOT, AFTER_DOT, ONLY_CLOSING, IN_QUOTE, IN_LABEL };

typedef struct {
    int state;
    uint32_t label;
    Object tail;  /* what a list ends with: NIL, or what followed a dot */
    size_t first; /* where the list's members begin among those that were read */
} Frame;

static Frame *frames;
static size_t frame_count, frame_capacity;
static Vector members_read;
static Map labels; /* NO_OBJECT until what is labelled is complete */
static bool holds_large_natural;

static void open_frame(int state, uint32_t label)
{
    frames = with_room(frames, &frame_capacity, frame_count + 1, sizeof *frames);
    frames[frame_count++] =
        (Frame){ .state = state, .label = label, .tail = NIL, .first = members_read.count };
}

static Object close_list(void)
{
    Frame frame = frames[--frame_count];
    Object list = frame.tail;
    while (members_read.count > frame.first)
        list = cons((Object)pop(&members_read), list);
    return list;
}

/*
 * Hands an object to the frames around it; answers whether it, with quotes around it, is the whole
 * datum.
 */
static bool deliver(Object *object)
{
    for (; frame_count > 0; frame_count--) {
        Frame *frame = &frames[frame_count - 1];
        switch (frame->state) {
        case IN_QUOTE: *object = quoted(*object); break;
        case IN_LABEL: replace(&labels, frame->label, *object); break;
        case MEMBER_OR_DOT: push(&members_read, *object); return false;
        default:
            frame->tail = *object;
            frame->state = ONLY_CLOSING;
            return false;
        }
    }
    return true;
}

static bool begins_part(int byte)
{
    return is_token_byte(byte) || (byte != 0 && strchr("()'#|", byte));
}

/* Refuses a byte, or the end, that may not come next, whatever follows it. */
static void refuse_misplaced(int byte, const Frame *frame)
{
    /* Outside of all lists there is no list to close, as in a quote. */
    int state = frame ? frame->state : IN_QUOTE;
    if (byte == EOF)
        fault("END", source.offset);
    if (!begins_part(byte))
        fault("BYTE", source.offset);
    if (byte == ')' && state >= IN_QUOTE)
        fault("CLOSE", source.offset);
    if (byte == ')' ? state == AFTER_DOT : state == ONLY_CLOSING)
        fault("DOT", source.offset);
}

/* Reads a label; answers whether it names an object, and does not begin one. */
static bool read_labelled(Object *object)
{
    uint64_t start = source.offset;
    uint32_t label;
    if (read_label(&label) == '=') {
        if (!put(&labels, label, NO_OBJECT))
            fault("LABEL", start);
        open_frame(IN_LABEL, label);
        return false;
    }
    if (!find(&labels, label, object) || *object == NO_OBJECT)
        fault("LABEL", start);
    return true;
}

/* A dot that is glued to what follows is refused for that first, wherever it stands. */
static void pass_dot(uint64_t start)
{
    Frame *frame = frame_count > 0 ? &frames[frame_count - 1] : NULL;
    refuse_glue();
    if (!frame || frame->state != MEMBER_OR_DOT || frame->first == members_read.count)
        fault("DOT", start);
    frame->state = AFTER_DOT;
}

static bool read_bare(Object *object)
{
    uint64_t start = source.offset;
    switch (read_bare_token()) {
    case A_DOT: pass_dot(start); return false;
    case A_NUMBER:
        *object = natural(token, token_length);
        holds_large_natural |= *object == too_large;
        return true;
    default: *object = symbol(token, token_length); return true;
    }
}

/* Reads on; answers whether an object is complete now. */
static bool read_part(Object *object)
{
    switch (peek()) {
    case '(':
    case '\'':
        open_frame(peek() == '(' ? MEMBER_OR_DOT : IN_QUOTE, 0);
        skip();
        return false;
    case ')':
        skip();
        *object = close_list();
        return true;
    case '|':
        read_barred_token();
        *object = symbol(token, token_length);
        return true;
    case '#': return read_labelled(object);
    default: return read_bare(object);
    }
}

bool read_datum(Object *datum)
{
    empty(&labels);
    holds_large_natural = false;
    for (;;) {
        refuse_glue();
        skip_white_space();
        if (peek() == EOF && frame_count == 0)
            return false;
        refuse_misplaced(peek(), frame_count > 0 ? &frames[frame_count - 1] : NULL);
        if (read_part(datum) && deliver(datum))
            return true;
    }
}

bool is_out_of_range(void) { return holds_large_natural; }
