/* The fields of a line, as the assembler and the reader of feeds beside it take them. */
#include <stdbool.h>

enum { MOST_BYTES = 8388608, LINE_BYTES = 120 };

struct field { const char *text; unsigned length; };

static bool is_blank(char byte) { return byte == ' ' || byte == '\t'; }

static struct field next_field(const char **at, const char *end) {
    while (*at < end && is_blank(**at)) ++*at;
    const char *start = *at;
    while (*at < end && !is_blank(**at)) ++*at;
    return (struct field){start, *at - start};
}
