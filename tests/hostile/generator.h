/* Hostile bytes from a seed, a kind and a number. */
#ifndef GENERATOR_H
#define GENERATOR_H
#include <stddef.h>
#include <stdint.h>

enum kind { SOURCE, FEED, COMMAND_LINES, IMAGE };

/* The bytes of an image, and the most bytes that a case has. */
enum { IMAGE_BYTES = 73728, MOST_BYTES = 1 << 18 };

struct text {
    const unsigned char *bytes;
    size_t length;
};

/* Puts the bytes of a case into a room of MOST_BYTES, and answers how many they are. The sound texts are those of its kind that cases are changed from. */
size_t make_case(const char *seed, int kind, uint64_t number, const struct text *sound, size_t sounds, unsigned char *into);

/* Changes a case, of as many bytes as are told, a little; now and then not at all. It answers how many bytes it has then. */
size_t make_twin(const char *seed, int kind, uint64_t number, unsigned char *bytes, size_t length);

#endif
