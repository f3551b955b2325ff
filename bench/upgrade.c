/* A plain upgrader of rope images, unverified, beside which reading an image is measured: it reads an image of version 1 whole,
   keeps its words in a table, and writes the image of version 2, as agcws does; it tells the first fault of the bytes as agcws does.
   cc -O2 -o upgrade upgrade.c && ./upgrade OLD NEW */
#include <stdint.h>
#include <stdio.h>
#include <stdlib.h>

enum { BANKS = 044, BANK_WORDS = 02000, IMAGE_BYTES = 2 * BANKS * BANK_WORDS };

static unsigned char image[IMAGE_BYTES + 1]; /* and one more, to tell an image that is too long */
static uint16_t rope[BANKS][BANK_WORDS];

static void refuse(unsigned number) {
    fprintf(stderr, "agcws: E%u\n", number);
    exit(1);
}

/* the word at a position of the image: the banks are 2, 3, 0, 1, and then each from 4 on */
static uint16_t *word_at(unsigned position) {
    unsigned entry = position / BANK_WORDS;
    return &rope[entry < 4 ? entry ^ 2 : entry][position % BANK_WORDS];
}

static void read_image(FILE *file) {
    size_t length = fread(image, 1, sizeof image, file);
    for (size_t at = 0; at + 1 < length; at += 2) {
        if (image[at + 1] & 1) refuse(5);
        *word_at(at / 2) = (image[at] << 8 | image[at + 1]) >> 1;
    }
    if (length != IMAGE_BYTES) refuse(length < IMAGE_BYTES ? 3 : 4);
}

static void write_image(FILE *file) {
    for (unsigned position = 0; position < BANKS * BANK_WORDS; position++) {
        unsigned word = *word_at(position), spelled = 2 * word | !__builtin_parity(word);
        image[2 * position] = spelled >> 8, image[2 * position + 1] = spelled & 0377;
    }
    if (fwrite(image, 1, IMAGE_BYTES, file) != IMAGE_BYTES) exit(3);
}

int main(int count, char **words) {
    if (count != 3) return 2;
    FILE *old = fopen(words[1], "rb");
    if (!old) return 3;
    read_image(old);
    FILE *new = fopen(words[2], "wb");
    if (!new) return 3;
    write_image(new);
    return fclose(new) ? 3 : 0;
}
