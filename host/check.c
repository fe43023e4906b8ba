/* Compares the library with a computation of its own: every sector of both kinds, every word, and the refusals. */
#include <stdint.h>
#include <stdio.h>
#include <stdlib.h>

#include "media.h"

#define REFUSED (MEDIA_REFUSAL_BASE + MEDIA_NO_SECTOR)
#define COUNT(list) (sizeof(list) / sizeof((list)[0]))

static void expect(const char *what, const char *where, uint32_t got, uint32_t wanted) {
    if (got != wanted) {
        printf("%s differ at %s: the library says %u, wanted is %u\n", what, where, (unsigned)got, (unsigned)wanted);
        exit(1);
    }
}

static const char *place_text(uint32_t kind, uint32_t cylinder, uint32_t head, uint32_t sector) {
    static char text[120];
    snprintf(text, sizeof text, "kind %u, cylinder %u, head %u, sector %u", (unsigned)kind, (unsigned)cylinder, (unsigned)head,
             (unsigned)sector);
    return text;
}

static const char *word_text(uint32_t word) {
    static char text[40];
    snprintf(text, sizeof text, "header word 0%o", (unsigned)word);
    return text;
}

/* The header word from its binary digits, highest first: nine of the cylinder, one of the head, six of the sector. */
static uint32_t digits_word(uint32_t cylinder, uint32_t head, uint32_t sector) {
    uint32_t word = 0;
    for (int i = 8; i >= 0; i--) word = word * 2 + cylinder / (1u << i) % 2;
    word = word * 2 + head;
    for (int i = 5; i >= 0; i--) word = word * 2 + sector / (1u << i) % 2;
    return word;
}

/* The check word by long division: the 32 bits of the header word and a zero word, and then 16 zeros, are divided by
   x^16 + x^15 + x^2 + 1. Each entry is a coefficient, the highest first; the first one of the remainder is bit 0. */
static uint32_t division_word(uint32_t word) {
    static const unsigned char divisor[17] = {1, 1, 0, 0, 0, 0, 0, 0, 0, 0, 0, 0, 0, 0, 1, 0, 1};
    unsigned char bits[48] = {0};
    uint32_t check = 0;
    for (int i = 0; i < 16; i++) bits[i] = (unsigned char)(word / (1u << i) % 2);
    for (int i = 0; i < 32; i++)
        if (bits[i])
            for (int j = 0; j < 17; j++) bits[i + j] = (unsigned char)((bits[i + j] + divisor[j]) % 2);
    for (int i = 0; i < 16; i++) check += (uint32_t)bits[32 + i] * (1u << i);
    return check;
}

static void compare_block(uint32_t kind, uint32_t cylinder, uint32_t head, uint32_t sector, uint32_t count) {
    expect("block numbers", place_text(kind, cylinder, head, sector), media_block_number(kind, cylinder, head, sector), count);
}

static void compare_header(uint32_t kind, uint32_t cylinder, uint32_t head, uint32_t sector, uint32_t count) {
    (void)count;
    expect("header words", place_text(kind, cylinder, head, sector), media_header_word(kind, cylinder, head, sector),
           digits_word(cylinder, head, sector));
}

static void compare_header_check(uint32_t kind, uint32_t cylinder, uint32_t head, uint32_t sector, uint32_t count) {
    (void)count;
    expect("check words of header words", place_text(kind, cylinder, head, sector),
           media_check_word(media_header_word(kind, cylinder, head, sector)), division_word(digits_word(cylinder, head, sector)));
}

/* Compares at every place of both kinds, with the count of the places before it on its pack, and says how many there are. */
static unsigned each_place(void (*compare)(uint32_t, uint32_t, uint32_t, uint32_t, uint32_t)) {
    unsigned places = 0;
    for (uint32_t kind = 1; kind <= 2; kind++) {
        uint32_t count = 0;
        for (uint32_t cylinder = 0; cylinder < 256 * kind; cylinder++)
            for (uint32_t head = 0; head < 2; head++)
                for (uint32_t sector = 0; sector < 40; sector++) compare(kind, cylinder, head, sector, count++);
        places += count;
    }
    return places;
}

static unsigned compare_all_checks(void) {
    uint32_t word;
    for (word = 0; word <= 65535; word++)
        expect("check words", word_text(word), media_check_word(word), division_word(word));
    return word;
}

static void expect_refused(uint32_t kind, uint32_t cylinder, uint32_t head, uint32_t sector) {
    const char *where = place_text(kind, cylinder, head, sector);
    expect("refusals of a block number", where, media_block_number(kind, cylinder, head, sector), REFUSED);
    expect("refusals of a header word", where, media_header_word(kind, cylinder, head, sector), REFUSED);
}

/* One number out of range at a time, beside the first and the last place; each number that would be in range if it were cut to
   8 or 16 bits is among them. */
static unsigned compare_refusals(void) {
    static const uint32_t kinds[] = {0, 3, 255, 256, 257, 258, 65537, 65538, UINT32_MAX};
    static const uint32_t cylinders[] = {512, 513, 32768, 65535, 65536, 65537, 131072, UINT32_MAX};
    static const uint32_t heads[] = {2, 3, 255, 256, 257, 65536, 65537, UINT32_MAX};
    static const uint32_t sectors[] = {40, 41, 63, 64, 255, 256, 257, 65536, 65537, UINT32_MAX};
    unsigned asked = 0;
    for (size_t i = 0; i < COUNT(kinds); i++) {
        expect_refused(kinds[i], 0, 0, 0);
        expect_refused(kinds[i], 255, 1, 39);
        asked += 2;
    }
    for (uint32_t kind = 1; kind <= 2; kind++) {
        uint32_t last = 256 * kind - 1;
        expect_refused(kind, last + 1, 0, 0);
        asked += 1;
        for (size_t i = 0; i < COUNT(cylinders); i++) {
            expect_refused(kind, cylinders[i], 0, 0);
            expect_refused(kind, cylinders[i], 1, 39);
            asked += 2;
        }
        for (size_t i = 0; i < COUNT(heads); i++) {
            expect_refused(kind, 0, heads[i], 0);
            expect_refused(kind, last, heads[i], 39);
            asked += 2;
        }
        for (size_t i = 0; i < COUNT(sectors); i++) {
            expect_refused(kind, 0, 0, sectors[i]);
            expect_refused(kind, last, 1, sectors[i]);
            asked += 2;
        }
    }
    expect_refused(UINT32_MAX, UINT32_MAX, UINT32_MAX, UINT32_MAX);
    return asked + 1;
}

static unsigned compare_check_refusals(void) {
    static const uint32_t words[] = {65536, 65537, 131071, 131072, UINT32_MAX};
    for (size_t i = 0; i < COUNT(words); i++)
        expect("refusals of a check word", word_text(words[i]), media_check_word(words[i]), REFUSED);
    return COUNT(words);
}

int main(void) {
    printf("block numbers: %u places agree\n", each_place(compare_block));
    printf("header words: %u places agree\n", each_place(compare_header));
    printf("check words of header words: %u places agree\n", each_place(compare_header_check));
    printf("check words: %u words agree\n", compare_all_checks());
    printf("refused block numbers and header words: %u places agree\n", compare_refusals());
    printf("refused check words: %u words agree\n", compare_check_refusals());
    return 0;
}
