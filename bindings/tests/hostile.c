/* Hands any octets to the calls, and aborts where an answer breaks a promise that a caller can see. For AFL++ (scripts/afl.py), or over
 * records of standard input: two octets of length, the higher first, then an input.
 *
 * An input is the number of a type, of a mode, of another type and of levels, an octet each, and the octets to be read. With 255 in place
 * of the type it is a walk: how many words the table has, the number of a type, and the words, an octet each.
 * Blocks have just their size, so that valgrind or libdislocator sees an access past them. */
#include <jilgomt.h>
#include <stdio.h>
#include <stdlib.h>
#include <string.h>

#include "words.h" /* WORDS: the words of the types */

enum { COUNT = sizeof WORDS / sizeof *WORDS, NODES = 24 };

#define WANT(condition) \
    do { \
        if (!(condition)) { \
            fprintf(stderr, "hostile.c: line %d: %s\n", __LINE__, #condition); \
            abort(); \
        } \
    } while (0)

typedef struct input {
    const char *word, *other;
    uint32_t mode;
    size_t levels;
    const uint8_t *octets;
    size_t size;
} input;

/* A block of just that size, filled. */
static uint8_t *room(size_t size) {
    uint8_t *it = malloc(size ? size : 1);
    if (!it) abort();
    memset(it, 0xAA, size ? size : 1);
    return it;
}

static int is_untouched(const uint8_t *octets, size_t size) {
    for (size_t i = 0; i < size; i++)
        if (octets[i] != 0xAA) return 0;
    return 1;
}

static int is_refused(uint32_t status) {
    return status == JILGOMT_UNREAD || status == JILGOMT_UNWRITTEN || status == JILGOMT_UNREAD_AS_OTHER || status == JILGOMT_UNWRITTEN_AS_OTHER;
}

/* What holds of each answer. */
static void judged(input it, uint32_t status, jilgomt_answer answer) {
    uint8_t name[64];
    size_t length = jilgomt_kind_name(status, answer.kind, name, sizeof name);
    WANT(status == answer.status && status != JILGOMT_NO_TYPE && status != JILGOMT_NO_OPTIONS && answer.reserved == 0 && answer.flag <= 1 && answer.consumed <= it.size);
    WANT(is_refused(status) == (answer.kind != 0) && is_refused(status) == (length != 0));
    WANT(length != 11 || memcmp(name, "OutOfMemory", 11) != 0);
    WANT(!is_refused(status) || (answer.consumed == 0 && answer.written == 0));
}

static uint32_t called(input it, int is_conversion, uint8_t *out, size_t size, jilgomt_answer *answer) {
    const uint8_t *word = (const uint8_t *)it.word, *other = (const uint8_t *)it.other;
    uint32_t status = is_conversion
        ? jilgomt_convert(word, strlen(it.word), other, strlen(it.other), it.mode, it.levels, it.octets, it.size, out, size, answer)
        : jilgomt_canonicalise(word, strlen(it.word), it.mode, it.levels, it.octets, it.size, out, size, answer);
    judged(it, status, *answer);
    return status;
}

/* What a call writes, in a block of just its size; with less room, nothing. */
static uint8_t *written(input it, int is_conversion, jilgomt_answer *answer) {
    uint8_t *none = room(0);
    uint32_t status = called(it, is_conversion, none, 0, answer);
    free(none);
    size_t size = answer->written;
    if (status != JILGOMT_NO_ROOM) {
        WANT(status != JILGOMT_DONE || size == 0);
        return status == JILGOMT_DONE ? room(0) : 0;
    }
    uint8_t *less = room(size - 1), *out = room(size);
    jilgomt_answer again;
    WANT(called(it, is_conversion, less, size - 1, &again) == JILGOMT_NO_ROOM && again.written == size && is_untouched(less, size - 1));
    free(less);
    WANT(called(it, is_conversion, out, size, &again) == JILGOMT_DONE && again.written == size && again.consumed == answer->consumed);
    *answer = again;
    return out;
}

static jilgomt_answer checked(input it) {
    jilgomt_answer answer;
    judged(it, jilgomt_check((const uint8_t *)it.word, strlen(it.word), it.mode, it.levels, it.octets, it.size, &answer), answer);
    return answer;
}

/* What was written is canonical, in either mode, and canonical reading is lenient reading too. */
static void again(input it, const uint8_t *canonical, jilgomt_answer answer) {
    uint8_t *block = room(answer.written);
    memcpy(block, canonical, answer.written);
    input of = {it.word, it.other, JILGOMT_COER, it.levels, block, answer.written};
    jilgomt_answer seen = checked(of);
    WANT(seen.status == JILGOMT_DONE && seen.flag == 1 && seen.consumed == of.size && seen.written == of.size);
    free(block);
    of = it;
    of.mode = JILGOMT_OER;
    seen = checked(of);
    WANT(seen.status == JILGOMT_DONE && seen.consumed == answer.consumed && seen.written == answer.written);
}

static void read_as(input it) {
    jilgomt_answer answer, seen = checked(it);
    uint8_t *out = written(it, 0, &answer);
    WANT(seen.status == answer.status && seen.kind == answer.kind && seen.size == answer.size && seen.number == answer.number);
    WANT(seen.tag_class == answer.tag_class && seen.tag_number == answer.tag_number);
    if (out) {
        int is_same = answer.written == answer.consumed && memcmp(out, it.octets, answer.written) == 0;
        WANT(seen.consumed == answer.consumed && seen.written == answer.written && seen.flag == (uint32_t)is_same);
        again(it, out, answer);
        input same = it;
        same.other = it.word;
        uint8_t *converted = written(same, 1, &seen);
        WANT(converted && seen.written == answer.written && seen.consumed == answer.consumed && memcmp(converted, out, seen.written) == 0);
        free(converted);
    }
    free(out);
    out = written(it, 1, &seen);
    WANT(answer.status == JILGOMT_DONE ? seen.status == JILGOMT_DONE || seen.status >= JILGOMT_UNREAD_AS_OTHER : seen.status == answer.status);
    free(out);
}

/* Nodes of a walk by any table: in order, each in the part around it, or without an end. */
static void walked(const uint8_t *octets, size_t size) {
    size_t count = octets[0] < size - 2 ? octets[0] : size - 2, length = size - 2 - count;
    uint32_t *table = malloc(count ? count * sizeof *table : 1);
    uint8_t *in = room(length);
    jilgomt_node *nodes = malloc(NODES * sizeof *nodes);
    jilgomt_answer answer;
    for (size_t i = 0; i < count; i++) table[i] = octets[2 + i] == 255 ? UINT32_MAX : octets[2 + i];
    memcpy(in, octets + 2 + count, length);
    memset(nodes, 0, NODES * sizeof *nodes);
    uint32_t status = jilgomt_walk(table, count, octets[1], 64, in, length, nodes, NODES, &answer);
    WANT(status == JILGOMT_DONE || status == JILGOMT_UNREAD || status == JILGOMT_NO_ROOM);
    WANT(answer.consumed <= length && (status == JILGOMT_NO_ROOM) <= (answer.written > NODES));
    for (size_t i = 0; i < answer.written && i < NODES; i++) {
        jilgomt_node it = nodes[i], around = i && it.around < i ? nodes[it.around] : it;
        if (it.end == SIZE_MAX) continue;
        WANT(it.start <= it.content && it.content <= it.end && it.end <= length && (!i || nodes[i - 1].start <= it.start));
        WANT(!i || it.around >= i || (around.content <= it.start && (around.end == SIZE_MAX || it.end <= around.end)));
    }
    free(nodes);
    free(in);
    free(table);
}

static void tried(const uint8_t *octets, size_t size) {
    if (size >= 3 && octets[0] == 255) {
        walked(octets + 1, size - 1);
    } else if (size >= 4) {
        uint8_t *block = room(size - 4);
        memcpy(block, octets + 4, size - 4);
        read_as((input){WORDS[octets[0] % COUNT], WORDS[octets[2] % COUNT], octets[1] % 2, octets[3] ? octets[3] : JILGOMT_MAX_LEVELS, block, size - 4});
        free(block);
    }
}

#ifdef __AFL_COMPILER
#include <unistd.h>

__AFL_FUZZ_INIT();

/* A process of so few inputs that libdislocator, which keeps the place of each block, has places enough. */
int main(void) {
    __AFL_INIT();
    const uint8_t *octets = __AFL_FUZZ_TESTCASE_BUF;
    while (__AFL_LOOP(500)) tried(octets, __AFL_FUZZ_TESTCASE_LEN);
    return 0;
}
#else
int main(void) {
    static uint8_t octets[65536];
    unsigned long count = 0;
    for (int high, low; (high = getchar()) != EOF && (low = getchar()) != EOF; count++) {
        size_t size = (size_t)(high * 256 + low);
        WANT(fread(octets, 1, size, stdin) == size);
        tried(octets, size);
    }
    printf("hostile.c: %lu inputs, as promised\n", count);
    return 0;
}
#endif
