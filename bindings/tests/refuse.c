/* Has each request for memory of a call refused in turn: the answer is OutOfMemory, with nothing written, until none is refused.
 * To be linked with -Wl,--wrap=malloc,--wrap=realloc. */
#include <jilgomt.h>
#include <stdio.h>
#include <stdlib.h>
#include <string.h>

static long requests, refused;
void *__real_malloc(size_t size);
void *__real_realloc(void *block, size_t size);
void *__wrap_malloc(size_t size) { return ++requests == refused ? 0 : __real_malloc(size); }
void *__wrap_realloc(void *block, size_t size) { return ++requests == refused ? 0 : __real_realloc(block, size); }

static uint32_t called(const char *from, const char *to, const uint8_t *in, size_t size, uint8_t *out, size_t room, jilgomt_answer *answer) {
    if (!to) return jilgomt_canonicalise((const uint8_t *)from, strlen(from), JILGOMT_OER, JILGOMT_LEVELS, in, size, out, room, answer);
    return jilgomt_convert((const uint8_t *)from, strlen(from), (const uint8_t *)to, strlen(to), JILGOMT_OER, JILGOMT_LEVELS, in, size, out, room, answer);
}

/* How many requests the call makes; each was refused once. */
static long swept(const char *from, const char *to, const uint8_t *in, size_t size) {
    for (refused = 1;; refused++) {
        uint8_t out[64];
        jilgomt_answer answer;
        memset(out, 0xAA, sizeof out);
        requests = 0;
        uint32_t status = called(from, to, in, size, out, sizeof out, &answer);
        if (requests < refused) {
            if (status == JILGOMT_DONE) return requests;
            printf("refuse.c: %s: status %u with no request refused\n", from, status);
            exit(1);
        }
        int is_reading = status == JILGOMT_UNREAD || status == JILGOMT_UNREAD_AS_OTHER;
        int is_writing = status == JILGOMT_UNWRITTEN || status == JILGOMT_UNWRITTEN_AS_OTHER;
        int is_wanting = (is_reading && answer.kind == JILGOMT_OUT_OF_MEMORY) || (is_writing && answer.kind == JILGOMT_WRITE_OUT_OF_MEMORY);
        for (size_t i = 0; i < sizeof out; i++) is_wanting = is_wanting && out[i] == 0xAA;
        if (!is_wanting) {
            printf("refuse.c: %s: request %ld refused: status %u, kind %u\n", from, refused, status, answer.kind);
            exit(1);
        }
    }
}

int main(void) {
    static const uint8_t sequence[] = {0x80, 0xff, 0x02, 0x06, 0xc0, 0x01, 0xff, 0x01, 0xff};
    static const uint8_t nest[] = {1, 1, 1, 1, 1, 2, 1, 0, 1, 0};
    static const uint8_t octets[] = {3, 1, 2, 3};
    long made = swept("seq2", 0, sequence, sizeof sequence) + swept("seq2", "seq1", sequence, sizeof sequence);
    made += swept("nest", 0, nest, sizeof nest) + swept("octets", 0, octets, sizeof octets);
    if (made < 10) {
        printf("refuse.c: only %ld requests\n", made);
        return 1;
    }
    printf("refuse.c: %ld requests for memory, each refused once\n", made);
    return 0;
}
