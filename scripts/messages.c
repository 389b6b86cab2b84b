/* How many messages a second jilgomt_check takes on some threads: each line of a file is octets in hexadecimal, of one type.
 * usage: messages WORD FILE THREADS, for example: messages seq2 /tmp/lines 4
 * cc -O2 messages.c $(pkg-config --cflags --libs jilgomt) -lpthread. Each thread takes its share of the lines. The last line has
 * the messages, how many are canonical, and the time by the clock without that for reading the file. */
#include <jilgomt.h>
#include <pthread.h>
#include <stdio.h>
#include <stdlib.h>
#include <string.h>
#include <time.h>

enum { MOST_THREADS = 64, MOST_OCTETS = 65536 };

typedef struct share {
    const char *word, *at, *end;
    unsigned long count, canonical;
    pthread_t thread;
} share;

static int digit(char c) {
    return c >= '0' && c <= '9' ? c - '0' : c >= 'a' && c <= 'f' ? c - 'a' + 10 : c >= 'A' && c <= 'F' ? c - 'A' + 10 : -1;
}

static void *checked(void *given) {
    share *it = given;
    uint8_t *octets = malloc(MOST_OCTETS);
    if (!octets) exit(1);
    while (it->at < it->end) {
        size_t size = 0;
        for (; it->at + 1 < it->end && size < MOST_OCTETS && digit(it->at[0]) >= 0 && digit(it->at[1]) >= 0; it->at += 2)
            octets[size++] = (uint8_t)(digit(it->at[0]) * 16 + digit(it->at[1]));
        if (it->at == it->end || *it->at != '\n') exit(1);
        it->at++;
        jilgomt_answer answer;
        uint32_t status = jilgomt_check((const uint8_t *)it->word, strlen(it->word), JILGOMT_COER, JILGOMT_LEVELS, octets, size, &answer);
        it->canonical += status == JILGOMT_DONE && answer.consumed == size;
        it->count++;
    }
    free(octets);
    return 0;
}

static double now(void) {
    struct timespec it;
    clock_gettime(CLOCK_MONOTONIC, &it);
    return (double)it.tv_sec + (double)it.tv_nsec / 1e9;
}

/* The file's octets, which end with a line's end. */
static char *lines(const char *name, size_t *size) {
    FILE *file = fopen(name, "rb");
    if (!file || fseek(file, 0, SEEK_END)) exit(1);
    long end = ftell(file);
    char *all = end > 0 ? malloc((size_t)end) : 0;
    rewind(file);
    if (!all || fread(all, 1, (size_t)end, file) != (size_t)end || all[end - 1] != '\n') exit(1);
    fclose(file);
    *size = (size_t)end;
    return all;
}

int main(int argc, char **argv) {
    long threads = argc == 4 ? strtol(argv[3], 0, 10) : 0;
    if (threads < 1 || threads > MOST_THREADS) return fprintf(stderr, "usage: messages WORD FILE THREADS\n"), 2;
    size_t size;
    char *all = lines(argv[2], &size), *at = all;
    share shares[MOST_THREADS];
    double began = now();
    for (long i = 0; i < threads; i++) {
        char *end = all + size / (size_t)threads * (size_t)(i + 1);
        end = i + 1 == threads ? all + size : end <= at ? at : (char *)memchr(end - 1, '\n', (size_t)(all + size - end + 1)) + 1;
        shares[i] = (share){argv[1], at, end, 0, 0, 0};
        at = end;
        if (pthread_create(&shares[i].thread, 0, checked, &shares[i])) return 1;
    }
    unsigned long count = 0, canonical = 0;
    for (long i = 0; i < threads; i++) {
        pthread_join(shares[i].thread, 0);
        count += shares[i].count;
        canonical += shares[i].canonical;
    }
    double spent = now() - began;
    printf("%lu messages, %lu canonical, %ld threads: %.2f s, %.0f a second\n", count, canonical, threads, spent, (double)count / spent);
    free(all);
    return 0;
}
