/* The least that decoding can cost: a loop in C over the same octets, with one request for each allocation of the result.
 * usage: floor ints|extopt|nest HEX TIMES, for example: valgrind --tool=callgrind floor nest 010101010100 12
 * It takes canonical octets alone, of integers of at most eight octets, and says nothing of an error but that there is one. */
#include <stdint.h>
#include <stdio.h>
#include <stdlib.h>
#include <string.h>

typedef struct {
    const uint8_t *at, *end;
} input;

typedef struct {
    int64_t number;
    uint64_t is_long, most, least; /* as wide as an integer of any size */
} integer;

typedef struct list {
    struct list *items;
    size_t count, room;
} list;

typedef struct {
    uint8_t *octets;
    size_t count;
} string;

typedef struct {
    integer value;
    uint16_t is_there;
    integer integers[5];
    string octets[5];
} extended;

static int octet(input *in, unsigned *value) {
    if (in->at == in->end) return 0;
    *value = *in->at++;
    return 1;
}

static int read_integer(input *in, integer *to) {
    unsigned count;
    if (!octet(in, &count) || count == 0 || count > 8 || (size_t)(in->end - in->at) < count) return 0;
    int64_t n = (int8_t)in->at[0];
    for (unsigned i = 1; i < count; i++) n = (int64_t)((uint64_t)n << 8 | in->at[i]);
    if (count > 1 && n >> (8 * count - 9) == n >> 63 && (uint64_t)(n >> (8 * count - 9)) + 1 < 2) return 0;
    in->at += count;
    to->number = n;
    to->is_long = 0;
    return 1;
}

static int read_octets(input *in, string *to) {
    unsigned count;
    if (!octet(in, &count) || count > 127 || (size_t)(in->end - in->at) < count) return 0;
    if (!(to->octets = malloc(count + 1))) return 0;
    memcpy(to->octets, in->at, count);
    to->count = count;
    in->at += count;
    return 1;
}

static int quantity(input *in, size_t *n) {
    unsigned count, next;
    if (!octet(in, &count) || count == 0 || count > 7) return 0;
    for (*n = 0; count; count--) {
        if (!octet(in, &next)) return 0;
        *n = *n << 8 | next;
    }
    return 1;
}

static size_t room_for(size_t n, const input *in) { return n < (size_t)(in->end - in->at) ? n : (size_t)(in->end - in->at); }

static int read_ints(input *in) {
    size_t n;
    if (!quantity(in, &n)) return 0;
    integer *items = malloc((room_for(n, in) + 1) * sizeof *items);
    int well = items != NULL;
    for (size_t i = 0; well && i < n; i++) well = read_integer(in, &items[i]);
    free(items);
    return well;
}

static int read_nest(input *in, list *to, unsigned levels) {
    size_t n;
    if (levels == 0 || !quantity(in, &n)) return 0;
    to->count = 0;
    to->room = room_for(n, in);
    to->items = to->room ? malloc(to->room * sizeof(list)) : NULL;
    if (to->room && !to->items) return 0;
    for (; to->count < n; to->count++)
        if (!read_nest(in, &to->items[to->count], levels - 1)) return 0;
    return 1;
}

static void drop_nest(list *it) {
    for (size_t i = 0; i < it->count; i++) drop_nest(&it->items[i]);
    free(it->items);
}

/* one component, an integer or octets by turns */
static int component(input *in, extended *to, unsigned k) {
    to->is_there |= 1u << k;
    return k % 2 ? read_octets(in, &to->octets[k / 2]) : read_integer(in, &to->integers[k / 2]);
}

static int read_additions(input *in, extended *to) {
    unsigned count, unused, bits, open;
    if (!octet(in, &count) || count != 2 || !octet(in, &unused) || unused != 4 || !octet(in, &bits) || bits % 16 || !bits) return 0;
    for (unsigned k = 0; k < 4; k++) {
        if (!(bits >> (7 - k) & 1)) continue;
        if (!octet(in, &open) || (size_t)(in->end - in->at) < open) return 0;
        input content = {in->at, in->at + open};
        if (!component(&content, to, 6 + k) || content.at != content.end) return 0;
        in->at += open;
    }
    return 1;
}

static int read_extopt(input *in) {
    extended it;
    unsigned bits;
    it.is_there = 0;
    int well = octet(in, &bits) && bits % 2 == 0 && read_integer(in, &it.value);
    for (unsigned k = 0; well && k < 6; k++)
        if (bits >> (6 - k) & 1) well = component(in, &it, k);
    if (well && bits >> 7) well = read_additions(in, &it);
    for (unsigned k = 0; k < 5; k++)
        if (it.is_there >> (2 * k + 1) & 1) free(it.octets[k].octets);
    return well;
}

int main(int count, char **words) {
    static uint8_t octets[1 << 20];
    size_t length = 0;
    unsigned digit;
    if (count != 4) return 2;
    for (const char *at = words[2]; length < sizeof octets && sscanf(at, "%2x", &digit) == 1; at += 2) octets[length++] = (uint8_t)digit;
    unsigned well = 0;
    for (long i = 0, times = atol(words[3]); i < times; i++) {
        input in = {octets, octets + length};
        list nest = {NULL, 0, 0};
        if (words[1][0] == 'i') well += (unsigned)read_ints(&in);
        else if (words[1][0] == 'e') well += (unsigned)read_extopt(&in);
        else {
            well += (unsigned)read_nest(&in, &nest, 128);
            drop_nest(&nest);
        }
    }
    printf("%u\n", well);
    return 0;
}
