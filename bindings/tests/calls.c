/* Calls each function of the library on octets with answers by hand, and exits with the line of the first that answers otherwise.
 * Octets lie in heap blocks of just their size, so that valgrind sees an access past them. */
#include <jilgomt.h>
#include <pthread.h>
#include <stdio.h>
#include <stdlib.h>
#include <string.h>

#define WANT(condition) \
    do { \
        if (!(condition)) { \
            printf("calls.c: line %d: %s\n", __LINE__, #condition); \
            exit(1); \
        } \
    } while (0)

typedef struct block {
    uint8_t *octets;
    size_t size;
} block;

static block of_hex(const char *text) {
    block it = {malloc(strlen(text) / 2 + 1), strlen(text) / 2};
    uint8_t *exact = malloc(it.size ? it.size : 1);
    for (size_t i = 0; i < it.size; i++) {
        unsigned octet;
        sscanf(text + 2 * i, "%2x", &octet);
        exact[i] = (uint8_t)octet;
    }
    free(it.octets);
    it.octets = exact;
    return it;
}

static block filled(size_t size) {
    block it = {malloc(size ? size : 1), size};
    memset(it.octets, 0xAA, size ? size : 1);
    return it;
}

static int is_untouched(block it) {
    for (size_t i = 0; i < it.size; i++)
        if (it.octets[i] != 0xAA) return 0;
    return 1;
}

static const char *name_of(jilgomt_answer answer) {
    static _Thread_local char text[64];
    size_t length = jilgomt_kind_name(answer.status, answer.kind, (uint8_t *)text, sizeof text - 1);
    text[length] = 0;
    return text;
}

static uint32_t canonicalise(const char *word, uint32_t mode, block in, block out, jilgomt_answer *answer) {
    return jilgomt_canonicalise((const uint8_t *)word, strlen(word), mode, JILGOMT_LEVELS, in.octets, in.size, out.octets, out.size, answer);
}

/* With just the room that is needed, with one octet more, which stays, and with one less. */
static void gives(const char *word, uint32_t mode, const char *octets, const char *canonical, size_t rest) {
    block in = of_hex(octets), wanted = of_hex(canonical);
    for (size_t more = 0; more < 2; more++) {
        block out = filled(wanted.size + more);
        jilgomt_answer answer;
        memset(&answer, 0xAA, sizeof answer);
        WANT(canonicalise(word, mode, in, out, &answer) == JILGOMT_DONE && answer.status == JILGOMT_DONE);
        WANT(answer.written == wanted.size && answer.consumed == in.size - rest && answer.kind == 0 && answer.reserved == 0);
        WANT(memcmp(out.octets, wanted.octets, wanted.size) == 0);
        WANT(!more || out.octets[wanted.size] == 0xAA);
        free(out.octets);
    }
    if (wanted.size) {
        block out = filled(wanted.size - 1);
        jilgomt_answer answer;
        WANT(canonicalise(word, mode, in, out, &answer) == JILGOMT_NO_ROOM);
        WANT(answer.written == wanted.size && answer.consumed == in.size - rest && is_untouched(out));
        free(out.octets);
    }
    free(in.octets);
    free(wanted.octets);
}

static jilgomt_answer refused(const char *word, uint32_t mode, const char *octets, uint32_t status, const char *kind) {
    block in = of_hex(octets), out = filled(64);
    jilgomt_answer answer;
    WANT(canonicalise(word, mode, in, out, &answer) == status);
    WANT(strcmp(name_of(answer), kind) == 0);
    WANT(answer.consumed == 0 && answer.written == 0 && is_untouched(out));
    free(in.octets);
    free(out.octets);
    return answer;
}

static jilgomt_answer checked(const char *word, uint32_t mode, const char *octets) {
    block in = of_hex(octets);
    jilgomt_answer answer;
    WANT(jilgomt_check((const uint8_t *)word, strlen(word), mode, JILGOMT_LEVELS, in.octets, in.size, &answer) == answer.status);
    free(in.octets);
    return answer;
}

static jilgomt_answer converted(const char *from, const char *to, uint32_t mode, const char *octets, const char *wanted) {
    block in = of_hex(octets), out = filled(16), octets_wanted = of_hex(wanted);
    jilgomt_answer answer;
    jilgomt_convert((const uint8_t *)from, strlen(from), (const uint8_t *)to, strlen(to), mode, JILGOMT_LEVELS, in.octets, in.size,
                    out.octets, out.size, &answer);
    WANT(answer.status == JILGOMT_DONE ? answer.written == octets_wanted.size && memcmp(out.octets, octets_wanted.octets, answer.written) == 0
                                       : is_untouched(out));
    free(in.octets);
    free(out.octets);
    free(octets_wanted.octets);
    return answer;
}

static void of_octets(void) {
    gives("seq1", JILGOMT_OER, "80ff0206c001ff01ff", "00ff", 0);
    gives("seq1", JILGOMT_COER, "80ff0206c001ff01ff", "00ff", 0);
    gives("seq2", JILGOMT_COER, "80ff0206c001ff01ff", "80ff0206c001ff01ff", 0);
    gives("bool", JILGOMT_OER, "3300", "ff", 1);
    gives("defint", JILGOMT_OER, "800100", "00", 0);
    gives("octets", JILGOMT_OER, "820002aabb", "02aabb", 0);
    gives("empty", JILGOMT_COER, "", "", 0);
    jilgomt_answer answer = refused("bool", JILGOMT_COER, "33", JILGOMT_UNREAD, "InvalidBool");
    WANT(answer.kind == JILGOMT_INVALID_BOOL && answer.number == 0x33);
    answer = refused("seq2", JILGOMT_COER, "80ff0206c001ff", JILGOMT_UNREAD, "Incomplete");
    WANT(answer.kind == JILGOMT_INCOMPLETE && answer.size == 1);
    refused("int", JILGOMT_OER, "00", JILGOMT_UNREAD, "EmptyInteger");
    answer = refused("enum4", JILGOMT_COER, "07", JILGOMT_UNREAD, "DiscriminantValueNotFound");
    WANT(answer.number == 7);
    answer = refused("choice", JILGOMT_COER, "8500", JILGOMT_UNREAD, "InvalidTagVariantOnChoice");
    WANT(answer.tag_class == 2 && answer.tag_number == 5);
    refused("nosuch", JILGOMT_OER, "00", JILGOMT_NO_TYPE, "");
    refused("\xff", JILGOMT_OER, "00", JILGOMT_NO_TYPE, "");
    refused("bool", 7, "00", JILGOMT_NO_OPTIONS, "");
}

static void of_checks(void) {
    jilgomt_answer answer = checked("seq2", JILGOMT_COER, "80ff0206c001ff01ff77");
    WANT(answer.status == JILGOMT_DONE && answer.consumed == 9 && answer.written == 9 && answer.flag == 1);
    answer = checked("seq2", JILGOMT_OER, "80330206c001ff01ff");
    WANT(answer.status == JILGOMT_DONE && answer.consumed == 9 && answer.flag == 0);
    answer = checked("octets", JILGOMT_OER, "820002aabb");
    WANT(answer.status == JILGOMT_DONE && answer.consumed == 5 && answer.written == 3 && answer.flag == 0);
    answer = checked("bool", JILGOMT_COER, "");
    WANT(answer.status == JILGOMT_UNREAD && answer.kind == JILGOMT_INCOMPLETE && answer.size == 1);
}

static void of_versions(void) {
    jilgomt_answer answer = converted("seq2", "seq1", JILGOMT_COER, "80ff0206c001ff01ff", "00ff");
    WANT(answer.status == JILGOMT_DONE && answer.consumed == 9);
    answer = converted("seq1", "seq2", JILGOMT_COER, "00ff", "00ff");
    WANT(answer.status == JILGOMT_DONE && answer.consumed == 2);
    answer = converted("seq2", "seq1", JILGOMT_COER, "80", "");
    WANT(answer.status == JILGOMT_UNREAD && answer.kind == JILGOMT_INCOMPLETE);
    answer = converted("bool", "int", JILGOMT_COER, "00", "");
    WANT(answer.status == JILGOMT_UNREAD_AS_OTHER && strcmp(name_of(answer), "EmptyInteger") == 0);
    answer = converted("seq2", "nosuch", JILGOMT_COER, "00ff", "");
    WANT(answer.status == JILGOMT_NO_TYPE);
}

/* The functions of one type answer as those by its word. */
static void of_types(void) {
    block in = of_hex("80ff0206c001ff01ff");
    uint8_t out[16];
    jilgomt_answer answer;
    WANT(jilgomt_seq1_canonicalise(JILGOMT_COER, 128, in.octets, in.size, out, sizeof out, &answer) == JILGOMT_DONE);
    WANT(answer.written == 2 && out[0] == 0 && out[1] == 0xff && answer.consumed == 9);
    WANT(jilgomt_seq1_check(JILGOMT_COER, 128, in.octets, in.size, &answer) == JILGOMT_DONE && answer.flag == 0 && answer.consumed == 9);
    WANT(jilgomt_seq2_canonicalise(JILGOMT_COER, 128, in.octets, in.size, out, sizeof out, &answer) == JILGOMT_DONE);
    WANT(answer.written == 9 && memcmp(out, in.octets, 9) == 0);
    WANT(jilgomt_seq2_check(JILGOMT_COER, 128, in.octets, in.size, &answer) == JILGOMT_DONE && answer.flag == 1);
    WANT(jilgomt_seq2_to_seq1(JILGOMT_COER, 128, in.octets, in.size, out, sizeof out, &answer) == JILGOMT_DONE && answer.written == 2);
    WANT(jilgomt_seq2_check(JILGOMT_COER, 1025, in.octets, in.size, &answer) == JILGOMT_NO_OPTIONS);
    WANT(jilgomt_seq2_check(JILGOMT_COER, 0, in.octets, in.size, &answer) == JILGOMT_UNREAD && answer.kind == JILGOMT_EXCEEDS_MAX_PARSE_DEPTH);
    free(in.octets);
}

typedef uint32_t canonicalise_of(uint32_t, size_t, const uint8_t *JILGOMT_RESTRICT, size_t, uint8_t *JILGOMT_RESTRICT, size_t,
                                 jilgomt_answer *JILGOMT_RESTRICT);
typedef uint32_t check_of(uint32_t, size_t, const uint8_t *, size_t, jilgomt_answer *);

static int are_same(const jilgomt_answer *a, const jilgomt_answer *b) { return memcmp(a, b, sizeof *a) == 0; }

/* A type's functions answer as the calls by its word. */
static void same(const char *word, canonicalise_of *canonicalise_it, check_of *check_it) {
    static const char *const octets[] = {"", "ff", "00ff", "0101", "020304", "010101ff", "8002014d", "80ff0206c001ff01ff", "010203", "7f"};
    for (size_t i = 0; i < sizeof octets / sizeof *octets; i++) {
        block in = of_hex(octets[i]);
        for (uint32_t mode = JILGOMT_OER; mode <= JILGOMT_COER; mode++) {
            uint8_t out[2][32] = {{0}};
            jilgomt_answer answers[2];
            memset(answers, 0, sizeof answers);
            block room = {out[0], sizeof out[0]};
            uint32_t status = canonicalise(word, mode, in, room, &answers[0]);
            WANT(canonicalise_it(mode, JILGOMT_LEVELS, in.octets, in.size, out[1], sizeof out[1], &answers[1]) == status);
            WANT(are_same(&answers[0], &answers[1]) && memcmp(out[0], out[1], sizeof out[0]) == 0);
            status = jilgomt_check((const uint8_t *)word, strlen(word), mode, JILGOMT_LEVELS, in.octets, in.size, &answers[0]);
            WANT(check_it(mode, JILGOMT_LEVELS, in.octets, in.size, &answers[1]) == status && are_same(&answers[0], &answers[1]));
        }
        free(in.octets);
    }
}

static void of_each_type(void) {
#define SAME(word) same(#word, jilgomt_##word##_canonicalise, jilgomt_##word##_check);
    JILGOMT_TYPES(SAME)
}

/* The header's numbers of kinds are those of the library, by their names. */
static void of_kinds(void) {
    static const char *const read[] = {
        [JILGOMT_INCOMPLETE] = "Incomplete",
        [JILGOMT_ZERO_LENGTH_OF_LENGTH] = "ZeroLengthOfLength",
        [JILGOMT_LENGTH_EXCEEDS_PLATFORM_WIDTH] = "LengthExceedsPlatformWidth",
        [JILGOMT_INVALID_BOOL] = "InvalidBool",
        [JILGOMT_INTEGER_OVERFLOW] = "IntegerOverflow",
        [JILGOMT_EMPTY_INTEGER] = "EmptyInteger",
        [JILGOMT_VALUE_CONSTRAINT_NOT_SATISFIED] = "ValueConstraintNotSatisfied",
        [JILGOMT_SIZE_CONSTRAINT_NOT_SATISFIED] = "SizeConstraintNotSatisfied",
        [JILGOMT_DISCRIMINANT_VALUE_NOT_FOUND] = "DiscriminantValueNotFound",
        [JILGOMT_INVALID_TAG_NUMBER_ON_CHOICE] = "InvalidTagNumberOnChoice",
        [JILGOMT_INVALID_TAG_VARIANT_ON_CHOICE] = "InvalidTagVariantOnChoice",
        [JILGOMT_INVALID_BIT_STRING] = "InvalidBitString",
        [JILGOMT_PERMITTED_ALPHABET_ERROR] = "PermittedAlphabetError",
        [JILGOMT_STRING_CONVERSION_FAILED] = "StringConversionFailed",
        [JILGOMT_INVALID_OBJECT_IDENTIFIER] = "InvalidObjectIdentifier",
        [JILGOMT_INVALID_TIME] = "InvalidTime",
        [JILGOMT_INVALID_PREAMBLE] = "InvalidPreamble",
        [JILGOMT_INVALID_EXTENSION_HEADER] = "InvalidExtensionHeader",
        [JILGOMT_REQUIRED_EXTENSION_NOT_PRESENT] = "RequiredExtensionNotPresent",
        [JILGOMT_TYPE_NOT_EXTENSIBLE] = "TypeNotExtensible",
        [JILGOMT_MISSING_COMPONENT] = "MissingTagClassOrValueInSequenceOrSet",
        [JILGOMT_EXCEEDS_MAX_PARSE_DEPTH] = "ExceedsMaxParseDepth",
        [JILGOMT_NOT_VALID_CANONICAL_ENCODING] = "NotValidCanonicalEncoding",
        [JILGOMT_TOO_MANY_EMPTY_ELEMENTS] = "TooManyEmptyElements",
        [JILGOMT_OUT_OF_MEMORY] = "OutOfMemory",
    };
    static const char *const write[] = {
        [JILGOMT_WRITE_VALUE_CONSTRAINT_NOT_SATISFIED] = "ValueConstraintNotSatisfied",
        [JILGOMT_WRITE_SIZE_CONSTRAINT_NOT_SATISFIED] = "SizeConstraintNotSatisfied",
        [JILGOMT_WRITE_INVALID_OBJECT_IDENTIFIER] = "InvalidObjectIdentifier",
        [JILGOMT_WRITE_TIME_NOT_REPRESENTABLE] = "TimeNotRepresentable",
        [JILGOMT_WRITE_TOO_MANY_EMPTY_ELEMENTS] = "TooManyEmptyElements",
        [JILGOMT_WRITE_LENGTH_EXCEEDS_PLATFORM_SIZE] = "LengthExceedsPlatformSize",
        [JILGOMT_WRITE_OUT_OF_MEMORY] = "OutOfMemory",
    };
    for (uint32_t kind = 1; kind < sizeof read / sizeof *read; kind++)
        WANT(strcmp(name_of((jilgomt_answer){.status = JILGOMT_UNREAD_AS_OTHER, .kind = kind}), read[kind]) == 0);
    for (uint32_t kind = 1; kind < sizeof write / sizeof *write; kind++)
        WANT(strcmp(name_of((jilgomt_answer){.status = JILGOMT_UNWRITTEN_AS_OTHER, .kind = kind}), write[kind]) == 0);
}

static void of_names(void) {
    uint8_t text[8];
    WANT(jilgomt_kind_name(JILGOMT_UNREAD, JILGOMT_OUT_OF_MEMORY, text, 0) == 11);
    WANT(jilgomt_kind_name(JILGOMT_UNREAD, JILGOMT_INCOMPLETE, text, 4) == 10 && memcmp(text, "Inco", 4) == 0);
    WANT(jilgomt_kind_name(JILGOMT_UNREAD, 26, text, 8) == 0 && jilgomt_kind_name(JILGOMT_DONE, 1, text, 8) == 0);
    WANT(jilgomt_kind_name(JILGOMT_UNWRITTEN, JILGOMT_WRITE_OUT_OF_MEMORY, text, 0) == 11);
    WANT(jilgomt_version(text, 8) == strlen(JILGOMT_VERSION) && memcmp(text, JILGOMT_VERSION, strlen(JILGOMT_VERSION)) == 0);
}

/* Type 0 is SEQUENCE { a BOOLEAN, ..., b SEQUENCE OF OCTET STRING OPTIONAL }: its kind stands at word 5. */
static void of_walks(void) {
    static const uint32_t table[] = {4, 5, 15, 16, 19, 11, 1, 1, 1, 0, 0, 1, 1, 1, 2, 0, 10, 0, 3, 8, 0};
    block in = of_hex("80ff02078005010102aabb55");
    jilgomt_node nodes[6];
    jilgomt_answer answer;
    WANT(jilgomt_walk(table, 21, 0, 128, in.octets, 11, nodes, 0, &answer) == JILGOMT_NO_ROOM && answer.written == 4);
    WANT(jilgomt_walk(table, 21, 0, 128, in.octets, in.size, nodes, 6, &answer) == JILGOMT_DONE && answer.consumed == 11);
    WANT(answer.written == 4 && nodes[0].kind == JILGOMT_SEQUENCE && nodes[0].around == SIZE_MAX && nodes[0].content == 1);
    WANT(nodes[1].start == 1 && nodes[1].end == 2 && nodes[1].name == 0 && nodes[1].around == 0 && nodes[1].level == 1);
    WANT(nodes[2].start == 5 && nodes[2].content == 8 && nodes[2].end == 11 && nodes[2].kind == JILGOMT_LIST && nodes[2].name == 1);
    WANT(nodes[3].start == 8 && nodes[3].content == 9 && nodes[3].end == 11 && nodes[3].around == 2 && nodes[3].name == UINT32_MAX);
    WANT(jilgomt_walk(table, 21, 0, 128, in.octets, 9, nodes, 6, &answer) == JILGOMT_UNREAD && answer.kind == JILGOMT_INCOMPLETE);
    WANT(jilgomt_walk(table, 21, 4, 128, in.octets, 9, nodes, 6, &answer) == JILGOMT_UNREAD && answer.written == 1);
    WANT(jilgomt_walk(table, 3, 0, 128, in.octets, 9, nodes, 6, &answer) == JILGOMT_UNREAD);
    free(in.octets);
}

static void *often(void *unused) {
    for (int i = 0; i < 100; i++) of_octets();
    return unused;
}

int main(void) {
    of_octets();
    of_checks();
    of_versions();
    of_types();
    of_each_type();
    of_kinds();
    of_names();
    of_walks();
    pthread_t threads[4];
    for (int i = 0; i < 4; i++) pthread_create(&threads[i], 0, often, 0);
    for (int i = 0; i < 4; i++) pthread_join(threads[i], 0);
    puts("calls.c: all as wanted");
    return 0;
}
