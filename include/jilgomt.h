/* Jilgomt: the octet encoding rules of ASN.1 (ITU-T X.696), basic and canonical, over octets that the caller owns.
 *
 * No call keeps state or a pointer, aborts, prints or blocks. Memory comes from malloc and goes back before the call returns.
 * Any thread may call at any time, except from a signal handler, and in the forked child of a process with threads.
 *
 * The caller owes (docs/CALLING.md):
 *  - no pointer is null, also where its length is 0;
 *  - so many octets lie there, all of them written to before, also those of `out`;
 *  - `out`, `nodes` and `answer` overlap nothing else that is handed in, and no other thread uses them meanwhile;
 *  - lengths are below 2^63, and there is stack for the call.
 */
#ifndef JILGOMT_H
#define JILGOMT_H

#include <stddef.h>
#include <stdint.h>

#ifdef __cplusplus
extern "C" {
#define JILGOMT_RESTRICT
#else
#define JILGOMT_RESTRICT restrict
#endif

#define JILGOMT_VERSION "0.1.0"

/* How octets are read: by the basic rules, which take any encoding, or by the canonical ones. */
enum { JILGOMT_OER = 0, JILGOMT_COER = 1 };

/* How many sequences, sets, lists and choices may be nested: what is usual, and the most that a caller may ask for. */
enum { JILGOMT_LEVELS = 128, JILGOMT_MAX_LEVELS = 1024 };

/* What became of a call. */
enum {
    JILGOMT_DONE = 0,
    JILGOMT_UNREAD = 1,             /* reading the input was refused: `kind` is of enum jilgomt_read_kind */
    JILGOMT_UNWRITTEN = 2,          /* writing what was read was refused: `kind` is of enum jilgomt_write_kind */
    JILGOMT_NO_ROOM = 3,            /* nothing was written: `written` is how much room is needed */
    JILGOMT_NO_TYPE = 4,            /* no type has the word */
    JILGOMT_NO_OPTIONS = 5,         /* no such mode, or more than JILGOMT_MAX_LEVELS levels */
    JILGOMT_UNREAD_AS_OTHER = 6,    /* jilgomt_convert: the value is none of the other type; `kind` as at JILGOMT_UNREAD */
    JILGOMT_UNWRITTEN_AS_OTHER = 7  /* jilgomt_convert: it can't be written as the other; `kind` as at JILGOMT_UNWRITTEN */
};

/* Why octets were refused; docs/REFUSALS.md says when. */
enum jilgomt_read_kind {
    JILGOMT_INCOMPLETE = 1,                /* `size` octets are missing where reading stopped */
    JILGOMT_ZERO_LENGTH_OF_LENGTH,
    JILGOMT_LENGTH_EXCEEDS_PLATFORM_WIDTH,
    JILGOMT_INVALID_BOOL,                  /* `number`: the octet */
    JILGOMT_INTEGER_OVERFLOW,
    JILGOMT_EMPTY_INTEGER,
    JILGOMT_VALUE_CONSTRAINT_NOT_SATISFIED,
    JILGOMT_SIZE_CONSTRAINT_NOT_SATISFIED, /* `size` */
    JILGOMT_DISCRIMINANT_VALUE_NOT_FOUND,  /* `number` */
    JILGOMT_INVALID_TAG_NUMBER_ON_CHOICE,
    JILGOMT_INVALID_TAG_VARIANT_ON_CHOICE, /* `tag_class`, `tag_number`; `flag`: the choice is extensible */
    JILGOMT_INVALID_BIT_STRING,
    JILGOMT_PERMITTED_ALPHABET_ERROR,
    JILGOMT_STRING_CONVERSION_FAILED,
    JILGOMT_INVALID_OBJECT_IDENTIFIER,
    JILGOMT_INVALID_TIME,
    JILGOMT_INVALID_PREAMBLE,
    JILGOMT_INVALID_EXTENSION_HEADER,
    JILGOMT_REQUIRED_EXTENSION_NOT_PRESENT, /* `tag_class`, `tag_number` */
    JILGOMT_TYPE_NOT_EXTENSIBLE,
    JILGOMT_MISSING_COMPONENT,              /* `tag_class`, `tag_number` */
    JILGOMT_EXCEEDS_MAX_PARSE_DEPTH,
    JILGOMT_NOT_VALID_CANONICAL_ENCODING,
    JILGOMT_TOO_MANY_EMPTY_ELEMENTS,
    JILGOMT_OUT_OF_MEMORY
};

/* Why a value was not written. */
enum jilgomt_write_kind {
    JILGOMT_WRITE_VALUE_CONSTRAINT_NOT_SATISFIED = 1,
    JILGOMT_WRITE_SIZE_CONSTRAINT_NOT_SATISFIED, /* `size` */
    JILGOMT_WRITE_INVALID_OBJECT_IDENTIFIER,
    JILGOMT_WRITE_TIME_NOT_REPRESENTABLE,
    JILGOMT_WRITE_TOO_MANY_EMPTY_ELEMENTS,
    JILGOMT_WRITE_LENGTH_EXCEEDS_PLATFORM_SIZE,
    JILGOMT_WRITE_OUT_OF_MEMORY
};

/* What a call answers. What doesn't go with the status is 0. */
typedef struct jilgomt_answer {
    uint32_t status;
    uint32_t kind;       /* of a refusal, from 1 on */
    size_t consumed;     /* how many octets of the input the encoding takes; the caller may go on behind them */
    size_t written;      /* how many octets stand in `out` or, at JILGOMT_NO_ROOM, would; of a check how many are canonical */
    size_t size;         /* these five as enum jilgomt_read_kind says */
    intptr_t number;
    uint32_t tag_class;  /* 0 universal, 1 application, 2 context, 3 private */
    uint32_t tag_number;
    uint32_t flag;       /* of a check also: 1 if the octets that were taken are the canonical ones */
    uint32_t reserved;
} jilgomt_answer;

/* Each call below returns the status that it puts into `answer`. `word` names a type, as in docs/TYPES.md: it needs no NUL. */

/* Puts the canonical octets of the value whose encoding begins `in` at the front of `out`. Ask with no room first, or hand in
 * as much as the input has and 16 octets more, and call again at JILGOMT_NO_ROOM. */
uint32_t jilgomt_canonicalise(const uint8_t *word, size_t word_len, uint32_t mode, size_t levels,
                              const uint8_t *JILGOMT_RESTRICT in, size_t in_len,
                              uint8_t *JILGOMT_RESTRICT out, size_t out_len, jilgomt_answer *JILGOMT_RESTRICT answer);

/* Whether an encoding begins `in` (JILGOMT_DONE), and whether it is the canonical one (`flag`). */
uint32_t jilgomt_check(const uint8_t *word, size_t word_len, uint32_t mode, size_t levels,
                       const uint8_t *in, size_t in_len, jilgomt_answer *JILGOMT_RESTRICT answer);

/* The same as jilgomt_canonicalise, for the value as one of another version of its type. */
uint32_t jilgomt_convert(const uint8_t *from, size_t from_len, const uint8_t *to, size_t to_len, uint32_t mode, size_t levels,
                         const uint8_t *JILGOMT_RESTRICT in, size_t in_len,
                         uint8_t *JILGOMT_RESTRICT out, size_t out_len, jilgomt_answer *JILGOMT_RESTRICT answer);

/* The same for one type each, with the whole contract proved: jilgomt_seq1_canonicalise and jilgomt_seq1_check, and so on of each
 * word of the list. */
#define JILGOMT_TYPE(word)                                                                                             \
    uint32_t jilgomt_##word##_canonicalise(uint32_t mode, size_t levels, const uint8_t *JILGOMT_RESTRICT in, size_t in_len, \
                                           uint8_t *JILGOMT_RESTRICT out, size_t out_len,                              \
                                           jilgomt_answer *JILGOMT_RESTRICT answer);                                   \
    uint32_t jilgomt_##word##_check(uint32_t mode, size_t levels, const uint8_t *in, size_t in_len,                     \
                                    jilgomt_answer *JILGOMT_RESTRICT answer);
#define JILGOMT_TYPES(X) X(bool) X(int) X(octets) X(bits) X(utf8) X(oid) X(utctime) X(gentime) X(date) X(posbig) \
    X(small) X(enum4) X(empty) X(emptyext) X(seq1) X(omitted) X(seq2) X(seq5) X(seq7) X(seq3) X(seq6) X(outer) \
    X(dup) X(extopt) X(manyopt) X(defint) X(defopt) X(deepdef) X(holder1) X(holder2) X(toplevel) X(foo) X(mixset) \
    X(mixset2) X(choice) X(tagmax) X(tag130) X(ints) X(nulls) X(nest) X(intset) X(bag1) X(bag2) X(bag3)
JILGOMT_TYPES(JILGOMT_TYPE)
uint32_t jilgomt_seq2_to_seq1(uint32_t mode, size_t levels, const uint8_t *JILGOMT_RESTRICT in, size_t in_len,
                              uint8_t *JILGOMT_RESTRICT out, size_t out_len, jilgomt_answer *JILGOMT_RESTRICT answer);

/* A part of a value, and where it lies in the octets. */
typedef struct jilgomt_node {
    uint32_t name;         /* the number of its name; UINT32_MAX of the value itself, an element, an addition that the table doesn't have */
    uint32_t type_number;  /* the number of its type; UINT32_MAX if the table doesn't have it */
    uint32_t kind;         /* the number of the type's kind, as below */
    uint32_t level;        /* how many parts are around it */
    size_t around;         /* the place, among the nodes, of the part around it; SIZE_MAX of the value itself */
    size_t start;          /* the place of its first octet, of an addition that of the length in front of it; */
    size_t content;        /* of the first behind lengths, a tag or a preamble; */
    size_t end;            /* and behind its last, of an addition behind its value, where lenient reading passes over more octets;
                              SIZE_MAX if the walk stopped inside it */
} jilgomt_node;

enum {
    JILGOMT_BOOLEAN = 0, JILGOMT_NULL = 1, JILGOMT_FIXED_INTEGER = 2, JILGOMT_INTEGER = 3, JILGOMT_ENUMERATED = 4,
    JILGOMT_FIXED_BITS = 5, JILGOMT_BITS = 6, JILGOMT_FIXED_OCTETS = 7, JILGOMT_OCTETS = 8,
    JILGOMT_NAMED_BITS = 9, JILGOMT_LIST = 10, JILGOMT_SEQUENCE = 11, JILGOMT_CHOICE = 12
};

/* Walks the value of that type at the front of `in`, by a table that `oergen --table` prints of ASN.1 modules, as lenient reading
 * takes it. Nodes stand in the order of the octets, each behind the one around it. `written` counts all, also where there is room
 * for fewer (JILGOMT_NO_ROOM). At JILGOMT_UNREAD `consumed` is where the innermost part begins that the walk stopped in: the last
 * node without an end. It takes no memory. A walk is no promise that the octets are an encoding: it doesn't judge what values are. */
uint32_t jilgomt_walk(const uint32_t *table, size_t table_len, uint32_t type_number, uint32_t levels,
                      const uint8_t *in, size_t in_len, jilgomt_node *JILGOMT_RESTRICT nodes, size_t nodes_len,
                      jilgomt_answer *JILGOMT_RESTRICT answer);

/* Both copy a text to `out`, cut off where there is no room and without a NUL, and return how long it is. */

/* The name of a kind of refusal beside its status, as "Incomplete"; no text if there is no such kind. */
size_t jilgomt_kind_name(uint32_t status, uint32_t kind, uint8_t *out, size_t out_len);

/* The version of the library that was linked, as JILGOMT_VERSION is that of this header. */
size_t jilgomt_version(uint8_t *out, size_t out_len);

#if defined __cplusplus && __cplusplus >= 201103L
static_assert(sizeof(jilgomt_answer) == 56 && sizeof(jilgomt_node) == 48, "the layout of the library's structs");
#elif defined __STDC_VERSION__ && __STDC_VERSION__ >= 201112L
_Static_assert(sizeof(jilgomt_answer) == 56 && sizeof(jilgomt_node) == 48, "the layout of the library's structs");
#endif

#ifdef __cplusplus
}
#endif
#endif
