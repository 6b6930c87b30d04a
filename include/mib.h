/*
 * A checked reader for SMI: the library's interface for C99 and for C++.
 *
 * Three questions, a function each (printing has two):
 *
 *   mib_read           What does this SMIv2 module define, under which OIDs; or which rule does it break first, and where?
 *   mib_print_octets   What does a stored value look like under its DISPLAY-HINT?
 *   mib_print_integer
 *   mib_set_row        What does a set of RowStatus do to a row?
 *
 * mib_refusal_text and mib_row_text say their numbers in words.
 *
 * Nothing is asked of the arguments but what C asks of any pointer and length: so many elements are there, and they stay
 * there during the call. What cannot be answered is refused by a number. A NULL pointer is an empty buffer, whatever
 * length comes with it.
 *
 * What a function writes to must not overlap anything else that the same call is lent. What is only read may overlap what
 * is only read.
 *
 * The library allocates nothing, keeps nothing between calls, opens nothing and prints nothing, so calls may run in
 * several threads at once, with buffers of their own. mib_read works on the stack: see MIB_STACK_BYTES.
 *
 * Link target/staticlib/libmib.a, which `tools/staticlib` writes. It is for x86-64.
 */
#ifndef MIB_H
#define MIB_H

#include <stddef.h>
#include <stdint.h>

#if defined(SIZE_MAX) && SIZE_MAX < 0xffffffffffffffff
#error "mib.h: the library is for machines with 64-bit sizes"
#endif

#ifdef __cplusplus
#define MIB_RESTRICT
extern "C" {
#else
#define MIB_RESTRICT restrict
#endif

/* ---- Sizes ---- */

/* mib_read works on so many words of the record buffer and of the number buffer; words beyond them never change. */
#define MIB_RECORD_WORDS 5120
#define MIB_NUMBER_WORDS 8192

/* So many words a record, and so many records at most. */
#define MIB_RECORD_WIDTH 10
#define MIB_MOST_DEFINITIONS 512

/* The longest text, in bytes. */
#define MIB_LONGEST_TEXT 65536

/* The printers work on so many bytes of the output; bytes beyond them never change. */
#define MIB_OCTETS_OUT 4096
#define MIB_INTEGER_OUT 64

/* The longest value and the longest hint for octets, in bytes. */
#define MIB_LONGEST_VALUE 1024
#define MIB_LONGEST_HINT 255

/* A call of mib_read takes up to 1,260 kilobytes of stack, of 1,024 bytes, as tests/stack measures it in the example in C:
 * 1,205 on most texts, and the most on the longest chain of OID heads. A thread that calls it has a quarter more left,
 * which is this much. The other calls take little. (Of the programs card takes 1,404, and explain 1,904.) */
#define MIB_STACK_BYTES (1600 * 1024)

/* ---- Records ---- */

/* The ten words of a record. Record k starts at word k * MIB_RECORD_WIDTH; an absent field is 0. */
enum mib_word {
    MIB_WORD_KIND = 0,          /* enum mib_kind */
    MIB_WORD_NAME_OFFSET = 1,   /* the name: its first byte in the text, and how many bytes */
    MIB_WORD_NAME_LENGTH = 2,
    MIB_WORD_OID_FIRST = 3,     /* the OID: its first word in the number buffer, and how many words */
    MIB_WORD_OID_COUNT = 4,
    MIB_WORD_SYNTAX_OFFSET = 5, /* the syntax without the word SYNTAX: its first byte, and how many bytes */
    MIB_WORD_SYNTAX_LENGTH = 6,
    MIB_WORD_ACCESS = 7,        /* enum mib_access */
    MIB_WORD_STATUS = 8,        /* enum mib_status */
    MIB_WORD_CLASS = 9          /* enum mib_class */
};

enum mib_kind {
    MIB_KIND_IDENTITY = 1,        /* MODULE-IDENTITY */
    MIB_KIND_PLAIN = 2,           /* OBJECT IDENTIFIER */
    MIB_KIND_OBJECT_IDENTITY = 3, /* OBJECT-IDENTITY */
    MIB_KIND_OBJECT = 4,          /* OBJECT-TYPE */
    MIB_KIND_CONVENTION = 5,      /* TEXTUAL-CONVENTION */
    MIB_KIND_SEQUENCE = 6,        /* SEQUENCE */
    MIB_KIND_NOTIFICATION = 7     /* NOTIFICATION-TYPE */
};

/* Of objects and conventions. */
enum mib_class {
    MIB_CLASS_INTEGER = 1,
    MIB_CLASS_ENUMERATED = 2,
    MIB_CLASS_OCTETS = 3,
    MIB_CLASS_OID = 4,
    MIB_CLASS_BITS = 5,
    MIB_CLASS_IP_ADDRESS = 6,
    MIB_CLASS_COUNTER32 = 7,
    MIB_CLASS_GAUGE32 = 8,
    MIB_CLASS_UNSIGNED32 = 9,
    MIB_CLASS_TIME_TICKS = 10,
    MIB_CLASS_OPAQUE = 11,
    MIB_CLASS_COUNTER64 = 12,
    MIB_CLASS_TABLE = 13,
    MIB_CLASS_ROW = 14
};

enum mib_access {
    MIB_ACCESS_NOT_ACCESSIBLE = 1,
    MIB_ACCESS_ACCESSIBLE_FOR_NOTIFY = 2,
    MIB_ACCESS_READ_ONLY = 3,
    MIB_ACCESS_READ_WRITE = 4,
    MIB_ACCESS_READ_CREATE = 5
};

enum mib_status {
    MIB_STATUS_CURRENT = 1,
    MIB_STATUS_DEPRECATED = 2,
    MIB_STATUS_OBSOLETE = 3
};

/* ---- Reading a module ---- */

/*
 * The numbers that mib_read answers. The first that applies, in this order, is given, with the earliest place in breach; of
 * 3 to 6 together the leftmost token, and of 41 and 42 together the earlier use. A place is a byte offset in the text, or
 * the text's length at its end. 11, in whose place 41 and 42 stand, is no longer given: who asked for MIB_READ_NOT_KNOWN
 * asks for both. 16 no longer asks for an order of ranges, and what was MIB_READ_RANGE_ORDER is MIB_READ_RANGE_OVERLAP.
 */
enum mib_read_number {
    MIB_READ_ACCEPTED = 0,
    MIB_READ_SHORT_BUFFER = 1,     /* a lent buffer too short; place 0, nothing is changed */
    MIB_READ_LONG_TEXT = 2,        /* text over 65,536 bytes; place 0, nothing is changed */
    MIB_READ_NO_TOKEN = 3,         /* no token starts here */
    MIB_READ_FORBIDDEN_BYTE = 4,   /* forbidden byte in a text: that byte */
    MIB_READ_LONG_NAME = 5,        /* name over 64 bytes */
    MIB_READ_NUMBER_RANGE = 6,     /* number out of range */
    MIB_READ_GRAMMAR = 7,          /* the first token after which no module can begin so, or the text's length */
    MIB_READ_MANY_DEFINITIONS = 8, /* a 513th definition: its name */
    MIB_READ_NAME_TWICE = 9,       /* a name defined or imported a second time, or `iso`: the later */
    MIB_READ_NOT_OFFERED = 10,     /* symbol that the module named doesn't offer */
    MIB_READ_UNKNOWN_NAME = 41,    /* name that is neither defined nor imported, nor `iso` */
    MIB_READ_OTHER_KIND = 42,      /* name that is known, but of another kind than is needed here */
    MIB_READ_NO_ROOT = 12,         /* definition whose heads never reach a built-in name: its name */
    MIB_READ_LONG_OID = 13,        /* OID over 128 numbers: the definition's name */
    MIB_READ_MANY_NUMBERS = 14,    /* definition with which the OID numbers pass 8,192: its name */
    MIB_READ_OID_TWICE = 15,       /* OID already held by an earlier definition: the later's name */
    MIB_READ_RANGE_OVERLAP = 16,   /* range that shares a number with an earlier one, or with low not below high */
    MIB_READ_RANGE_LIMITS = 17,    /* range or size where none may stand, or outside its limits */
    MIB_READ_LABEL_TWICE = 18,     /* label or number twice in an enum, or a number that may not stand there */
    MIB_READ_CONVENTION = 19,      /* convention whose SYNTAX name isn't one of SMI's eight types, imported */
    MIB_READ_TABLE = 20,           /* table rules: the definition's name */
    MIB_READ_ACCESS = 21,          /* access rules: the definition's name */
    MIB_READ_NOTIFICATION = 22     /* rules on notifications: its name */
};

struct mib_reading {
    size_t number; /* enum mib_read_number */
    size_t place;  /* of a refusal; 0 when accepted */
    size_t count;  /* how many definitions; 0 when refused */
};

/*
 * Reads a module's text, any bytes, into records and sub-identifiers.
 *
 * Lent: the text, which is only read; a record buffer of at least MIB_RECORD_WORDS words; a number buffer of at least
 * MIB_NUMBER_WORDS. The three must not overlap.
 * Left, when accepted: `count` records in text order, and then zeros up to MIB_RECORD_WORDS; the sub-identifiers of all
 * definitions without gaps, and then zeros up to MIB_NUMBER_WORDS. By refusals 1 and 2: both buffers as they were. By any
 * other: zeros in the first MIB_RECORD_WORDS and MIB_NUMBER_WORDS words.
 */
static inline struct mib_reading mib_read(const uint8_t *text, size_t text_length, uint32_t *MIB_RESTRICT records,
                                          size_t record_words, uint32_t *MIB_RESTRICT numbers, size_t number_words);

/* ---- Printing by DISPLAY-HINT ---- */

/* The numbers that the printers answer: the first that applies, in this order. */
enum mib_print_number {
    MIB_PRINT_DONE = 0,
    MIB_PRINT_SHORT_BUFFER = 30,  /* output shorter than its part; nothing is changed */
    MIB_PRINT_LONG_VALUE = 31,    /* value over 1,024 octets */
    MIB_PRINT_BAD_HINT = 32,      /* the hint is none for octets, or none for integers */
    MIB_PRINT_BAD_OCTET = 33,     /* octet not of form a or t; place: it, or its character's start */
    MIB_PRINT_INTEGER_RANGE = 34  /* integer outside -2147483648 to 4294967295 */
};

struct mib_printing {
    size_t number; /* enum mib_print_number */
    size_t place;  /* of refusal 33, an index into the octets; else 0 */
    size_t length; /* how many bytes were printed; 0 when refused */
};

/*
 * Prints octets by a hint for octets, as `1d.1d.1d.1d`. The hint is text without a zero at its end, and so is what is
 * printed.
 *
 * Lent: the hint and the octets, which are only read; an output of at least MIB_OCTETS_OUT bytes, which overlaps neither.
 * Left: the text and then zeros in the first MIB_OCTETS_OUT bytes; by refusal 30 the output as it was, by any other zeros.
 */
static inline struct mib_printing mib_print_octets(const uint8_t *hint, size_t hint_length, const uint8_t *octets,
                                                   size_t octet_count, uint8_t *MIB_RESTRICT out, size_t out_length);

/* Prints an integer by a hint for integers, as `d-2`, likewise, in the first MIB_INTEGER_OUT bytes of the output. */
static inline struct mib_printing mib_print_integer(const uint8_t *hint, size_t hint_length, int64_t value,
                                                    uint8_t *MIB_RESTRICT out, size_t out_length);

/* ---- RowStatus ---- */

/* The states of a row. */
enum mib_row_state {
    MIB_ROW_NONE = 0,
    MIB_ROW_ACTIVE = 1,
    MIB_ROW_NOT_IN_SERVICE = 2,
    MIB_ROW_NOT_READY = 3
};

/* The values that RowStatus may be set to. 3, notReady, may not, and is answered 10 like any other value. */
enum mib_row_value {
    MIB_SET_ACTIVE = 1,
    MIB_SET_NOT_IN_SERVICE = 2,
    MIB_SET_CREATE_AND_GO = 4,
    MIB_SET_CREATE_AND_WAIT = 5,
    MIB_SET_DESTROY = 6
};

/* The numbers that mib_set_row answers. */
enum mib_row_number {
    MIB_ROW_NO_ERROR = 0,
    MIB_ROW_WRONG_VALUE = 10,        /* the set value is refused */
    MIB_ROW_INCONSISTENT_VALUE = 12, /* the set value does not fit the row's state */
    MIB_ROW_NO_SUCH_STATE = 40       /* the row was handed in with a state over 3 */
};

struct mib_step {
    size_t number; /* enum mib_row_number */
    uint64_t next; /* the row's next state; as it was, unless the number is 0 */
};

/*
 * Answers a set of RowStatus to `value` on a row in `state`. complete: no required column is lacking after this set.
 * willing: the agent is willing to take the row out of service, or to create it so. A flag is yes when it isn't 0.
 */
static inline struct mib_step mib_set_row(uint64_t state, int64_t value, int complete, int willing);

/* ---- Numbers in words ---- */

/*
 * What a number means, in a short sentence for people: mib_refusal_text of a number that mib_read or a printer answers,
 * mib_row_text of one that mib_set_row answers. There are two, since 10 and 12 of a row are not those of a reading. Any
 * other number has a sentence too. It is never NULL, and stays there; nobody frees it or writes to it.
 */
static inline const char *mib_refusal_text(size_t number);
static inline const char *mib_row_text(size_t number);

/* ---- The library's own functions ---- */

/*
 * The four calls above call these. A slice is a pointer and then a count of elements. Here no pointer may be NULL, even
 * with count 0. Each answer goes into `answer`, as far as it reaches: number, place and count or length; of a row, number
 * and next state. Words of `answer` that the answer doesn't have never change.
 */
void mib_read_raw(const uint8_t *text, size_t text_length, uint32_t *MIB_RESTRICT records, size_t record_words,
                  uint32_t *MIB_RESTRICT numbers, size_t number_words, size_t *MIB_RESTRICT answer,
                  size_t answer_words);
void mib_print_octets_raw(const uint8_t *hint, size_t hint_length, const uint8_t *octets, size_t octet_count,
                          uint8_t *MIB_RESTRICT out, size_t out_length, size_t *MIB_RESTRICT answer,
                          size_t answer_words);
void mib_print_integer_raw(const uint8_t *hint, size_t hint_length, int64_t value, uint8_t *MIB_RESTRICT out,
                           size_t out_length, size_t *MIB_RESTRICT answer, size_t answer_words);
void mib_set_row_raw(uint64_t state, int64_t value, uint32_t complete, uint32_t willing, size_t *MIB_RESTRICT answer,
                     size_t answer_words);

/* In place of NULL the library is handed a byte or word of the call's own, and the count 0. */

static inline struct mib_reading mib_read(const uint8_t *text, size_t text_length, uint32_t *MIB_RESTRICT records,
                                          size_t record_words, uint32_t *MIB_RESTRICT numbers, size_t number_words)
{
    const uint8_t no_text = 0;
    uint32_t no_record = 0;
    uint32_t no_number = 0;
    size_t answer[3] = {0, 0, 0};
    struct mib_reading reading;

    mib_read_raw(text ? text : &no_text, text ? text_length : 0, records ? records : &no_record,
                 records ? record_words : 0, numbers ? numbers : &no_number, numbers ? number_words : 0, answer, 3);
    reading.number = answer[0];
    reading.place = answer[1];
    reading.count = answer[2];
    return reading;
}

static inline struct mib_printing mib_print_octets(const uint8_t *hint, size_t hint_length, const uint8_t *octets,
                                                   size_t octet_count, uint8_t *MIB_RESTRICT out, size_t out_length)
{
    const uint8_t no_byte = 0;
    uint8_t no_out = 0;
    size_t answer[3] = {0, 0, 0};
    struct mib_printing printing;

    mib_print_octets_raw(hint ? hint : &no_byte, hint ? hint_length : 0, octets ? octets : &no_byte,
                         octets ? octet_count : 0, out ? out : &no_out, out ? out_length : 0, answer, 3);
    printing.number = answer[0];
    printing.place = answer[1];
    printing.length = answer[2];
    return printing;
}

static inline struct mib_printing mib_print_integer(const uint8_t *hint, size_t hint_length, int64_t value,
                                                    uint8_t *MIB_RESTRICT out, size_t out_length)
{
    const uint8_t no_byte = 0;
    uint8_t no_out = 0;
    size_t answer[3] = {0, 0, 0};
    struct mib_printing printing;

    mib_print_integer_raw(hint ? hint : &no_byte, hint ? hint_length : 0, value, out ? out : &no_out,
                          out ? out_length : 0, answer, 3);
    printing.number = answer[0];
    printing.place = answer[1];
    printing.length = answer[2];
    return printing;
}

static inline struct mib_step mib_set_row(uint64_t state, int64_t value, int complete, int willing)
{
    size_t answer[2] = {0, 0};
    struct mib_step step;

    mib_set_row_raw(state, value, complete != 0, willing != 0, answer, 2);
    step.number = answer[0];
    step.next = answer[1];
    return step;
}

static inline const char *mib_refusal_text(size_t number)
{
    switch (number) {
    case MIB_READ_ACCEPTED:
        return "accepted";
    case MIB_READ_SHORT_BUFFER:
        return "a lent buffer is too short";
    case MIB_READ_LONG_TEXT:
        return "the text has more than 65,536 bytes";
    case MIB_READ_NO_TOKEN:
        return "no token starts here";
    case MIB_READ_FORBIDDEN_BYTE:
        return "this byte may not stand in a text";
    case MIB_READ_LONG_NAME:
        return "the name has more than 64 bytes";
    case MIB_READ_NUMBER_RANGE:
        return "the number is not from -2147483648 to 4294967295";
    case MIB_READ_GRAMMAR:
        return "this may not stand here, or the text ends too early";
    case MIB_READ_MANY_DEFINITIONS:
        return "this is the 513th definition, and a module may have 512";
    case MIB_READ_NAME_TWICE:
        return "the name is defined or imported a second time, or is iso";
    case MIB_READ_NOT_OFFERED:
        return "the module that it is imported from does not offer this symbol";
    case MIB_READ_UNKNOWN_NAME:
        return "the name is neither defined nor imported";
    case MIB_READ_OTHER_KIND:
        return "the name is known, but of another kind than is needed here";
    case MIB_READ_NO_ROOT:
        return "the heads of the OID never reach a built-in name";
    case MIB_READ_LONG_OID:
        return "the OID has more than 128 numbers";
    case MIB_READ_MANY_NUMBERS:
        return "with this OID those of the module pass 8,192 numbers";
    case MIB_READ_OID_TWICE:
        return "an earlier definition holds the OID";
    case MIB_READ_RANGE_OVERLAP:
        return "the range shares a number with an earlier one, or has its low number not below its high one";
    case MIB_READ_RANGE_LIMITS:
        return "a range or size may not stand on this type, or is outside its limits";
    case MIB_READ_LABEL_TWICE:
        return "the label or its number stands there already, or the number is out of range";
    case MIB_READ_CONVENTION:
        return "the SYNTAX of a convention names none of SMI's eight types, imported";
    case MIB_READ_TABLE:
        return "a rule on tables, rows and columns is broken";
    case MIB_READ_ACCESS:
        return "a rule on access is broken";
    case MIB_READ_NOTIFICATION:
        return "the notification's next-to-last number is not 0, or it lists a not-accessible object";
    case MIB_PRINT_SHORT_BUFFER:
        return "the output buffer is too short";
    case MIB_PRINT_LONG_VALUE:
        return "the value has more than 1,024 octets";
    case MIB_PRINT_BAD_HINT:
        return "the hint is none for such a value";
    case MIB_PRINT_BAD_OCTET:
        return "the octet is not of the form that the hint gives it";
    case MIB_PRINT_INTEGER_RANGE:
        return "the integer is not from -2147483648 to 4294967295";
    default:
        return "no call answers this number";
    }
}

static inline const char *mib_row_text(size_t number)
{
    switch (number) {
    case MIB_ROW_NO_ERROR:
        return "noError: the set is done";
    case MIB_ROW_WRONG_VALUE:
        return "wrongValue: the set value is refused";
    case MIB_ROW_INCONSISTENT_VALUE:
        return "inconsistentValue: the set value does not fit the row's state";
    case MIB_ROW_NO_SUCH_STATE:
        return "the row was handed in with a state over 3";
    default:
        return "no call answers this number";
    }
}

#ifdef __cplusplus
}
#endif

#endif
