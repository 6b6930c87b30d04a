/*
 * Tests of include/mib.h over the library: C99, and C++ too. What is expected was worked out from document 01.
 * The argument is the file of its whole case. Says on standard error what failed; the last line of standard output
 * has the counts. Exit status: 0 when all passed.
 * With the word list it lists the header's sizes and words instead, to be compared with those of the wrapper in Rust.
 */
#include <stdio.h>
#include <string.h>

#include "mib.h"

/* What each lent word and byte is before a call. */
#define LENT 7

static unsigned passed;
static unsigned failed;

static uint8_t text[MIB_LONGEST_TEXT + 1];
static uint32_t records[MIB_RECORD_WORDS + 2];
static uint32_t numbers[MIB_NUMBER_WORDS + 2];
static uint8_t out[MIB_OCTETS_OUT + 2];
static char whole[1024];

static void check(const char *label, int holds)
{
    if (holds) {
        passed++;
    } else {
        failed++;
        fprintf(stderr, "failed: %s\n", label);
    }
}

static const uint8_t *bytes(const char *s)
{
    return (const uint8_t *)s;
}

/* ---- Words and bytes of a buffer, from one place to another ---- */

static int words_are(const uint32_t *words, size_t from, size_t to, uint32_t word)
{
    size_t i;

    for (i = from; i < to; i++)
        if (words[i] != word)
            return 0;
    return 1;
}

static int bytes_are(size_t from, size_t to, uint8_t byte)
{
    size_t i;

    for (i = from; i < to; i++)
        if (out[i] != byte)
            return 0;
    return 1;
}

static void lend(void)
{
    size_t i;

    for (i = 0; i < MIB_RECORD_WORDS + 2; i++)
        records[i] = LENT;
    for (i = 0; i < MIB_NUMBER_WORDS + 2; i++)
        numbers[i] = LENT;
    memset(out, LENT, sizeof out);
}

static int buffers_untouched(void)
{
    return words_are(records, 0, MIB_RECORD_WORDS + 2, LENT) && words_are(numbers, 0, MIB_NUMBER_WORDS + 2, LENT);
}

/* Each working part holds so many words and then zeros, and the words beyond it are as they were. */
static int buffers_filled(size_t record_words, size_t number_words)
{
    return words_are(records, record_words, MIB_RECORD_WORDS, 0) &&
           words_are(records, MIB_RECORD_WORDS, MIB_RECORD_WORDS + 2, LENT) &&
           words_are(numbers, number_words, MIB_NUMBER_WORDS, 0) &&
           words_are(numbers, MIB_NUMBER_WORDS, MIB_NUMBER_WORDS + 2, LENT);
}

/* ---- Reading ---- */

static int read_is(struct mib_reading reading, size_t number, size_t place, size_t count)
{
    return reading.number == number && reading.place == place && reading.count == count;
}

/* Reads with buffers that are longer than their working parts. */
static struct mib_reading read_bytes(const uint8_t *from, size_t length)
{
    lend();
    return mib_read(from, length, records, MIB_RECORD_WORDS + 2, numbers, MIB_NUMBER_WORDS + 2);
}

static struct mib_reading read_text(const char *s)
{
    return read_bytes(bytes(s), strlen(s));
}

/* The text is refused so, and the working parts are zeroed. */
static void check_refused(const char *label, const char *s, size_t number, size_t place)
{
    check(label, read_is(read_text(s), number, place, 0) && buffers_filled(0, 0));
}

/* The whole case, as a string. */
static void load(const char *path)
{
    FILE *file = fopen(path, "rb");

    if (file != NULL) {
        whole[fread(whole, 1, sizeof whole - 1, file)] = '\0';
        fclose(file);
    }
}

static void test_accepted(void)
{
    /* The lines of the whole case start at 0, 24, 65 and 160. */
    static const uint32_t whole_records[] = {1, 65, 1, 0, 2, 0, 0, 0, 0, 0, 2, 160, 1, 2, 3, 0, 0, 0, 0, 0};
    static const uint32_t whole_numbers[] = {1, 9, 1, 9, 1};
    static const char object[] =
        "T DEFINITIONS ::= BEGIN\n"
        "IMPORTS MODULE-IDENTITY, OBJECT-TYPE, Gauge32 FROM SNMPv2-SMI;\n"
        "t MODULE-IDENTITY LAST-UPDATED \"\" ORGANIZATION \"\" CONTACT-INFO \"\" DESCRIPTION \"\" ::= { iso 9 }\n"
        "o OBJECT-TYPE SYNTAX Gauge32 (1..9) MAX-ACCESS read-write STATUS deprecated DESCRIPTION \"\" ::= { t 1 }\n"
        "END\n";
    const uint32_t *record = records + MIB_RECORD_WIDTH;

    check("the whole case: the answer", read_is(read_text(whole), MIB_READ_ACCEPTED, 0, 2));
    check("the whole case: its records", memcmp(records, whole_records, sizeof whole_records) == 0);
    check("the whole case: its numbers", memcmp(numbers, whole_numbers, sizeof whole_numbers) == 0);
    check("the whole case: zeros after them, and beyond what was lent", buffers_filled(20, 5));

    check("an object: the answer", read_is(read_text(object), MIB_READ_ACCEPTED, 0, 2));
    check("an object: its kind", record[MIB_WORD_KIND] == MIB_KIND_OBJECT);
    check("an object: its name", record[MIB_WORD_NAME_OFFSET] == (uint32_t)(strstr(object, "o OBJECT-TYPE S") - object) &&
                                     record[MIB_WORD_NAME_LENGTH] == 1);
    check("an object: its OID", record[MIB_WORD_OID_FIRST] == 2 && record[MIB_WORD_OID_COUNT] == 3);
    check("an object: its syntax",
          record[MIB_WORD_SYNTAX_OFFSET] == (uint32_t)(strstr(object, "Gauge32 (") - object) &&
              record[MIB_WORD_SYNTAX_LENGTH] == strlen("Gauge32 (1..9)"));
    check("an object: access, status and class", record[MIB_WORD_ACCESS] == MIB_ACCESS_READ_WRITE &&
                                                     record[MIB_WORD_STATUS] == MIB_STATUS_DEPRECATED &&
                                                     record[MIB_WORD_CLASS] == MIB_CLASS_GAUGE32);
}

static void test_refused(void)
{
    check_refused("P1: no token", "----", MIB_READ_GRAMMAR, 4);
    check_refused("P2", "-----", MIB_READ_NO_TOKEN, 4);
    check_refused("P4", "4294967296", MIB_READ_NUMBER_RANGE, 0);
    check_refused("P5: the empty text", "", MIB_READ_GRAMMAR, 0);
    check_refused("a name that is imported nowhere",
                  "T DEFINITIONS ::= BEGIN t MODULE-IDENTITY LAST-UPDATED \"\" ORGANIZATION \"\" CONTACT-INFO \"\" "
                  "DESCRIPTION \"\" ::= { iso 9 } END",
                  MIB_READ_UNKNOWN_NAME, 26);
    check_refused("a notification among the objects of its own",
                  "T DEFINITIONS ::= BEGIN IMPORTS MODULE-IDENTITY, NOTIFICATION-TYPE FROM SNMPv2-SMI; "
                  "t MODULE-IDENTITY LAST-UPDATED \"\" ORGANIZATION \"\" CONTACT-INFO \"\" DESCRIPTION \"\" ::= { iso 9 } "
                  "n NOTIFICATION-TYPE OBJECTS { n } STATUS current DESCRIPTION \"\" ::= { t 0 1 } END",
                  MIB_READ_OTHER_KIND, 209);
    check("NULL with length 0 is the empty text", read_is(read_bytes(NULL, 0), 7, 0, 0) && buffers_filled(0, 0));
    check("NULL is empty whatever length comes with it", read_is(read_bytes(NULL, SIZE_MAX), 7, 0, 0));

    memset(text, ' ', sizeof text);
    check("65,536 blanks are refused at their end",
          read_is(read_bytes(text, MIB_LONGEST_TEXT), MIB_READ_GRAMMAR, MIB_LONGEST_TEXT, 0) && buffers_filled(0, 0));
    check("65,537 bytes are refused, and nothing is changed",
          read_is(read_bytes(text, MIB_LONGEST_TEXT + 1), MIB_READ_LONG_TEXT, 0, 0) && buffers_untouched());
}

static void test_short(void)
{
    lend();
    check("5,119 words for the records are too few",
          read_is(mib_read(bytes("a"), 1, records, MIB_RECORD_WORDS - 1, numbers, MIB_NUMBER_WORDS),
                  MIB_READ_SHORT_BUFFER, 0, 0));
    check("8,191 words for the numbers are too few",
          read_is(mib_read(bytes("a"), 1, records, MIB_RECORD_WORDS, numbers, MIB_NUMBER_WORDS - 1),
                  MIB_READ_SHORT_BUFFER, 0, 0));
    check("NULL is too short for the records",
          read_is(mib_read(bytes("a"), 1, NULL, MIB_RECORD_WORDS, numbers, MIB_NUMBER_WORDS), 1, 0, 0));
    check("NULL is too short for the numbers",
          read_is(mib_read(bytes("a"), 1, records, MIB_RECORD_WORDS, NULL, MIB_NUMBER_WORDS), 1, 0, 0));
    check("NULL everywhere", read_is(mib_read(NULL, 0, NULL, 0, NULL, 0), 1, 0, 0));
    check("short buffers are left untouched", buffers_untouched());
    check("the working parts alone are enough",
          read_is(mib_read(bytes("a"), 1, records, MIB_RECORD_WORDS, numbers, MIB_NUMBER_WORDS), 7, 0, 0) &&
              buffers_filled(0, 0));
}

/* ---- Printing ---- */

static int print_is(struct mib_printing printing, size_t number, size_t place, size_t length)
{
    return printing.number == number && printing.place == place && printing.length == length;
}

/* The output holds the text, then zeros up to the part's end, and beyond it what was there. */
static int out_holds(const char *s, size_t part)
{
    return memcmp(out, s, strlen(s)) == 0 && bytes_are(strlen(s), part, 0) && bytes_are(part, sizeof out, LENT);
}

static struct mib_printing octets(const char *hint, const char *value)
{
    lend();
    return mib_print_octets(bytes(hint), strlen(hint), bytes(value), strlen(value), out, sizeof out);
}

static struct mib_printing integer(const char *hint, int64_t value)
{
    lend();
    return mib_print_integer(bytes(hint), strlen(hint), value, out, sizeof out);
}

static void test_octets(void)
{
    check("P6", print_is(octets("*1d.:1d", "\x02\x0A\x0B\x05"), MIB_PRINT_DONE, 0, 7) &&
                    out_holds("10.11:5", MIB_OCTETS_OUT));
    check("P8 under 255t", print_is(octets("255t", "\xC3\xA9"), MIB_PRINT_DONE, 0, 2) &&
                               out_holds("\xC3\xA9", MIB_OCTETS_OUT));
    check("P8 under 255a",
          print_is(octets("255a", "\xC3\xA9"), MIB_PRINT_BAD_OCTET, 0, 0) && out_holds("", MIB_OCTETS_OUT));
    check("the place of an octet that is not of its form", print_is(octets("255a", "M\xC3\xBC"), 33, 1, 0));
    check("a hint for integers is none for octets",
          print_is(octets("d-2", "a"), MIB_PRINT_BAD_HINT, 0, 0) && out_holds("", MIB_OCTETS_OUT));

    lend();
    check("NULL is the empty hint, which is none",
          print_is(mib_print_octets(NULL, 9, bytes("a"), 1, out, sizeof out), 32, 0, 0) &&
              out_holds("", MIB_OCTETS_OUT));
    check("NULL is the empty value, which prints as nothing",
          print_is(mib_print_octets(bytes("1x"), 2, NULL, 9, out, sizeof out), 0, 0, 0));
    check("1,024 octets are printed", print_is(mib_print_octets(bytes("1a"), 2, text, 1024, out, sizeof out), 0, 0, 1024));
    check("1,025 octets are refused, and the part is zeroed",
          print_is(mib_print_octets(bytes("1a"), 2, text, 1025, out, sizeof out), MIB_PRINT_LONG_VALUE, 0, 0) &&
              out_holds("", MIB_OCTETS_OUT));

    lend();
    check("4,095 bytes are too few, and left untouched",
          print_is(mib_print_octets(bytes("1x"), 2, bytes("a"), 1, out, MIB_OCTETS_OUT - 1), MIB_PRINT_SHORT_BUFFER, 0, 0) &&
              bytes_are(0, sizeof out, LENT));
    check("NULL is too short for the output", print_is(mib_print_octets(bytes("1x"), 2, bytes("a"), 1, NULL, 4096), 30, 0, 0));
}

static void test_integers(void)
{
    check("P7", print_is(integer("d-2", -5), MIB_PRINT_DONE, 0, 5) && out_holds("-0.05", MIB_INTEGER_OUT));
    check("the least integer", print_is(integer("x", -2147483648LL), 0, 0, 9) && out_holds("-80000000", MIB_INTEGER_OUT));
    check("the greatest integer", print_is(integer("d", 4294967295LL), 0, 0, 10) && out_holds("4294967295", MIB_INTEGER_OUT));
    check("one below the least", print_is(integer("d", -2147483649LL), MIB_PRINT_INTEGER_RANGE, 0, 0) &&
                                     out_holds("", MIB_INTEGER_OUT));
    check("the least of 64 bits", print_is(integer("d", INT64_MIN), 34, 0, 0));
    check("a hint for octets is none for integers", print_is(integer("1d", 5), MIB_PRINT_BAD_HINT, 0, 0) &&
                                                        out_holds("", MIB_INTEGER_OUT));

    lend();
    check("NULL is the empty hint for integers", print_is(mib_print_integer(NULL, 1, 5, out, sizeof out), 32, 0, 0));
    lend();
    check("63 bytes are too few, and left untouched",
          print_is(mib_print_integer(bytes("d"), 1, 5, out, MIB_INTEGER_OUT - 1), MIB_PRINT_SHORT_BUFFER, 0, 0) &&
              bytes_are(0, sizeof out, LENT));
    check("NULL is too short for an integer", print_is(mib_print_integer(bytes("d"), 1, 5, NULL, 64), 30, 0, 0));
}

/* ---- Rows ---- */

static int step_is(struct mib_step step, size_t number, uint64_t next)
{
    return step.number == number && step.next == next;
}

static void test_rows(void)
{
    check("createAndGo makes a complete row active",
          step_is(mib_set_row(MIB_ROW_NONE, MIB_SET_CREATE_AND_GO, 1, 0), MIB_ROW_NO_ERROR, MIB_ROW_ACTIVE));
    check("createAndWait leaves an incomplete row notReady",
          step_is(mib_set_row(MIB_ROW_NONE, MIB_SET_CREATE_AND_WAIT, 0, 1), MIB_ROW_NO_ERROR, MIB_ROW_NOT_READY));
    check("an unwilling agent refuses the value",
          step_is(mib_set_row(MIB_ROW_ACTIVE, MIB_SET_NOT_IN_SERVICE, 1, 0), MIB_ROW_WRONG_VALUE, MIB_ROW_ACTIVE));
    check("notReady may not be set", step_is(mib_set_row(MIB_ROW_NONE, 3, 1, 1), 10, 0));
    check("a value below zero is refused", step_is(mib_set_row(MIB_ROW_ACTIVE, -1, 1, 1), 10, 1));
    check("an incomplete row does not become active",
          step_is(mib_set_row(MIB_ROW_NOT_READY, MIB_SET_ACTIVE, 0, 1), MIB_ROW_INCONSISTENT_VALUE, MIB_ROW_NOT_READY));
    check("destroy", step_is(mib_set_row(MIB_ROW_NOT_READY, MIB_SET_DESTROY, 0, 0), 0, MIB_ROW_NONE));
    check("a state over 3", step_is(mib_set_row(4, MIB_SET_DESTROY, 1, 1), MIB_ROW_NO_SUCH_STATE, 4));
    check("the greatest state", step_is(mib_set_row(UINT64_MAX, 1, 1, 1), 40, UINT64_MAX));
    check("any flag but 0 is yes", step_is(mib_set_row(MIB_ROW_NOT_READY, MIB_SET_ACTIVE, -1, 0), 0, 1) &&
                                       step_is(mib_set_row(MIB_ROW_NONE, MIB_SET_CREATE_AND_WAIT, 256, 65536), 0, 2));
}

/* ---- Answers that are lent fewer or more words than they have ---- */

static void test_answers(void)
{
    size_t answer[4] = {LENT, LENT, LENT, LENT};

    mib_read_raw(text, 0, records, 0, numbers, 0, answer, 0);
    check("an answer of no words is left untouched", answer[0] == LENT);
    mib_set_row_raw(4, 6, 1, 1, answer, 1);
    check("an answer of one word", answer[0] == 40 && answer[1] == LENT);
    mib_print_octets_raw(bytes("255a"), 4, bytes("M\xC3\xBC"), 3, out, sizeof out, answer, 2);
    check("an answer of two words", answer[0] == 33 && answer[1] == 1 && answer[2] == LENT);
    mib_print_integer_raw(bytes("x"), 1, 255, out, sizeof out, answer, 4);
    check("a fourth word never changes", answer[0] == 0 && answer[1] == 0 && answer[2] == 2 && answer[3] == LENT);
    answer[2] = LENT;
    mib_set_row_raw(3, 6, 0, 0, answer, 4);
    check("of a row, nor does a third", answer[0] == 0 && answer[1] == 0 && answer[2] == LENT && answer[3] == LENT);
}

/* ---- Numbers in words ---- */

/* How many numbers are tried: each up to 50, and some beyond. */
#define WORDED 55

static size_t worded(size_t k)
{
    static const size_t beyond[] = {255, 256, 65536, 4294967295u};

    return k <= 50 ? k : beyond[k - 51];
}

/* What mib_read and the printers answer, and what mib_set_row answers. */
static int of_refusals(size_t number)
{
    return (number <= 22 && number != 11) || (number >= 30 && number <= 34) || number == 41 || number == 42;
}

static int of_rows(size_t number)
{
    return number == 0 || number == 10 || number == 12 || number == 40;
}

/* A number that is answered has words that no other number has, and all others have those of 50. */
static int words_fit(const char *(*words)(size_t), int (*answered)(size_t), size_t number)
{
    const char *found = words(number);
    size_t k;

    if (!found || strlen(found) == 0)
        return 0;
    if (!answered(number))
        return strcmp(found, words(50)) == 0;
    for (k = 0; k < WORDED; k++)
        if (worded(k) != number && strcmp(found, words(worded(k))) == 0)
            return 0;
    return 1;
}

static void test_words(void)
{
    size_t k;

    for (k = 0; k < WORDED; k++) {
        check("each number of a refusal has words", words_fit(mib_refusal_text, of_refusals, worded(k)));
        check("each number of a row has words", words_fit(mib_row_text, of_rows, worded(k)));
    }
    check("the words of 15", strcmp(mib_refusal_text(MIB_READ_OID_TWICE), "an earlier definition holds the OID") == 0);
    check("the words of 30", strcmp(mib_refusal_text(MIB_PRINT_SHORT_BUFFER), "the output buffer is too short") == 0);
    check("10 of a reading", strstr(mib_refusal_text(MIB_READ_NOT_OFFERED), "does not offer") != NULL);
    check("10 of a row", strcmp(mib_row_text(MIB_ROW_WRONG_VALUE), "wrongValue: the set value is refused") == 0);
    check("a number of more than 32 bits", strcmp(mib_refusal_text((size_t)1 << 32), mib_refusal_text(50)) == 0);
    check("any other number", strcmp(mib_refusal_text(50), "no call answers this number") == 0 &&
                                  strcmp(mib_row_text(50), "no call answers this number") == 0);
}

/* The same list as examples/rust/examples/list.rs prints. */
static void list(void)
{
    size_t k;

    printf("sizes\t%d\t%d\t%d\t%d\t%d\n", MIB_RECORD_WORDS, MIB_NUMBER_WORDS, MIB_OCTETS_OUT, MIB_INTEGER_OUT, MIB_STACK_BYTES);
    for (k = 0; k < WORDED; k++)
        printf("%zu\t%s\t%s\n", worded(k), mib_refusal_text(worded(k)), mib_row_text(worded(k)));
}

int main(int count, char **words)
{
    if (count == 2 && strcmp(words[1], "list") == 0) {
        list();
        return 0;
    }
    if (count > 1)
        load(words[1]);
    test_accepted();
    test_refused();
    test_short();
    test_octets();
    test_integers();
    test_rows();
    test_answers();
    test_words();
    printf("%u passed, %u failed\n", passed, failed);
    return failed != 0;
}
