/*
 * Reads an SMIv2 module and prints the name and the dotted OID of each definition, or - for a type, with a tab between
 * them; or the refusal's number and place, and what it means. Then it asks the other two questions.
 *
 * Build and run, in the repository:
 *
 *   tools/staticlib
 *   cc -std=c99 -I include examples/c/read_module.c target/staticlib/libmib.a -o target/read_module
 *   target/read_module examples/QUAY-UPS-MIB
 *
 * Exit status: 0 accepted, 1 refused, 2 the file can't be read.
 */
#include <errno.h>
#include <inttypes.h>
#include <stdio.h>
#include <string.h>

#include "mib.h"

/* A byte more than a text may have, to tell a longer file. */
static uint8_t text[MIB_LONGEST_TEXT + 1];
static uint32_t records[MIB_RECORD_WORDS];
static uint32_t numbers[MIB_NUMBER_WORDS];
static uint8_t out[MIB_OCTETS_OUT];

/* Reads a file into `text`. Answers 0, or the error's number. */
static int read_file(const char *path, size_t *length)
{
    FILE *file;
    int error = 0;

    errno = 0;
    file = fopen(path, "rb");
    if (!file)
        return errno ? errno : EIO;
    *length = fread(text, 1, sizeof text, file);
    if (ferror(file))
        error = errno ? errno : EIO;
    fclose(file);
    return error;
}

static void print_definition(const uint32_t *record)
{
    const uint32_t *oid = numbers + record[MIB_WORD_OID_FIRST];
    uint32_t i;

    fwrite(text + record[MIB_WORD_NAME_OFFSET], 1, record[MIB_WORD_NAME_LENGTH], stdout);
    putchar('\t');
    if (record[MIB_WORD_OID_COUNT] == 0)
        putchar('-');
    for (i = 0; i < record[MIB_WORD_OID_COUNT]; i++)
        printf(i == 0 ? "%" PRIu32 : ".%" PRIu32, oid[i]);
    putchar('\n');
}

/* What does the module define? */
static int show_module(size_t length)
{
    struct mib_reading reading = mib_read(text, length, records, MIB_RECORD_WORDS, numbers, MIB_NUMBER_WORDS);
    size_t k;

    if (reading.number != MIB_READ_ACCEPTED) {
        printf("refused\t%zu\t%zu\t%s\n", reading.number, reading.place, mib_refusal_text(reading.number));
        return 1;
    }
    printf("accepted\t%zu\n", reading.count);
    for (k = 0; k < reading.count; k++)
        print_definition(records + k * MIB_RECORD_WIDTH);
    return 0;
}

/* What does a stored value look like? */
static void show_value(void)
{
    static const uint8_t hint[] = {'*', '1', 'd', '.', ':', '1', 'd'};
    static const uint8_t octets[] = {0x02, 0x0A, 0x0B, 0x05};
    struct mib_printing printing = mib_print_octets(hint, sizeof hint, octets, sizeof octets, out, sizeof out);

    if (printing.number != MIB_PRINT_DONE) {
        printf("value refused\t%zu\t%zu\t%s\n", printing.number, printing.place,
               mib_refusal_text(printing.number));
        return;
    }
    fputs("value\t", stdout);
    fwrite(out, 1, printing.length, stdout);
    putchar('\n');
}

/* What does a set do to a row? This one is notReady, columns are still missing, and the agent is willing. */
static void show_row(void)
{
    struct mib_step step = mib_set_row(MIB_ROW_NOT_READY, MIB_SET_ACTIVE, 0, 1);

    printf("row\t%zu\t%" PRIu64 "\t%s\n", step.number, step.next, mib_row_text(step.number));
}

int main(int argc, char **argv)
{
    size_t length = 0;
    int status;
    int error;

    if (argc != 2) {
        fprintf(stderr, "usage: read_module FILE\n");
        return 2;
    }
    error = read_file(argv[1], &length);
    if (error) {
        fprintf(stderr, "read_module: %s: %s\n", argv[1], strerror(error));
        return 2;
    }
    status = show_module(length);
    show_value();
    show_row();
    if (fflush(stdout) != 0 || ferror(stdout)) {
        fprintf(stderr, "read_module: the output can't be written\n");
        return 2;
    }
    return status;
}
