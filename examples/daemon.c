/*
 * A stand-in for the scoring daemon: enciphers records with Kreyvium and checks a netlist file.
 *
 *     daemon [NETLIST-FILE] <records
 *
 * Standard input is text. Its first line is the key, 128 characters 0 or 1. Every other line is an IV of 128 such characters,
 * a space, and a record of 1 to 64. For each record one line is written: the enciphered bits, or why it was refused. Nothing
 * is judged here: what a line holds goes to the library as it is, and the library's answer is put into words.
 *
 * Exit status: 0 all was accepted, 1 something was refused, 2 something could not be read or written.
 */
#include <sallowknot.h>

#include <inttypes.h>
#include <stdbool.h>
#include <stdio.h>
#include <string.h>

enum { ACCEPTED = 0, REFUSED = 1, FAILED = 2 };

/* The longest line is of an IV, a space and a record; what is longer than the buffer is an error. */
#define LINE_ROOM 512

/* The longest file that can be accepted: a header, 262,144 gates and 4,096 outputs. With one byte more a file is refused,
 * and nothing after that byte changes the answer, so no more is read. */
#define FILE_MOST (14 + 15 * (size_t)262144 + 6 * (size_t)4096)

static uint8_t file_bytes[FILE_MOST + 1];

/* ---- answers in words */

static const char *kreyvium_list(uint32_t list)
{
    switch (list) {
    case 1:
        return "key";
    case 2:
        return "record";
    case 3:
        return "IV";
    case 4:
        return "result";
    default:
        return "call";
    }
}

static void print_kreyvium_refusal(sallowknot_answer answer)
{
    uint32_t number = sallowknot_number(answer);
    const char *list = kreyvium_list(sallowknot_list(answer));
    uint64_t place = sallowknot_place(answer);

    printf("refused with %" PRIu32 ": ", number);
    switch (number) {
    case SALLOWKNOT_RECORD:
        printf("a record has 1 to %d bits\n", SALLOWKNOT_MOST_BITS);
        break;
    case SALLOWKNOT_LENGTH:
        printf("the %s has the wrong length, %" PRIu64 "\n", list, place);
        break;
    case SALLOWKNOT_BIT:
        printf("the %s has something other than 0 and 1 at place %" PRIu64 "\n", list, place);
        break;
    case SALLOWKNOT_ROOM:
        printf("the %s is too short, with %" PRIu64 " places\n", list, place);
        break;
    default:
        printf("%s, place %" PRIu64 "\n", list, place);
        break;
    }
}

static void print_file_refusal(sallowknot_answer answer)
{
    uint32_t number = sallowknot_number(answer);
    uint64_t place = sallowknot_place(answer);

    printf("refused with %" PRIu32 ": ", number);
    switch (number) {
    case SALLOWKNOT_FILE:
        printf("a wrong mark, a cut record or bytes left over, at byte %" PRIu64 "\n", place);
        break;
    case SALLOWKNOT_NETLIST:
        printf("a rule for netlists is broken, at word %" PRIu64 "\n", place);
        break;
    default:
        printf("place %" PRIu64 "\n", place);
        break;
    }
}

/* ---- netlist files */

static int check_file(const char *name)
{
    FILE *file = fopen(name, "rb");
    if (file == NULL) {
        perror(name);
        return FAILED;
    }
    size_t length = fread(file_bytes, 1, sizeof file_bytes, file);
    bool unread = ferror(file) != 0;
    if (fclose(file) != 0 || unread) {
        fprintf(stderr, "%s: cannot be read\n", name);
        return FAILED;
    }

    sallowknot_answer answer = sallowknot_check_file(file_bytes, length);
    printf("netlist: ");
    if (answer != SALLOWKNOT_DONE) {
        print_file_refusal(answer);
        return REFUSED;
    }
    printf("accepted\n");
    return ACCEPTED;
}

/* ---- records */

/* A character as a byte for the library: anything but 0 and 1 is no bit. */
static uint8_t bit(char c)
{
    return c == '0' ? 0 : c == '1' ? 1 : 2;
}

static void to_bits(const char *text, size_t length, uint8_t *bits)
{
    for (size_t i = 0; i < length; i++) {
        bits[i] = bit(text[i]);
    }
}

enum line { LINE, NO_LINE, LONG_LINE, UNREAD_LINE };

/* The next line without its newline; the last may lack one. */
static enum line read_line(FILE *in, char line[LINE_ROOM], size_t *length)
{
    size_t n = 0;
    int c;

    while ((c = getc(in)) != EOF && c != '\n') {
        if (n == LINE_ROOM) {
            return LONG_LINE;
        }
        line[n++] = (char)c;
    }
    if (ferror(in)) {
        return UNREAD_LINE;
    }
    *length = n;
    return c == EOF && n == 0 ? NO_LINE : LINE;
}

static int encipher_line(const uint8_t *key, size_t key_length, const char *line, size_t length)
{
    uint8_t iv[LINE_ROOM];
    uint8_t record[LINE_ROOM];
    uint8_t result[LINE_ROOM];
    const char *space = memchr(line, ' ', length);
    size_t iv_length = space == NULL ? length : (size_t)(space - line);
    size_t record_length = space == NULL ? 0 : length - iv_length - 1;

    to_bits(line, iv_length, iv);
    if (space != NULL) {
        to_bits(space + 1, record_length, record);
    }
    sallowknot_answer answer = sallowknot_kreyvium_encipher(
        (uint32_t)record_length, key, key_length, record, record_length, iv, iv_length, result, sizeof result);
    if (answer != SALLOWKNOT_DONE) {
        print_kreyvium_refusal(answer);
        return REFUSED;
    }
    for (size_t i = 0; i < record_length; i++) {
        putchar(result[i] == 0 ? '0' : '1');
    }
    putchar('\n');
    return ACCEPTED;
}

static int encipher_all(FILE *in)
{
    char line[LINE_ROOM];
    uint8_t key[LINE_ROOM];
    size_t key_length = 0;
    size_t length = 0;
    int status = ACCEPTED;

    for (unsigned long number = 1;; number++) {
        switch (read_line(in, line, &length)) {
        case NO_LINE:
            return status;
        case LONG_LINE:
            fprintf(stderr, "line %lu is too long\n", number);
            return FAILED;
        case UNREAD_LINE:
            fprintf(stderr, "line %lu cannot be read\n", number);
            return FAILED;
        case LINE:
            break;
        }
        if (number == 1) {
            to_bits(line, length, key);
            key_length = length;
            continue;
        }
        printf("line %lu: ", number);
        if (encipher_line(key, key_length, line, length) != ACCEPTED) {
            status = REFUSED;
        }
    }
}

int main(int argc, char **argv)
{
    if (argc > 2) {
        fprintf(stderr, "usage: daemon [NETLIST-FILE] <records\n");
        return FAILED;
    }
    int status = ACCEPTED;
    if (argc == 2) {
        status = check_file(argv[1]);
    }
    if (status != FAILED) {
        int records = encipher_all(stdin);
        status = records > status ? records : status;
    }
    if (fflush(stdout) != 0 || ferror(stdout)) {
        fprintf(stderr, "the answers cannot be written\n");
        return FAILED;
    }
    return status;
}
