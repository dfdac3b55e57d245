/*
 * A collector of port records: appends them to a file of frames, and reads them back.
 *
 *     collector append [--repair] KEY-FILE FILE <lines
 *     collector read KEY-FILE FILE
 *     collector check FILE
 *
 * KEY-FILE holds the key, 32 hexadecimal digits and a newline: on a command line everyone on the machine could see it.
 *
 * append: each line of standard input is an IV of 32 hexadecimal digits and the fields port, admin up, link up, errors and
 * load in decimal, separated by spaces. For each line one is written: where its frame stands, once that is on the disk, or
 * why it was refused. For each line the file is locked, read and judged as a whole, written once, synced and unlocked: so
 * several collectors may append to one file. One that kept the lock from line to line could have its frames from
 * sallowknot_frames_append_after and not read the file again.
 *
 * read: the records as a table. A key other than the one they were enciphered with gives other records, and no refusal.
 * check: whether the file can be read, for those who hold no key.
 *
 * A crash in the middle of a write leaves a cut frame at the file's end. Then lines are refused with 15, and nothing is
 * written. --repair moves the cut frame, before the first line, to FILE.cut, or to the first of FILE.cut.1 to FILE.cut.99 that
 * is not there yet; it is on the disk there before FILE is cut back. This is done only where nothing else is wrong: the frames
 * before it are accepted, and it begins as a frame does. A tail with another mark was not left by a write of ours, and
 * what it is a person has to find out.
 *
 * The IV of a cut frame was used, and part of its record may have been seen, so no other record may have that IV. For each
 * line FILE.cut and all the others are read, and an IV is refused that is not above the highest which one of those frames
 * can have had: bytes of it that are missing are taken as FF. So the rule holds in later runs too, as long as these files
 * stand and all who append call FILE by one name. They may go once a frame above them all stands in FILE: from then on the
 * rising of the IVs says the same. A cut frame without any byte of its IV bars none. All FF would bar every IV for ever; and
 * a frame is written front to back, so that no byte of its record was written either, and nothing was shown under that IV,
 * whichever it was.
 *
 * Exit status: 0 all was accepted, 1 something was refused, 2 something could not be read, written or locked.
 */
#define _POSIX_C_SOURCE 200809L

#include <sallowknot.h>

#include <errno.h>
#include <fcntl.h>
#include <inttypes.h>
#include <stdbool.h>
#include <stdio.h>
#include <stdlib.h>
#include <string.h>
#include <sys/stat.h>
#include <unistd.h>

enum { ACCEPTED = 0, REFUSED = 1, FAILED = 2 };

enum { MARK_SIZE = 2, IV_SIZE = 16, FRAME_SIZE = SALLOWKNOT_FRAME_SIZE, CUT_FILES = 100 };

/* A line has some 60 characters; what is longer than the buffer is an error. */
#define LINE_ROOM 256

/* What the system refused, with its reason. */
static int failed(const char *name, const char *what)
{
    fprintf(stderr, "%s: %s: %s\n", name, what, strerror(errno));
    return FAILED;
}

/* ---- answers in words */

/* Of the lists that this program lends only the IV, list 3 of append, can have a wrong length or a byte that is no bit. */
static void print_refusal(sallowknot_answer answer, size_t file_length)
{
    uint32_t number = sallowknot_number(answer);
    uint64_t place = sallowknot_place(answer);

    printf("refused with %" PRIu32 ": ", number);
    switch (number) {
    case SALLOWKNOT_LENGTH:
        printf("the IV has %" PRIu64 " hexadecimal digits and not %d\n", place / 4, SALLOWKNOT_IV_BITS / 4);
        break;
    case SALLOWKNOT_BIT:
        printf("the IV has no hexadecimal digit at place %" PRIu64 "\n", place / 4);
        break;
    case SALLOWKNOT_FRAME:
        printf("%s, at byte %" PRIu64 "\n",
               file_length - place < FRAME_SIZE ? "the last frame is cut" : "a frame's mark is wrong", place);
        break;
    case SALLOWKNOT_ORDER:
        printf("%s, at byte %" PRIu64 "\n",
               place == file_length ? "the IV is not above the last one" : "a frame's IV is not above the one before", place);
        break;
    default:
        printf("list %" PRIu32 ", place %" PRIu64 "\n", sallowknot_list(answer), place);
        break;
    }
}

static void print_iv(const uint8_t iv[IV_SIZE])
{
    for (int i = 0; i < IV_SIZE; i++) {
        printf("%02X", iv[i]);
    }
}

/* ---- reading and writing */

/* Reads on behind the first bytes, to the end or until the room is full. */
static bool fill(int descriptor, uint8_t *bytes, size_t room, size_t *length)
{
    while (*length < room) {
        ssize_t n = read(descriptor, bytes + *length, room - *length);
        if (n == 0) {
            return true;
        }
        if (n > 0) {
            *length += (size_t)n;
        } else if (errno != EINTR) {
            return false;
        }
    }
    return true;
}

/* One write; it is tried again only where it wrote nothing. */
static ssize_t write_once(int descriptor, const uint8_t *bytes, size_t length)
{
    ssize_t n;

    do {
        n = write(descriptor, bytes, length);
    } while (n < 0 && errno == EINTR);
    return n;
}

static bool synced(int descriptor)
{
    int n;

    do {
        n = fsync(descriptor);
    } while (n != 0 && errno == EINTR);
    return n == 0;
}

/* A new file, or one that was cut, lasts only when the directory that names it is on the disk too. */
static int sync_directory_of(const char *name)
{
    const char *slash = strrchr(name, '/');
    char *directory = slash == NULL ? strdup(".") : strndup(name, (size_t)(slash - name) + 1);
    int descriptor = directory == NULL ? -1 : open(directory, O_RDONLY);
    int status = ACCEPTED;

    if (descriptor < 0 || !synced(descriptor)) {
        status = failed(name, "its directory cannot be synced");
    }
    if (descriptor >= 0) {
        close(descriptor);
    }
    free(directory);
    return status;
}

/* ---- the file of frames */

struct file {
    const char *name;
    int descriptor;
    uint8_t *bytes; /* what it held when it was read last */
    size_t length, room;
};

static int open_file(struct file *file, const char *name, int flags)
{
    *file = (struct file){.name = name, .descriptor = open(name, flags, 0666)};
    return file->descriptor < 0 ? failed(name, "cannot be opened") : ACCEPTED;
}

static void close_file(struct file *file)
{
    close(file->descriptor);
    free(file->bytes);
}

/* F_WRLCK keeps every other collector out, F_RDLCK those that write; F_UNLCK ends it. The end of the process does too. */
static int lock(const struct file *file, short kind)
{
    struct flock whole = {.l_type = kind, .l_whence = SEEK_SET};
    int n;

    do {
        n = fcntl(file->descriptor, F_SETLKW, &whole);
    } while (n != 0 && errno == EINTR);
    return n != 0 ? failed(file->name, "cannot be locked") : ACCEPTED;
}

static bool make_room(struct file *file, size_t room)
{
    if (room > file->room) {
        uint8_t *bytes = realloc(file->bytes, room);
        if (bytes == NULL) {
            return false;
        }
        file->bytes = bytes;
        file->room = room;
    }
    return true;
}

/* To its end, wherever that is by then: a program that does not ask for the lock may have added to it. */
static int read_file(struct file *file)
{
    struct stat about;

    if (fstat(file->descriptor, &about) != 0) {
        return failed(file->name, "cannot be read");
    }
    if (!S_ISREG(about.st_mode)) {
        fprintf(stderr, "%s: is no regular file\n", file->name);
        return FAILED;
    }
    file->length = 0;
    bool read = lseek(file->descriptor, 0, SEEK_SET) == 0 && make_room(file, (size_t)about.st_size + 1)
                && fill(file->descriptor, file->bytes, file->room, &file->length);
    while (read && file->length == file->room) {
        read = make_room(file, 2 * file->room) && fill(file->descriptor, file->bytes, file->room, &file->length);
    }
    return read ? ACCEPTED : failed(file->name, "cannot be read");
}

static int cut_back(const struct file *file, size_t length)
{
    int n;

    do {
        n = ftruncate(file->descriptor, (off_t)length);
    } while (n != 0 && errno == EINTR);
    return n != 0 || !synced(file->descriptor) ? failed(file->name, "cannot be cut back") : ACCEPTED;
}

/* Puts a frame at the file's end. */
static int put_frame(const struct file *file, const uint8_t frame[FRAME_SIZE])
{
    ssize_t n = write_once(file->descriptor, frame, FRAME_SIZE);

    if (n < 0) {
        return failed(file->name, "cannot be written");
    }
    if (n < FRAME_SIZE) {
        fprintf(stderr, "%s: %zd of %d bytes were written and are cut off again; no other record may have this IV\n", file->name,
                n, FRAME_SIZE);
        cut_back(file, file->length);
        return FAILED;
    }
    return synced(file->descriptor) ? ACCEPTED : failed(file->name, "the frame is written and may not be on the disk");
}

/* ---- cut frames beside it */

/* Whether bytes, fewer than a frame's, are the front of one: as much of the mark as there is room for. */
static bool begins_frame(const uint8_t *bytes, size_t length)
{
    return memcmp(bytes, "PT", length < MARK_SIZE ? length : MARK_SIZE) == 0;
}

/* The highest IV that cut frames can have had, if one of them has a byte of it. */
struct bound {
    bool set;
    uint8_t iv[IV_SIZE];
};

static void raise_bound(struct bound *bound, const uint8_t *cut, size_t length)
{
    uint8_t iv[IV_SIZE];

    if (length <= MARK_SIZE) {
        return;
    }
    memset(iv, 0xFF, IV_SIZE);
    memcpy(iv, cut + MARK_SIZE, length - MARK_SIZE < IV_SIZE ? length - MARK_SIZE : IV_SIZE);
    if (!bound->set || memcmp(iv, bound->iv, IV_SIZE) > 0) {
        bound->set = true;
        memcpy(bound->iv, iv, IV_SIZE);
    }
}

/* The name of the cut file with a number, 0 to 99, to be freed. */
static char *cut_name(const struct file *file, int number)
{
    size_t room = strlen(file->name) + sizeof ".cut.99";
    char *name = malloc(room);

    if (name != NULL && number == 0) {
        snprintf(name, room, "%s.cut", file->name);
    } else if (name != NULL) {
        snprintf(name, room, "%s.cut.%d", file->name, number);
    }
    return name;
}

/* Raises the bound by one cut file, if it is there. One that is not whole, after a crash in the middle of a repair, bars more
 * IVs or, without a byte of IV, none: but then FILE still has the tail, and the next repair saves it. */
static int read_cut(const char *name, struct bound *bound)
{
    uint8_t cut[FRAME_SIZE];
    size_t length = 0;
    int descriptor = open(name, O_RDONLY);

    if (descriptor < 0) {
        return errno == ENOENT ? ACCEPTED : failed(name, "cannot be opened");
    }
    bool read = fill(descriptor, cut, sizeof cut, &length);
    int status = read ? ACCEPTED : failed(name, "cannot be read");
    close(descriptor);
    if (read && (length == FRAME_SIZE || !begins_frame(cut, length))) {
        fprintf(stderr, "%s: is no cut frame\n", name);
        status = FAILED;
    }
    if (status == ACCEPTED) {
        raise_bound(bound, cut, length);
    }
    return status;
}

/* All names are tried: one of the files may have been removed before the others. */
static int read_cuts(const struct file *file, struct bound *bound)
{
    int status = ACCEPTED;

    for (int number = 0; status == ACCEPTED && number < CUT_FILES; number++) {
        char *name = cut_name(file, number);
        status = name == NULL ? failed(file->name, "its cut frames cannot be read") : read_cut(name, bound);
        free(name);
    }
    return status;
}

/* ---- repair */

/* Writes a new file that lasts; where that fails none is left. */
static int save(const char *name, int descriptor, const uint8_t *bytes, size_t length)
{
    bool written = write_once(descriptor, bytes, length) == (ssize_t)length && synced(descriptor);

    if (close(descriptor) != 0 || !written) {
        fprintf(stderr, "%s: cannot be written\n", name);
        unlink(name);
        return FAILED;
    }
    return sync_directory_of(name);
}

/* Moves the tail from a byte on, which is the front of a frame, to the first cut file that is not there yet. */
static int move_tail(struct file *file, size_t from)
{
    const uint8_t *tail = file->bytes + from;
    size_t length = file->length - from;
    char *name = NULL;
    int descriptor = -1;

    errno = EEXIST;
    for (int number = 0; descriptor < 0 && errno == EEXIST && number < CUT_FILES; number++) {
        free(name);
        name = cut_name(file, number);
        descriptor = name == NULL ? -1 : open(name, O_WRONLY | O_CREAT | O_EXCL, 0666);
    }
    int status = descriptor < 0 ? failed(file->name, "no cut file can be made") : save(name, descriptor, tail, length);
    if (status == ACCEPTED) {
        status = cut_back(file, from);
    }
    if (status == ACCEPTED) {
        struct bound bound = {.set = false};
        raise_bound(&bound, tail, length);
        printf("%s: repaired: the cut frame at byte %zu is moved to %s", file->name, from, name);
        if (bound.set) {
            printf(", and IVs must be above ");
            print_iv(bound.iv);
        }
        putchar('\n');
    }
    free(name);
    return status;
}

static int repair_locked(struct file *file)
{
    if (read_file(file) != ACCEPTED) {
        return FAILED;
    }
    size_t length = file->length % FRAME_SIZE;
    size_t from = file->length - length;
    if (length == 0) {
        return ACCEPTED;
    }
    sallowknot_answer answer = sallowknot_frames_check(file->bytes, from);
    if (answer != SALLOWKNOT_DONE) {
        printf("%s: not repaired: ", file->name);
        print_refusal(answer, file->length);
        return REFUSED;
    }
    if (!begins_frame(file->bytes + from, length)) {
        printf("%s: not repaired: what stands at byte %zu does not begin as a frame\n", file->name, from);
        return REFUSED;
    }
    return move_tail(file, from);
}

static int repair(struct file *file)
{
    if (lock(file, F_WRLCK) != ACCEPTED) {
        return FAILED;
    }
    int status = repair_locked(file);
    return lock(file, F_UNLCK) != ACCEPTED ? FAILED : status;
}

/* ---- the key */

static uint8_t key[SALLOWKNOT_KEY_BITS];

/* So written that a compiler does not leave it out. */
static void wipe(uint8_t *bytes, size_t length)
{
    volatile uint8_t *byte = bytes;

    for (size_t i = 0; i < length; i++) {
        byte[i] = 0;
    }
}

static int digit(int c)
{
    return c >= '0' && c <= '9' ? c - '0' : c >= 'A' && c <= 'F' ? c - 'A' + 10 : c >= 'a' && c <= 'f' ? c - 'a' + 10 : -1;
}

/* Four bits for each character, high bit first. One that is no hexadecimal digit gives four bytes that are no bits. */
static bool digits_to_bits(const char *text, size_t length, uint8_t *bits)
{
    bool all = true;

    for (size_t i = 0; i < length; i++) {
        int value = digit(text[i]);
        all = all && value >= 0;
        for (size_t b = 0; b < 4; b++) {
            bits[4 * i + b] = value < 0 ? 2 : value >> (3 - b) & 1;
        }
    }
    return all;
}

static int read_key(const char *name)
{
    enum { DIGITS = SALLOWKNOT_KEY_BITS / 4 };
    char text[DIGITS + 2];
    size_t length = 0;
    int descriptor = open(name, O_RDONLY);

    if (descriptor < 0) {
        return failed(name, "cannot be opened");
    }
    int status = fill(descriptor, (uint8_t *)text, sizeof text, &length) ? ACCEPTED : failed(name, "cannot be read");
    close(descriptor);
    if (status == ACCEPTED && (length != DIGITS + 1 || text[DIGITS] != '\n' || !digits_to_bits(text, DIGITS, key))) {
        fprintf(stderr, "%s: is no key: %d hexadecimal digits and a newline\n", name, DIGITS);
        status = FAILED;
    }
    wipe((uint8_t *)text, sizeof text);
    return status;
}

/* ---- records */

enum { FIELDS = 5 };

static const struct {
    const char *name;
    int bits, width;
} fields[FIELDS] = {
    {"port", 16, 5}, {"admin up", 1, 8}, {"link up", 1, 7}, {"errors", 22, 7}, {"load", 24, 8},
};

/* What a line asks for. The IV is as the line has it, and the library judges it. */
struct request {
    unsigned long line;
    uint8_t record[SALLOWKNOT_RECORD_BITS];
    uint8_t iv[4 * LINE_ROOM];
    size_t iv_length;
};

struct word {
    const char *text;
    size_t length;
};

/* The next word of a line, empty if there is none. */
static struct word next_word(const char **at, const char *end)
{
    while (*at < end && **at == ' ') {
        ++*at;
    }
    struct word word = {.text = *at};
    while (*at < end && **at != ' ') {
        ++*at;
    }
    word.length = (size_t)(*at - word.text);
    return word;
}

static bool read_number(struct word word, int bits, uint32_t *value)
{
    *value = 0;
    for (size_t i = 0; i < word.length; i++) {
        if (word.text[i] < '0' || word.text[i] > '9') {
            return false;
        }
        *value = 10 * *value + (uint32_t)(word.text[i] - '0');
        if (*value >> bits != 0) {
            return false;
        }
    }
    return true;
}

static int refuse_line(const struct request *request, const char *what, const char *why)
{
    printf("line %lu: refused: %s %s\n", request->line, what, why);
    return REFUSED;
}

/* Takes the fields of a line, and packs them as the record's bits, each high bit first. */
static int read_fields(struct request *request, const char **at, const char *end)
{
    uint8_t *next = request->record;

    for (int f = 0; f < FIELDS; f++) {
        struct word word = next_word(at, end);
        uint32_t value;
        if (word.length == 0) {
            return refuse_line(request, fields[f].name, "is missing");
        }
        if (!read_number(word, fields[f].bits, &value)) {
            char why[32];
            snprintf(why, sizeof why, "is no number of %d bit%s", fields[f].bits, fields[f].bits == 1 ? "" : "s");
            return refuse_line(request, fields[f].name, why);
        }
        for (int bit = fields[f].bits; bit > 0; bit--) {
            *next++ = value >> (bit - 1) & 1;
        }
    }
    return ACCEPTED;
}

static int read_request(struct request *request, const char *line, size_t length)
{
    const char *at = line;
    const char *end = line + length;
    struct word iv = next_word(&at, end);

    if (iv.length == 0) {
        return refuse_line(request, "the IV", "is missing");
    }
    digits_to_bits(iv.text, iv.length, request->iv);
    request->iv_length = 4 * iv.length;
    if (read_fields(request, &at, end) != ACCEPTED) {
        return REFUSED;
    }
    return next_word(&at, end).length != 0 ? refuse_line(request, "something", "stands after the load") : ACCEPTED;
}

static void print_record(const uint8_t *bits)
{
    for (int f = 0; f < FIELDS; f++) {
        uint32_t value = 0;
        for (int bit = 0; bit < fields[f].bits; bit++) {
            value = 2 * value + *bits++;
        }
        printf("%s%*" PRIu32, f == 0 ? "" : "  ", fields[f].width, value);
    }
    putchar('\n');
}

static void print_names(void)
{
    for (int f = 0; f < FIELDS; f++) {
        printf("%s%*s", f == 0 ? "" : "  ", fields[f].width, fields[f].name);
    }
    putchar('\n');
}

/* ---- append */

/* Why a line was refused, if it was: by the library, or else by the bound. */
struct reason {
    sallowknot_answer answer;
    struct bound bound;
};

static int append_locked(struct file *file, const struct request *request, struct reason *reason)
{
    uint8_t frame[FRAME_SIZE];

    if (read_file(file) != ACCEPTED || read_cuts(file, &reason->bound) != ACCEPTED) {
        return FAILED;
    }
    reason->answer = sallowknot_frames_append(key, sizeof key, request->record, sizeof request->record, request->iv,
                                              request->iv_length, file->bytes, file->length, frame, sizeof frame);
    if (reason->answer != SALLOWKNOT_DONE) {
        return REFUSED;
    }
    if (reason->bound.set && memcmp(frame + MARK_SIZE, reason->bound.iv, IV_SIZE) <= 0) {
        return REFUSED;
    }
    return put_frame(file, frame);
}

static void print_answer(const struct file *file, const struct request *request, int status, const struct reason *reason)
{
    printf("line %lu: ", request->line);
    if (status == ACCEPTED) {
        printf("appended at byte %zu\n", file->length);
    } else if (reason->answer != SALLOWKNOT_DONE) {
        print_refusal(reason->answer, file->length);
    } else {
        printf("refused: the IV is not above ");
        print_iv(reason->bound.iv);
        printf(", the highest that a cut frame can have had\n");
    }
}

/* The answer is printed without the lock: whoever reads it may be slow. */
static int append_line(struct file *file, unsigned long number, const char *line, size_t length)
{
    struct request request = {.line = number};
    struct reason reason = {.answer = SALLOWKNOT_DONE};

    if (read_request(&request, line, length) != ACCEPTED) {
        return REFUSED;
    }
    if (lock(file, F_WRLCK) != ACCEPTED) {
        return FAILED;
    }
    int status = append_locked(file, &request, &reason);
    if (status != FAILED) {
        status = lock(file, F_UNLCK) == ACCEPTED ? status : FAILED;
    }
    if (status != FAILED) {
        print_answer(file, &request, status, &reason);
    }
    return status;
}

enum line { LINE, NO_LINE, LONG_LINE, UNREAD_LINE };

/* The next line without its newline; the last may lack one. */
static enum line read_line(FILE *in, char line[LINE_ROOM], size_t *length)
{
    size_t n = 0;
    int c;

    while ((c = getc(in)) != EOF && c != '\n') {
        if (n == LINE_ROOM) {
            return LONG_LINE;
        }
        line[n++] = (char)c;
    }
    if (ferror(in)) {
        return UNREAD_LINE;
    }
    *length = n;
    return c == EOF && n == 0 ? NO_LINE : LINE;
}

/* After a failure no line is read: what would become of it is as open. */
static int append_lines(struct file *file, FILE *in)
{
    char line[LINE_ROOM];
    size_t length = 0;
    int status = ACCEPTED;

    for (unsigned long number = 1;; number++) {
        switch (read_line(in, line, &length)) {
        case NO_LINE:
            return status;
        case LONG_LINE:
            fprintf(stderr, "line %lu is too long\n", number);
            return FAILED;
        case UNREAD_LINE:
            fprintf(stderr, "line %lu cannot be read\n", number);
            return FAILED;
        case LINE:
            break;
        }
        int answered = append_line(file, number, line, length);
        if (answered == FAILED) {
            fprintf(stderr, "line %lu failed, and none after it is read\n", number);
            return FAILED;
        }
        status = answered > status ? answered : status;
    }
}

static int append(const char *key_name, const char *name, bool repairing)
{
    struct file file;

    if (read_key(key_name) != ACCEPTED || open_file(&file, name, O_RDWR | O_APPEND | O_CREAT) != ACCEPTED) {
        return FAILED;
    }
    int status = sync_directory_of(name);
    if (status != FAILED && repairing) {
        status = repair(&file);
    }
    if (status != FAILED) {
        int lines = append_lines(&file, stdin);
        status = lines > status ? lines : status;
    }
    close_file(&file);
    return status;
}

/* ---- read and check */

/* The file's bytes, read under a lock that keeps writers out; to be closed. */
static int load(struct file *file, const char *name)
{
    if (open_file(file, name, O_RDONLY) != ACCEPTED) {
        return FAILED;
    }
    int status = lock(file, F_RDLCK);
    if (status == ACCEPTED) {
        status = read_file(file);
    }
    if (status != ACCEPTED || lock(file, F_UNLCK) != ACCEPTED) {
        close_file(file);
        return FAILED;
    }
    return ACCEPTED;
}

static int print_records(const struct file *file)
{
    size_t frames = file->length / FRAME_SIZE;
    size_t room = SALLOWKNOT_RECORD_BITS * frames;
    uint8_t *records = malloc(room + 1);

    if (records == NULL) {
        return failed(file->name, "cannot be read");
    }
    sallowknot_answer answer = sallowknot_frames_read(key, sizeof key, file->bytes, file->length, records, room);
    if (answer != SALLOWKNOT_DONE) {
        printf("%s: ", file->name);
        print_refusal(answer, file->length);
    } else {
        print_names();
        for (size_t f = 0; f < frames; f++) {
            print_record(records + SALLOWKNOT_RECORD_BITS * f);
        }
    }
    free(records);
    return answer != SALLOWKNOT_DONE ? REFUSED : ACCEPTED;
}

static int read_records(const char *key_name, const char *name)
{
    struct file file;

    if (read_key(key_name) != ACCEPTED || load(&file, name) != ACCEPTED) {
        return FAILED;
    }
    int status = print_records(&file);
    close_file(&file);
    return status;
}

static int check(const char *name)
{
    struct file file;

    if (load(&file, name) != ACCEPTED) {
        return FAILED;
    }
    sallowknot_answer answer = sallowknot_frames_check(file.bytes, file.length);
    printf("%s: ", name);
    if (answer != SALLOWKNOT_DONE) {
        print_refusal(answer, file.length);
    } else {
        printf("accepted, %zu frame%s\n", file.length / FRAME_SIZE, file.length == FRAME_SIZE ? "" : "s");
    }
    close_file(&file);
    return answer != SALLOWKNOT_DONE ? REFUSED : ACCEPTED;
}

/* ---- */

static int run(int argc, char **argv)
{
    const char *command = argc > 1 ? argv[1] : "";
    bool repairing = argc > 2 && strcmp(argv[2], "--repair") == 0;

    if (strcmp(command, "append") == 0 && argc == 4 + repairing) {
        return append(argv[argc - 2], argv[argc - 1], repairing);
    }
    if (strcmp(command, "read") == 0 && argc == 4) {
        return read_records(argv[2], argv[3]);
    }
    if (strcmp(command, "check") == 0 && argc == 3) {
        return check(argv[2]);
    }
    fprintf(stderr, "usage: collector append [--repair] KEY-FILE FILE <lines\n"
                    "       collector read KEY-FILE FILE\n"
                    "       collector check FILE\n");
    return FAILED;
}

int main(int argc, char **argv)
{
    setvbuf(stdout, NULL, _IOLBF, BUFSIZ);
    int status = run(argc, argv);
    wipe(key, sizeof key);
    if (fflush(stdout) != 0 || ferror(stdout)) {
        fprintf(stderr, "the answers cannot be written\n");
        return FAILED;
    }
    return status;
}
