/*
 * The six calls for C, through their header. Expected keystreams: a published vector, and one worked by the rules
 * apart from this code. Every list is lent from an allocation of its own and exactly its length, so that a memory checker
 * sees a byte read or written past its end.
 */
#include <sallowknot.h>

#include <inttypes.h>
#include <stdbool.h>
#include <stdio.h>
#include <stdlib.h>
#include <string.h>

static unsigned passed;
static unsigned failed;

static void expect(const char *what, bool holds)
{
    if (holds) {
        passed++;
    } else {
        printf("calls: %s\n", what);
        failed++;
    }
}

static void expect_answer(const char *what, sallowknot_answer answer, uint32_t number, uint32_t list, uint64_t place)
{
    uint32_t n = sallowknot_number(answer);
    uint32_t l = sallowknot_list(answer);
    uint64_t p = sallowknot_place(answer);

    expect(what, n == number && l == list && p == place);
    if (n != number || l != list || p != place) {
        printf("calls: answered %" PRIu32 " %" PRIu32 " %" PRIu64 ", due %" PRIu32 " %" PRIu32 " %" PRIu64 "\n", n, l, p, number,
               list, place);
    }
}

/* A copy in an allocation of its own; none for no bytes. */
static uint8_t *lend(const uint8_t *bytes, size_t length)
{
    if (length == 0) {
        return NULL;
    }
    uint8_t *copy = malloc(length);
    if (copy == NULL) {
        perror("calls");
        exit(2);
    }
    memcpy(copy, bytes, length);
    return copy;
}

/* ---- Kreyvium */

#define ROOM 160

/* What a call is lent; each list is the front of its array. */
struct call {
    uint32_t m;
    uint8_t key[ROOM];
    size_t key_length;
    uint8_t record[ROOM];
    size_t record_length;
    uint8_t iv[ROOM];
    size_t iv_length;
    uint8_t result[ROOM];
    size_t result_length;
};

/* key[i] is 1 where i is a multiple of 3, iv[i] where i is 1 more than one of 5, record[i] where i is 2 more than one of 4. */
static struct call patterns(uint32_t m)
{
    struct call c = {.m = m, .key_length = 128, .record_length = m, .iv_length = 128, .result_length = m};

    for (size_t i = 0; i < ROOM; i++) {
        c.key[i] = i % 3 == 0;
        c.iv[i] = i % 5 == 1;
        c.record[i] = i % 4 == 2;
        c.result[i] = 77;
    }
    return c;
}

static sallowknot_answer make(struct call *c)
{
    uint8_t *key = lend(c->key, c->key_length);
    uint8_t *record = lend(c->record, c->record_length);
    uint8_t *iv = lend(c->iv, c->iv_length);
    uint8_t *result = lend(c->result, c->result_length);
    sallowknot_answer answer = sallowknot_kreyvium_encipher(c->m, key, c->key_length, record, c->record_length, iv, c->iv_length,
                                                            result, c->result_length);

    expect("what is only read is kept", (key == NULL || memcmp(key, c->key, c->key_length) == 0)
                                            && (record == NULL || memcmp(record, c->record, c->record_length) == 0)
                                            && (iv == NULL || memcmp(iv, c->iv, c->iv_length) == 0));
    if (result != NULL) {
        memcpy(c->result, result, c->result_length);
    }
    free(key);
    free(record);
    free(iv);
    free(result);
    return answer;
}

static void expect_refused(const char *what, struct call c, uint32_t number, uint32_t list, uint64_t place)
{
    expect_answer(what, make(&c), number, list, place);
    bool kept = true;
    for (size_t i = 0; i < ROOM; i++) {
        kept = kept && c.result[i] == 77;
    }
    expect("a refusal changes nothing", kept);
}

/* The bit of a keystream that is packed low bit of each byte first. */
static uint8_t packed_bit(const uint8_t *bytes, size_t i)
{
    return bytes[i / 8] >> i % 8 & 1;
}

static void test_enciphering(void)
{
    static const uint8_t published[8] = {0x26, 0xDC, 0xF1, 0xF4, 0xBC, 0x0F, 0x19, 0x22};
    static const uint8_t worked[8] = {0x32, 0xAD, 0x24, 0x5B, 0xC0, 0x2A, 0x32, 0x90};

    struct call zero = {.m = 64, .key_length = 128, .record_length = 64, .iv_length = 128, .result_length = 64};
    expect_answer("key and IV of zeros", make(&zero), 0, 0, 0);
    bool same = true;
    for (size_t i = 0; i < 64; i++) {
        same = same && zero.result[i] == packed_bit(published, i);
    }
    expect("the published vector", same);

    for (uint32_t m = 1; m <= 64; m++) {
        struct call c = patterns(m);
        c.result_length = m + m % 3;
        expect_answer("a record of m bits", make(&c), 0, 0, 0);
        bool right = true;
        bool kept = true;
        for (size_t i = 0; i < ROOM; i++) {
            right = right && (i >= m || c.result[i] == (c.record[i] ^ packed_bit(worked, i)));
            kept = kept && (i < m || c.result[i] == 77);
        }
        expect("record and keystream are added", right);
        expect("the rest of the result is kept", kept);

        struct call again = patterns(m);
        memcpy(again.record, c.result, m);
        expect_answer("what was enciphered", make(&again), 0, 0, 0);
        expect("enciphering twice gives the record", memcmp(again.result, c.record, m) == 0);
    }
}

static void test_refusals(void)
{
    struct call c;

    c = patterns(40), c.m = 0;
    expect_refused("m is 0", c, 2, 0, 0);
    c = patterns(40), c.m = 65, c.record_length = 65, c.result_length = 65;
    expect_refused("m is 65", c, 2, 0, 0);
    c = patterns(40), c.m = UINT32_MAX;
    expect_refused("m is as large as it can be", c, 2, 0, 0);

    c = patterns(40), c.key_length = 127;
    expect_refused("a short key", c, 3, 1, 127);
    c = patterns(40), c.key_length = 129;
    expect_refused("a long key", c, 3, 1, 129);
    c = patterns(40), c.key_length = 0;
    expect_refused("no key", c, 3, 1, 0);
    c = patterns(40), c.record_length = 39;
    expect_refused("a short record", c, 3, 2, 39);
    c = patterns(40), c.record_length = 41;
    expect_refused("a long record", c, 3, 2, 41);
    c = patterns(40), c.record_length = 0;
    expect_refused("no record", c, 3, 2, 0);
    c = patterns(40), c.iv_length = 127;
    expect_refused("a short IV", c, 3, 3, 127);
    c = patterns(40), c.iv_length = 129;
    expect_refused("a long IV", c, 3, 3, 129);
    c = patterns(40), c.iv_length = 0;
    expect_refused("no IV", c, 3, 3, 0);

    c = patterns(40), c.key[127] = 2;
    expect_refused("no bit at the key's end", c, 4, 1, 127);
    c = patterns(40), c.key[0] = 255, c.key[1] = 255;
    expect_refused("no bits at the key's start", c, 4, 1, 0);
    c = patterns(40), c.record[39] = 2;
    expect_refused("no bit at the record's end", c, 4, 2, 39);
    c = patterns(40), c.iv[64] = 128, c.iv[100] = 2;
    expect_refused("no bit in the IV", c, 4, 3, 64);

    c = patterns(40), c.result_length = 39;
    expect_refused("a short result", c, 8, 4, 39);
    c = patterns(40), c.result_length = 0;
    expect_refused("no result", c, 8, 4, 0);

    c = patterns(40), c.m = 0, c.key_length = 3, c.iv[0] = 2, c.result_length = 0;
    expect_refused("2 is before 3, 4 and 8", c, 2, 0, 0);
    c = patterns(40), c.record_length = 1, c.iv_length = 1;
    expect_refused("3 on the record is before 3 on the IV", c, 3, 2, 1);
    c = patterns(40), c.iv_length = 1, c.key[0] = 2, c.result_length = 0;
    expect_refused("3 on the IV is before 4 on the key", c, 3, 3, 1);
    c = patterns(40), c.record[7] = 2, c.iv[3] = 2, c.result_length = 0;
    expect_refused("4 on the record is before 4 on the IV and 8", c, 4, 2, 7);
    c = patterns(40), c.iv[3] = 2, c.result_length = 39;
    expect_refused("4 is before 8", c, 4, 3, 3);
}

/* ---- files */

static void expect_file(const char *what, const uint8_t *bytes, size_t length, uint32_t number, uint64_t place)
{
    uint8_t *source = lend(bytes, length);

    expect_answer(what, sallowknot_check_file(source, length), number, number == 0 ? 0 : 1, place);
    expect("a check changes nothing", source == NULL || memcmp(source, bytes, length) == 0);
    free(source);
}

/* The file with one byte changed. */
static void expect_changed(const char *what, const uint8_t *bytes, size_t length, size_t at, uint8_t byte, uint32_t number,
                           uint64_t place)
{
    uint8_t changed[64] = {0};

    memcpy(changed, bytes, length);
    changed[at] = byte;
    expect_file(what, changed, length, number, place);
}

static void test_files(void)
{
    /* a pass-through of one wire, and an AND of two inputs; each with a byte more, which is left over */
    static const uint8_t pass_file[21] = "NH\1\0\0\0\0\0\0\0\1\0\0\0NO\0\0\0\0";
    static const uint8_t and_file[36] = "NH\2\0\0\0\1\0\0\0\1\0\0\0NG\4\0\0\0\0\1\0\0\0\0\0\0\0NO\2\0\0\0";
    static const uint8_t empty_file[14] = {'N', 'H'};

    expect_file("the rules' example", pass_file, 20, 0, 0);
    expect_file("an AND", and_file, 35, 0, 0);
    expect_file("no inputs, gates or outputs", empty_file, 14, 0, 0);

    expect_file("no file", NULL, 0, 12, 0);
    for (size_t length = 1; length < 20; length++) {
        expect_file("a cut pass-through", pass_file, length, 12, length < 14 ? 0 : 14);
    }
    for (size_t length = 14; length < 35; length++) {
        expect_file("a cut AND", and_file, length, 12, length < 29 ? 14 : 29);
    }
    expect_file("a byte left over", pass_file, 21, 12, 20);
    expect_file("a byte left over after an AND", and_file, 36, 12, 35);

    expect_changed("the header's first letter", pass_file, 20, 0, 'M', 12, 0);
    expect_changed("the header's second letter", pass_file, 20, 1, 'G', 12, 0);
    expect_changed("the gate's letter", and_file, 35, 15, 'O', 12, 14);
    expect_changed("the output's first letter", and_file, 35, 29, 'n', 12, 29);
    expect_changed("the output's second letter", pass_file, 20, 15, 'G', 12, 14);
    expect_changed("an output more than there is", pass_file, 20, 10, 2, 12, 20);
    expect_changed("an output fewer than there is", pass_file, 20, 10, 0, 12, 14);

    expect_changed("inputs above 32,768", pass_file, 20, 3, 0x80, 9, 0); /* 32,769 */
    expect_changed("gates above 262,144", and_file, 35, 8, 4, 9, 1);     /* 262,145 */
    expect_changed("outputs above 4,096", pass_file, 20, 11, 0x10, 9, 2); /* 4,097 */
    expect_changed("counts are judged before records", pass_file, 15, 3, 0x80, 9, 0);

    expect_changed("a kind that is none", and_file, 35, 16, 6, 9, 3);
    expect_changed("an operand that is no earlier wire", and_file, 35, 17, 2, 9, 4);
    expect_changed("the second operand", and_file, 35, 21, 2, 9, 5);
    expect_changed("an unused operand that is not 0", and_file, 35, 25, 1, 9, 6);
    expect_changed("an output that is no wire", and_file, 35, 31, 3, 9, 7);
    expect_changed("an output that is no wire of a pass-through", pass_file, 20, 16, 1, 9, 3);
    expect_changed("records are judged before wires", and_file, 36, 16, 6, 12, 35);
}

/* ---- frames */

#define FILE_ROOM (5 * SALLOWKNOT_FRAME_SIZE)

/* What an appending call is lent; each list is the front of its array. */
struct append {
    uint8_t key[ROOM];
    size_t key_length;
    uint8_t record[ROOM];
    size_t record_length;
    uint8_t iv[ROOM];
    size_t iv_length;
    uint8_t file[FILE_ROOM];
    size_t file_length;
    uint8_t frame[ROOM];
    size_t frame_length;
};

typedef sallowknot_answer append_call(const uint8_t *key, size_t key_length, const uint8_t *record, size_t record_length,
                                      const uint8_t *iv, size_t iv_length, const uint8_t *file, size_t file_length,
                                      uint8_t *frame, size_t frame_length);

/* Frame f of a file has the IV whose first byte is f + 1 and whose others are 0, and bytes of no meaning for its record. */
static void write_frames(uint8_t *file, size_t frames)
{
    memset(file, 0, FILE_ROOM);
    for (size_t f = 0; f < frames; f++) {
        uint8_t *frame = file + SALLOWKNOT_FRAME_SIZE * f;
        frame[0] = 'P';
        frame[1] = 'T';
        frame[2] = (uint8_t)(f + 1);
        memset(frame + 18, 200, 8);
    }
}

/* Key, record and IV of the patterns above, to append to so many frames. The IV's first byte is 66, so it is above them. */
static struct append behind(size_t frames)
{
    struct call c = patterns(64);
    struct append a = {.key_length = 128, .record_length = 64, .iv_length = 128, .frame_length = SALLOWKNOT_FRAME_SIZE};

    memcpy(a.key, c.key, ROOM);
    memcpy(a.record, c.record, ROOM);
    memcpy(a.iv, c.iv, ROOM);
    memset(a.frame, 77, ROOM);
    write_frames(a.file, frames);
    a.file_length = SALLOWKNOT_FRAME_SIZE * frames;
    return a;
}

static sallowknot_answer make_append(append_call *call, struct append *a)
{
    uint8_t *key = lend(a->key, a->key_length);
    uint8_t *record = lend(a->record, a->record_length);
    uint8_t *iv = lend(a->iv, a->iv_length);
    uint8_t *file = lend(a->file, a->file_length);
    uint8_t *frame = lend(a->frame, a->frame_length);
    sallowknot_answer answer =
        call(key, a->key_length, record, a->record_length, iv, a->iv_length, file, a->file_length, frame, a->frame_length);

    expect("an append keeps what is only read", (key == NULL || memcmp(key, a->key, a->key_length) == 0)
                                                    && (record == NULL || memcmp(record, a->record, a->record_length) == 0)
                                                    && (iv == NULL || memcmp(iv, a->iv, a->iv_length) == 0)
                                                    && (file == NULL || memcmp(file, a->file, a->file_length) == 0));
    if (frame != NULL) {
        memcpy(a->frame, frame, a->frame_length);
    }
    free(key);
    free(record);
    free(iv);
    free(file);
    free(frame);
    return answer;
}

static bool all_77(const uint8_t *bytes, size_t length)
{
    bool all = true;

    for (size_t i = 0; i < length; i++) {
        all = all && bytes[i] == 77;
    }
    return all;
}

static void expect_frame(const char *what, append_call *call, struct append a, const uint8_t frame[SALLOWKNOT_FRAME_SIZE])
{
    expect_answer(what, make_append(call, &a), 0, 0, 0);
    expect("the frame", memcmp(a.frame, frame, SALLOWKNOT_FRAME_SIZE) == 0);
    expect("the rest of its room is kept", all_77(a.frame + SALLOWKNOT_FRAME_SIZE, ROOM - SALLOWKNOT_FRAME_SIZE));
}

static void expect_no_frame(const char *what, append_call *call, struct append a, uint32_t number, uint32_t list,
                            uint64_t place)
{
    expect_answer(what, make_append(call, &a), number, list, place);
    expect("a refused append changes nothing", all_77(a.frame, ROOM));
}

/* The published and the worked keystream again, now high bit first; the patterns' record is 0x22 in each byte. */
static const uint8_t published_frame[SALLOWKNOT_FRAME_SIZE] = {
    'P', 'T', 0, 0, 0, 0, 0, 0, 0, 0, 0, 0, 0, 0, 0, 0, 0, 0, 0x64, 0x3B, 0x8F, 0x2F, 0x3D, 0xF0, 0x98, 0x44,
};
static const uint8_t worked_frame[SALLOWKNOT_FRAME_SIZE] = {
    'P',  'T',  0x42, 0x10, 0x84, 0x21, 0x08, 0x42, 0x10, 0x84, 0x21, 0x08, 0x42,
    0x10, 0x84, 0x21, 0x08, 0x42, 0x6E, 0x97, 0x06, 0xF8, 0x21, 0x76, 0x6E, 0x2B,
};

/* What both appending calls answer, with a file of one frame or none. */
static void test_appending(append_call *call)
{
    struct append a;

    a = (struct append){.key_length = 128, .record_length = 64, .iv_length = 128, .frame_length = SALLOWKNOT_FRAME_SIZE};
    memset(a.frame, 77, ROOM);
    expect_frame("the published vector as a first frame", call, a, published_frame);
    for (size_t more = 0; more < 3; more++) {
        a = behind(0), a.frame_length += more;
        expect_frame("a first frame", call, a, worked_frame);
        a = behind(1), a.frame_length += more;
        expect_frame("a second frame", call, a, worked_frame);
    }
    a = behind(1), memcpy(a.file + 2, worked_frame + 2, 16), a.file[17] -= 1;
    expect_frame("an IV one above", call, a, worked_frame);
    a = behind(1), memcpy(a.file + 2, worked_frame + 2, 16), a.file[2] -= 1, memset(a.file + 3, 255, 15);
    expect_frame("an IV above in its high byte alone", call, a, worked_frame);

    a = behind(1), a.key_length = 127;
    expect_no_frame("a short key", call, a, 3, 1, 127);
    a = behind(1), a.key_length = 0;
    expect_no_frame("no key", call, a, 3, 1, 0);
    a = behind(1), a.record_length = 63;
    expect_no_frame("a short record", call, a, 3, 2, 63);
    a = behind(1), a.record_length = 65;
    expect_no_frame("a long record", call, a, 3, 2, 65);
    a = behind(1), a.record_length = 0;
    expect_no_frame("no record", call, a, 3, 2, 0);
    a = behind(1), a.iv_length = 129;
    expect_no_frame("a long IV", call, a, 3, 3, 129);
    a = behind(1), a.iv_length = 0;
    expect_no_frame("no IV", call, a, 3, 3, 0);
    a = behind(1), a.key[127] = 2;
    expect_no_frame("no bit at the key's end", call, a, 4, 1, 127);
    a = behind(1), a.record[63] = 255;
    expect_no_frame("no bit at the record's end", call, a, 4, 2, 63);
    a = behind(1), a.iv[0] = 2, a.iv[1] = 2;
    expect_no_frame("no bits at the IV's start", call, a, 4, 3, 0);
    a = behind(1), a.file[0] = 'p';
    expect_no_frame("the mark's first letter", call, a, 15, 4, 0);
    a = behind(1), a.file[1] = 't';
    expect_no_frame("the mark's second letter", call, a, 15, 4, 0);
    a = behind(1), memcpy(a.file + 2, worked_frame + 2, 16);
    expect_no_frame("the last IV again", call, a, 16, 4, 26);
    a = behind(1), memcpy(a.file + 2, worked_frame + 2, 16), a.file[17] += 1;
    expect_no_frame("an IV one below", call, a, 16, 4, 26);
    a = behind(1), a.file[2] = 255;
    expect_no_frame("an IV far below", call, a, 16, 4, 26);
    a = behind(1), a.frame_length = 25;
    expect_no_frame("a short room for the frame", call, a, 8, 5, 25);
    a = behind(0), a.frame_length = 0;
    expect_no_frame("no room for the frame", call, a, 8, 5, 0);

    a = behind(1), a.iv_length = 1, a.key[0] = 2, a.file[0] = 0, a.frame_length = 0;
    expect_no_frame("3 is before 4, 15 and 8", call, a, 3, 3, 1);
    a = behind(1), a.iv[9] = 2, a.file[0] = 0, a.frame_length = 0;
    expect_no_frame("4 is before 15 and 8", call, a, 4, 3, 9);
    a = behind(1), a.file[1] = 0, a.file[2] = 255, a.frame_length = 0;
    expect_no_frame("15 is before 16 and 8", call, a, 15, 4, 0);
    a = behind(1), a.file[2] = 255, a.frame_length = 25;
    expect_no_frame("16 is before 8", call, a, 16, 4, 26);
}

static void test_append(void)
{
    struct append a;

    expect_frame("behind four frames", sallowknot_frames_append, behind(4), worked_frame);
    for (size_t cut = 1; cut < 78; cut++) {
        a = behind(3), a.file_length = cut;
        if (cut % 26 != 0) {
            expect_no_frame("a cut file", sallowknot_frames_append, a, 15, 4, cut - cut % 26);
        }
    }
    a = behind(3), a.file[26] = 'Q';
    expect_no_frame("a mark in the middle", sallowknot_frames_append, a, 15, 4, 26);
    a = behind(3), a.file[54] = 2;
    expect_no_frame("an IV twice in the file", sallowknot_frames_append, a, 16, 4, 52);
    a = behind(3), a.file[28] = 0, a.file[52] = 0;
    expect_no_frame("frames are judged in file order", sallowknot_frames_append, a, 16, 4, 26);
    a = behind(3), a.file[26] = 0, a.file[28] = 0, a.frame_length = 0;
    expect_no_frame("in a frame 15 is before 16, and both before 8", sallowknot_frames_append, a, 15, 4, 26);
    a = behind(3), a.file[54] = 255;
    expect_no_frame("16 of the new frame is at the file's length", sallowknot_frames_append, a, 16, 4, 78);
}

static void test_append_after(void)
{
    static const size_t lengths[] = {1, 25, 27, 52};
    struct append a;

    for (size_t i = 0; i < sizeof lengths / sizeof lengths[0]; i++) {
        a = behind(2), a.file_length = lengths[i];
        expect_no_frame("no last frame", sallowknot_frames_append_after, a, 3, 4, lengths[i]);
    }
    a = behind(2), a.iv_length = 3;
    expect_no_frame("3 on the IV is before 3 on the last frame", sallowknot_frames_append_after, a, 3, 3, 3);
    a = behind(2), a.key[0] = 2;
    expect_no_frame("3 on the last frame is before 4 on the key", sallowknot_frames_append_after, a, 3, 4, 52);
}

static sallowknot_answer make_read(const struct append *a, uint8_t *records, size_t records_length)
{
    uint8_t *key = lend(a->key, a->key_length);
    uint8_t *file = lend(a->file, a->file_length);
    uint8_t *lent = lend(records, records_length);
    sallowknot_answer answer = sallowknot_frames_read(key, a->key_length, file, a->file_length, lent, records_length);

    expect("reading keeps what is only read", (key == NULL || memcmp(key, a->key, a->key_length) == 0)
                                                  && (file == NULL || memcmp(file, a->file, a->file_length) == 0));
    if (lent != NULL) {
        memcpy(records, lent, records_length);
    }
    free(key);
    free(file);
    free(lent);
    return answer;
}

#define RECORDS_ROOM (6 * SALLOWKNOT_RECORD_BITS)

static void expect_unread(const char *what, struct append a, size_t room, uint32_t number, uint32_t list, uint64_t place)
{
    uint8_t records[RECORDS_ROOM];

    memset(records, 77, sizeof records);
    expect_answer(what, make_read(&a, records, room), number, list, place);
    expect("a refused reading gives out nothing", all_77(records, sizeof records));
}

/* Records that are appended, the first bits of each its number, come back in their order. */
static void test_round_trip(void)
{
    struct append a = behind(0);
    uint8_t sent[RECORDS_ROOM];

    for (uint8_t f = 0; f < 5; f++) {
        uint8_t records[RECORDS_ROOM];
        a.record[0] = f & 1, a.record[1] = f >> 1 & 1, a.record[2] = f >> 2 & 1;
        a.iv[5] = f >> 2 & 1, a.iv[6] = f >> 1 & 1, a.iv[7] = f & 1;
        expect_answer("one more frame", make_append(sallowknot_frames_append, &a), 0, 0, 0);
        memcpy(a.file + a.file_length, a.frame, SALLOWKNOT_FRAME_SIZE);
        a.file_length += SALLOWKNOT_FRAME_SIZE;
        memcpy(sent + SALLOWKNOT_RECORD_BITS * f, a.record, SALLOWKNOT_RECORD_BITS);

        size_t bits = SALLOWKNOT_RECORD_BITS * (size_t)(f + 1);
        memset(records, 77, sizeof records);
        expect_answer("reading", make_read(&a, records, bits + f), 0, 0, 0);
        expect("the records", memcmp(records, sent, bits) == 0);
        expect("the rest of their room is kept", all_77(records + bits, sizeof records - bits));
        expect_unread("a room one too short", a, bits - 1, 8, 3, bits - 1);
    }
}

static void test_reading(void)
{
    struct append a;

    expect_answer("nothing to read", sallowknot_frames_read(behind(0).key, 128, NULL, 0, NULL, 0), 0, 0, 0);
    a = behind(3), a.key_length = 127;
    expect_unread("a short key", a, 192, 3, 1, 127);
    a = behind(3), a.key_length = 0;
    expect_unread("no key", a, 192, 3, 1, 0);
    a = behind(3), a.key_length = 129;
    expect_unread("a long key", a, 192, 3, 1, 129);
    a = behind(3), a.key[127] = 2;
    expect_unread("no bit at the key's end", a, 192, 4, 1, 127);
    a = behind(3), a.file_length = 77;
    expect_unread("a cut file", a, 192, 15, 2, 52);
    a = behind(3), a.file[27] = 0;
    expect_unread("a mark in the middle", a, 192, 15, 2, 26);
    a = behind(3), a.file[54] = 2;
    expect_unread("an IV twice in the file", a, 192, 16, 2, 52);
    expect_unread("no room", behind(3), 0, 8, 3, 0);

    a = behind(3), a.key_length = 1, a.key[0] = 2, a.file[0] = 0;
    expect_unread("3 is before 4, 15 and 8", a, 0, 3, 1, 1);
    a = behind(3), a.key[3] = 2, a.file[0] = 0;
    expect_unread("4 is before 15 and 8", a, 0, 4, 1, 3);
    a = behind(3), a.file[54] = 0;
    expect_unread("16 is before 8", a, 0, 16, 2, 52);
}

static void expect_checked(const char *what, struct append a, uint32_t number, uint64_t place)
{
    uint8_t *file = lend(a.file, a.file_length);

    expect_answer(what, sallowknot_frames_check(file, a.file_length), number, number == 0 ? 0 : 1, place);
    expect("a check keeps the file", file == NULL || memcmp(file, a.file, a.file_length) == 0);
    free(file);
}

static void test_checking(void)
{
    struct append a;

    for (size_t frames = 0; frames <= 5; frames++) {
        expect_checked("frames in order", behind(frames), 0, 0);
    }
    for (size_t cut = 1; cut < 78; cut++) {
        a = behind(3), a.file_length = cut;
        expect_checked("a cut file", a, cut % 26 == 0 ? 0 : 15, cut % 26 == 0 ? 0 : cut - cut % 26);
    }
    for (size_t at = 0; at < 78; at += 26) {
        a = behind(3), a.file[at] = 'T';
        expect_checked("a mark's first letter", a, 15, at);
        a = behind(3), a.file[at + 1] = 'P';
        expect_checked("a mark's second letter", a, 15, at);
    }
    for (size_t byte = 0; byte < 16; byte++) {
        a = behind(2), a.file[2] = 0, a.file[28] = 0, a.file[28 + byte] = 1, memset(a.file + 3 + byte, 255, 15 - byte);
        expect_checked("an IV above in one byte", a, 0, 0);
        a.file[2 + byte] = 1, a.file[28 + byte] = 0;
        expect_checked("an IV below in one byte", a, 16, 26);
    }
    a = behind(3), a.file[28] = 1;
    expect_checked("an IV twice", a, 16, 26);
    a = behind(3), a.file[28] = 0, a.file[0] = 0;
    expect_checked("the first fault of two", a, 15, 0);
    a = behind(3), a.file[28] = 1, a.file[53] = 0;
    expect_checked("16 before a later 15", a, 16, 26);
}

/* ---- the header's helpers */

static void test_helpers(void)
{
    expect_answer("three parts", 4 + 256 * 2 + UINT64_C(65536) * 39, 4, 2, 39);
    expect_answer("the largest parts", UINT64_MAX, 255, 255, SALLOWKNOT_MOST_PLACE);
    expect("the numbers of the rules", SALLOWKNOT_DONE == 0 && SALLOWKNOT_RECORD == 2 && SALLOWKNOT_LENGTH == 3 && SALLOWKNOT_BIT == 4
                                    && SALLOWKNOT_ROOM == 8 && SALLOWKNOT_NETLIST == 9 && SALLOWKNOT_FILE == 12);
    expect("the sizes of the rules", SALLOWKNOT_MOST_BITS == 64 && SALLOWKNOT_KEY_BITS == 128 && SALLOWKNOT_IV_BITS == 128);
    expect("the numbers of frames", SALLOWKNOT_FRAME == 15 && SALLOWKNOT_ORDER == 16);
    expect("the sizes of frames", SALLOWKNOT_FRAME_SIZE == 26 && SALLOWKNOT_RECORD_BITS == 64);
}

int main(void)
{
    test_enciphering();
    test_refusals();
    test_files();
    test_appending(sallowknot_frames_append);
    test_appending(sallowknot_frames_append_after);
    test_append();
    test_append_after();
    test_round_trip();
    test_reading();
    test_checking();
    test_helpers();
    printf("calls: %u passed, %u failed\n", passed, failed);
    return failed == 0 ? 0 : 1;
}
