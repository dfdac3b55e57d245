/*
 * Sallowknot for C and C++: Kreyvium enciphering and the check of netlist files for the scoring daemon, and files of port
 * records in frames for collectors.
 *
 * A call judges all that it is lent, changes nothing on a refusal, and answers with one number that holds three: what is
 * wrong, in which of the call's lists, and where in that list. sallowknot_number, sallowknot_list and sallowknot_place take
 * it apart. An answer of 0 is done, and it alone.
 *
 * A list is a pointer to its first byte and its length. The pointer must be valid for that many bytes; where the length is 0
 * it is not looked at and may be null. Lists that are only read may overlap each other, and none may overlap the result. A
 * bit is one byte, 0 or 1.
 *
 * A call keeps nothing and allocates nothing, so calls may run in many threads at once, as long as no other thread writes a
 * list that is lent or reads its result meanwhile.
 */
#ifndef SALLOWKNOT_H
#define SALLOWKNOT_H

#include <stddef.h>
#include <stdint.h>

#if SIZE_MAX != UINT64_MAX
#error "sallowknot: lengths are 64 bits wide"
#endif

#ifdef __cplusplus
extern "C" {
#endif

typedef uint64_t sallowknot_answer;

/* The numbers that these calls give. Of several that are due the lowest is given, then the lower list, then the lower place;
 * files of netlists and of frames are judged in orders of their own, and 15 and 16 come before 8. */
enum sallowknot_numbers {
    SALLOWKNOT_DONE = 0,
    SALLOWKNOT_RECORD = 2,  /* m is not 1 to 64: no list, place 0 */
    SALLOWKNOT_LENGTH = 3,  /* a list is too long or too short: its place is its length */
    SALLOWKNOT_BIT = 4,     /* a byte is above 1: the place of the first */
    SALLOWKNOT_ROOM = 8,    /* the result is too short: its place is its length */
    SALLOWKNOT_NETLIST = 9, /* a netlist's rule is broken: the place of the word */
    SALLOWKNOT_FILE = 12,   /* a mark is wrong, a record is cut, or bytes are left over: where that record or the rest begins */
    SALLOWKNOT_FRAME = 15,  /* a frame's mark is wrong, or the frame is cut: where it begins */
    SALLOWKNOT_ORDER = 16   /* a frame's IV is not above the one before: where it begins; for a new frame the file's length */
};

#define SALLOWKNOT_MOST_BITS 64
#define SALLOWKNOT_KEY_BITS 128
#define SALLOWKNOT_IV_BITS 128
#define SALLOWKNOT_RECORD_BITS 64
#define SALLOWKNOT_FRAME_SIZE 26

/* A place from here up is given as this one. */
#define SALLOWKNOT_MOST_PLACE UINT64_C(281474976710655)

static inline uint32_t sallowknot_number(sallowknot_answer answer)
{
    return (uint32_t)(answer & 255);
}

/* Counted from 1 in the order in which the call takes its lists; 0 where it is about none. */
static inline uint32_t sallowknot_list(sallowknot_answer answer)
{
    return (uint32_t)(answer >> 8 & 255);
}

/* Counted from 0. */
static inline uint64_t sallowknot_place(sallowknot_answer answer)
{
    return answer >> 16;
}

/*
 * Enciphers a record of m bits, 1 to 64: each of its bits is added, modulo 2, to the bit of Kreyvium's keystream at its
 * place. The same call with the same key and IV deciphers.
 *
 * Lists: 1 the key, 128 bits; 2 the record, m bits; 3 the IV, 128 bits; 4 the result, m places or more.
 *
 * Done: the first m places of the result hold the enciphered bits, and the others are what they were.
 * Refused, and nothing is changed: 2 if m is not 1 to 64; 3 if list 1, 2 or 3 has another length; 4 if one of them has a byte
 * above 1; 8 if the result has fewer than m places.
 *
 * An IV is used once under a key: two records under one keystream show their sum to anyone.
 */
sallowknot_answer sallowknot_kreyvium_encipher(uint32_t m,
                                               const uint8_t *key, size_t key_length,
                                               const uint8_t *record, size_t record_length,
                                               const uint8_t *iv, size_t iv_length,
                                               uint8_t *result, size_t result_length);

/*
 * Checks that a netlist file can be read. List: 1 the bytes of the file.
 *
 * Done: the file is a header, as many gates and outputs as it says, and nothing more, and they are a netlist.
 * Refused, in this order: 12 at byte 0 for the header's record; 9 for its counts; 12 for the first record that is wrong or
 * cut, or for bytes left over, at the byte where it or they begin; 9 for kinds, operands and outputs. The place of 9 counts
 * the netlist's words: 0 to 2 are the counts of inputs, gates and outputs, 3 + 4g to 6 + 4g are gate g's kind and operands,
 * and the outputs come after the gates.
 */
sallowknot_answer sallowknot_check_file(const uint8_t *source, size_t source_length);

/*
 * Files of frames. A frame is 26 bytes: the mark "PT", 16 bytes of IV, and 8 bytes of a port record enciphered with Kreyvium,
 * bit 0 of IV and record at the high end of their first byte. In one file the IVs, read as numbers high byte first, rise
 * strictly, so that none serves twice. An empty file is good. The port record's bits are, high bit first, port 16, admin up 1,
 * link up 1, errors 22 and load 24; no call judges what they say.
 *
 * A file is judged frame by frame, in each 15 and then 16, and the first fault is given with the byte where its frame begins.
 * Nothing in a frame tells with which key it was made, or that its record was not changed since.
 */

/*
 * Makes the frame of one more record, for the caller to put at the file's end. The file is lent as it is so far, and is not
 * written.
 *
 * Lists: 1 the key, 128 bits; 2 the record, 64 bits; 3 the IV, 128 bits; 4 the bytes of the file; 5 the frame, 26 places or
 * more.
 *
 * Done: the first 26 places of list 5 hold the frame, and the others are what they were. The file with these bytes behind it
 * is one that sallowknot_frames_read accepts; with this key it gives the records that it gave before and then this one.
 * Refused, and nothing is changed, in this order: 3 if list 1, 2 or 3 has another length; 4 if one of them has a byte above 1;
 * 15 and 16 for the file, list 4; 16 if the IV is not above the file's last, list 4, at the file's length; 8 if list 5 has
 * fewer than 26 places.
 *
 * The IVs are kept apart within one file. Under one key each file must have IVs of its own, and two programs that append to
 * one file must keep each other out from the reading of the file to the writing of the frame.
 */
sallowknot_answer sallowknot_frames_append(const uint8_t *key, size_t key_length,
                                           const uint8_t *record, size_t record_length,
                                           const uint8_t *iv, size_t iv_length,
                                           const uint8_t *file, size_t file_length,
                                           uint8_t *frame, size_t frame_length);

/*
 * The same from the file's last frame alone, in a time that does not grow with the file.
 *
 * The rest of the file is not judged here: the caller must have judged it. That is so where sallowknot_frames_check or
 * sallowknot_frames_read accepted the file, or it was empty, and since then the caller alone has appended to it, and only
 * frames that these calls made. A file that nobody judged may be one that cannot be read, or hold this IV already, and what
 * this call answers says nothing of it.
 *
 * Lists: 1 the key, 128 bits; 2 the record, 64 bits; 3 the IV, 128 bits; 4 the file's last frame, 26 bytes, or nothing where
 * the file is empty; 5 the frame, 26 places or more.
 *
 * Done: list 5 is as sallowknot_frames_append leaves it for that file.
 * Refused, and nothing is changed, in this order: 3 if list 1, 2 or 3 has another length, or list 4 is neither empty nor 26
 * bytes; 4 if list 1, 2 or 3 has a byte above 1; 15 at place 0 of list 4 if its mark is wrong; 16 at place 26 of list 4 if the
 * new IV is not above the one in it; 8 if list 5 has fewer than 26 places.
 */
sallowknot_answer sallowknot_frames_append_after(const uint8_t *key, size_t key_length,
                                                 const uint8_t *record, size_t record_length,
                                                 const uint8_t *iv, size_t iv_length,
                                                 const uint8_t *last, size_t last_length,
                                                 uint8_t *frame, size_t frame_length);

/*
 * Reads every record of a file. The whole file is judged before any record is given out.
 *
 * Lists: 1 the key, 128 bits; 2 the bytes of the file; 3 the records, 64 places or more for each 26 bytes of the file.
 *
 * Done: the front of list 3 holds the records, 64 bits for each frame, end to end in file order, and the rest is what it was.
 * Refused, and nothing is changed, in this order: 3 if the key has another length; 4 if it has a byte above 1; 15 and 16 for
 * the file; 8 if list 3 has too few places.
 */
sallowknot_answer sallowknot_frames_read(const uint8_t *key, size_t key_length,
                                         const uint8_t *file, size_t file_length,
                                         uint8_t *records, size_t records_length);

/*
 * Checks that a file of frames can be read, for those who hold no key. List: 1 the bytes of the file.
 *
 * Done: every frame is whole and has its mark, and the IVs rise. Refused: 15 and 16.
 */
sallowknot_answer sallowknot_frames_check(const uint8_t *file, size_t file_length);

#ifdef __cplusplus
}
#endif

#endif
