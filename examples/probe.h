/*
 * Calls of target/native/libprobe.a, which has every call of the library, for the demonstration and for tests. What the
 * scoring daemon calls is in include/sallowknot.h.
 *
 * A bit is one byte, 0 or 1. A list goes over as its first place and its length. A list that is not const is a room: a call
 * that is done fills its front and keeps the rest.
 */
#ifndef PROBE_H
#define PROBE_H

#include <stddef.h>
#include <stdint.h>

enum { FILIP_144 = 5, KREYVIUM = 6, INSTANCES = 6, LARGEST_KEY = 16384, LARGEST_ROW = 1394, IV_BITS = 128 };

/* A port record, and the frame in which a collector keeps it. */
enum { RECORD_BITS = 64, FRAME_SIZE = 26 };

/* Instance i is instances[i - 1]. Kreyvium has no rows. */
static const struct {
    const char *name;
    uint32_t key, row;
} instances[INSTANCES] = {
    {"FLIP-530", 530, 530},      {"FLIP-1394", 1394, 1394}, {"FiLIP-1216", 16384, 1216},
    {"FiLIP-1280", 4096, 1280}, {"FiLIP-144", 16384, 144}, {"Kreyvium", 128, 0},
};

/* A netlist is a list of words: inputs, gates, outputs; kind, a, b, c for each gate; a wire for each output. */
enum { NOT = 2, AND = 4 };
enum { MOST_GATES = 262144, MOST_WIRES = 32768 + MOST_GATES, MOST_WORDS = 3 + 4 * MOST_GATES + 4096 };

static inline size_t words_of(const uint32_t *net)
{
    return 3 + 4 * (size_t)net[1] + net[2];
}

/* An answer: all 0 if the call is done, else what is wrong, in which list and where. */
struct reply {
    uint32_t number, list;
    size_t place;
};

struct metering {
    uint32_t number, list;
    size_t place;
    uint32_t depth, multiplications;
};

/* The AND and the MUX gates of one depth. */
struct level {
    uint32_t ands, muxes;
};

struct reply probe_evaluate(const uint32_t *net, size_t words, const uint8_t *inputs, size_t bits, uint8_t *values,
                            size_t wires, uint8_t *outputs, size_t room);

/* What is returned goes through a pointer that is passed first: the rule of x86-64 for a struct of this size, written out
 * so that it is the same on other processors. */
struct metering *probe_meter(struct metering *returned, const uint32_t *net, size_t words, uint32_t *depths, size_t wires,
                             struct level *levels, size_t room);

struct reply probe_choose(uint32_t instance, const uint32_t *draws, size_t count, uint32_t *row, size_t room);

struct reply probe_keystream(uint32_t instance, uint32_t m, const uint8_t *key, size_t keys, const uint32_t *indices,
                             size_t places, const uint8_t *whitening, size_t whites, uint8_t *result, size_t room);

typedef struct reply cipher_call(uint32_t instance, uint32_t m, const uint8_t *key, size_t keys, const uint8_t *record,
                                 size_t bits, const uint32_t *indices, size_t places, const uint8_t *whitening,
                                 size_t whites, uint8_t *result, size_t room);
cipher_call probe_encipher, probe_decipher;

/* A frame for a record, to stand behind a file or behind its last frame. */
typedef struct reply append_call(const uint8_t *key, size_t key_bits, const uint8_t *record, size_t record_bits,
                                 const uint8_t *iv, size_t iv_bits, const uint8_t *file, size_t file_bytes, uint8_t *frame,
                                 size_t room);
append_call probe_append, probe_append_after;

struct reply probe_read_frames(const uint8_t *key, size_t key_bits, const uint8_t *file, size_t file_bytes, uint8_t *records,
                               size_t room);

struct reply probe_emit_decipher(uint32_t instance, uint32_t m, const uint32_t *indices, size_t places,
                                 const uint8_t *whitening, size_t whites, uint32_t *net, size_t words);

struct reply probe_score(uint32_t instance, uint32_t m, const uint8_t *key, size_t keys, const uint8_t *record, size_t bits,
                         const uint32_t *indices, size_t places, const uint8_t *whitening, size_t whites,
                         const uint32_t *scoring, size_t scoring_words, uint8_t *enciphered, size_t enciphered_room,
                         uint32_t *deciphering, size_t deciphering_room, uint32_t *glued, size_t glued_room,
                         uint8_t *inputs, size_t inputs_room, uint8_t *wires, size_t wires_room, uint8_t *scores,
                         size_t scores_room);

#endif
