/*
 * The whole path of a port record, scored twice. A switch enciphers the record. The service has the netlist that deciphers
 * it, glues a scoring netlist behind that one and evaluates both as one on the key and the enciphered record. In the service
 * this happens under homomorphic encryption, on bits that nobody there can read; here it happens on bits in the clear, beside
 * the scores of the plain record. With Kreyvium the record's frame is shown too, as a collector's file would begin with it.
 *
 *     port [PORT ADMIN-UP LINK-UP ERRORS LOAD]
 *
 * Exit status: 0 all was accepted, 1 something was refused, 2 the arguments are no port record.
 */
#include "probe.h"

#include <errno.h>
#include <inttypes.h>
#include <stdbool.h>
#include <stdio.h>
#include <stdlib.h>

enum { ACCEPTED = 0, REFUSED = 1, NO_RECORD = 2 };

/* ---- the record */

enum { FIELDS = 5 };

/* The fields in their order, each high bit first. The sample is a dead uplink. */
static struct {
    const char *name;
    uint32_t bits, value;
} fields[FIELDS] = {
    {"port", 16, 4711}, {"admin up", 1, 1}, {"link up", 1, 0}, {"errors", 22, 70000}, {"load", 24, 0},
};

static uint8_t record[RECORD_BITS];

static bool read_fields(char **arguments)
{
    for (int f = 0; f < FIELDS; f++) {
        char *end;
        errno = 0;
        unsigned long value = strtoul(arguments[f], &end, 10);
        bool number = arguments[f][0] >= '0' && arguments[f][0] <= '9' && *end == '\0' && errno == 0;
        if (!number || value >> fields[f].bits != 0) {
            fprintf(stderr, "%s: not a number of %" PRIu32 " bits: %s\n", fields[f].name, fields[f].bits, arguments[f]);
            return false;
        }
        fields[f].value = (uint32_t)value;
    }
    return true;
}

static void print_bits(const uint8_t *bits, size_t count)
{
    for (size_t i = 0; i < count; i++) {
        putchar(bits[i] == 0 ? '0' : '1');
    }
    putchar('\n');
}

/* Packs the record, and shows each field with its bits. */
static void show_record(void)
{
    uint8_t *next = record;

    printf("A port record of %d bits\n", RECORD_BITS);
    for (int f = 0; f < FIELDS; f++) {
        uint8_t *first = next;
        for (uint32_t bit = fields[f].bits; bit > 0; bit--) {
            *next++ = fields[f].value >> (bit - 1) & 1;
        }
        printf("  %-12s%9" PRIu32 "   ", fields[f].name, fields[f].value);
        print_bits(first, fields[f].bits);
    }
}

/* ---- the scoring netlist */

enum { ADMIN_UP = 16, LINK_UP = 17, ERRORS = 18, LOAD = 40, SCORES = 4 };

static const char *const score_names[SCORES] = {
    "dead uplink: admin up, link down",
    "parked: admin down",
    "many errors: 4096 or more",
    "heavy load: 8388608 or more",
};

/* Wires 0 to 63 are the record's bits. Many errors are 4,096 or more: one of the 10 high bits is 1, so that not all their
 * NOTs are. A load is heavy if its high bit is 1. */
static const uint32_t scoring[] = {
    RECORD_BITS, 23, SCORES,
    NOT, LINK_UP, 0, 0,     /* 64: link down */
    AND, ADMIN_UP, 64, 0,   /* 65: dead uplink */
    NOT, ADMIN_UP, 0, 0,    /* 66: parked */
    NOT, ERRORS, 0, 0,      /* 67 */
    NOT, ERRORS + 1, 0, 0,  /* 68 */
    NOT, ERRORS + 2, 0, 0,  /* 69 */
    NOT, ERRORS + 3, 0, 0,  /* 70 */
    NOT, ERRORS + 4, 0, 0,  /* 71 */
    NOT, ERRORS + 5, 0, 0,  /* 72 */
    NOT, ERRORS + 6, 0, 0,  /* 73 */
    NOT, ERRORS + 7, 0, 0,  /* 74 */
    NOT, ERRORS + 8, 0, 0,  /* 75 */
    NOT, ERRORS + 9, 0, 0,  /* 76 */
    AND, 67, 68, 0,         /* 77 */
    AND, 77, 69, 0,         /* 78 */
    AND, 78, 70, 0,         /* 79 */
    AND, 79, 71, 0,         /* 80 */
    AND, 80, 72, 0,         /* 81 */
    AND, 81, 73, 0,         /* 82 */
    AND, 82, 74, 0,         /* 83 */
    AND, 83, 75, 0,         /* 84 */
    AND, 84, 76, 0,         /* 85: few errors */
    NOT, 85, 0, 0,          /* 86: many errors */
    65, 66, 86, LOAD,       /* the scores, in the order of their names */
};
static const size_t scoring_words = sizeof scoring / sizeof scoring[0];

/* ---- answers in words */

/* The numbers that the calls below can answer. */
static const char *const refusals[] = {
    [1] = "there is no such instance",
    [2] = "a record has 1 to 64 bits",
    [3] = "the length is wrong",
    [4] = "a bit is 0 or 1",
    [5] = "there is no such key bit",
    [6] = "an index stands twice in its row",
    [7] = "FLIP's whitening is 0",
    [8] = "the room is too short",
    [9] = "a rule for netlists is broken",
    [10] = "the scoring netlist takes another number of bits",
    [11] = "there are too many gates",
    [14] = "a draw leads beyond the key",
    [15] = "a frame's mark is wrong, or it is cut",
    [16] = "the IV is not above the one before",
};

/* The lists of each call, as its answer counts them. */
static const char *const choose_lists[] = {"", "draws", "row"};
static const char *const evaluate_lists[] = {"", "scoring netlist", "record", "wires", "scores"};
static const char *const meter_lists[] = {"", "netlist", "depths", "levels"};
static const char *const append_lists[] = {"", "key", "record", "IV", "file", "frame"};
static const char *const score_lists[] = {
    "", "key", "record", "indices", "whitening or IV", "scoring netlist", "enciphered record", "deciphering netlist",
    "glued netlist", "inputs", "wires", "scores",
};

static bool done(const char *call, const char *const *lists, uint32_t number, uint32_t list, size_t place)
{
    if (number == 0) {
        return true;
    }
    printf("%s refused with %" PRIu32 ": %s", call, number, refusals[number]);
    if (list != 0) {
        printf(" (%s, %zu)", lists[list], place);
    }
    putchar('\n');
    return false;
}

/* ---- samples */

/* A fixed generator (splitmix64). Its numbers are the same in every run: they are samples, and no random numbers. */
static uint64_t state;

static uint64_t draw(void)
{
    state += UINT64_C(0x9E3779B97F4A7C15);
    uint64_t z = state;
    z = (z ^ z >> 30) * UINT64_C(0xBF58476D1CE4E5B9);
    z = (z ^ z >> 27) * UINT64_C(0x94D049BB133111EB);
    return z ^ z >> 31;
}

static void draw_bits(uint8_t *bits, size_t count)
{
    for (size_t i = 0; i < count; i++) {
        bits[i] = (uint8_t)(draw() >> 63);
    }
}

/* What switch and service share: key, rows, and whitening or IV. */
static uint8_t key[LARGEST_KEY], whitening[RECORD_BITS * LARGEST_ROW];
static uint32_t indices[RECORD_BITS * LARGEST_ROW];

static bool make_samples(uint32_t instance)
{
    uint32_t keys = instances[instance - 1].key, row = instances[instance - 1].row;

    state = instance;
    draw_bits(key, keys);
    for (uint32_t r = 0; row > 0 && r < RECORD_BITS; r++) {
        uint32_t draws[LARGEST_ROW];
        for (uint32_t i = 0; i < row; i++) {
            draws[i] = (uint32_t)(draw() % (keys - i));
        }
        struct reply chosen = probe_choose(instance, draws, row, indices + r * row, row);
        if (!done("choose", choose_lists, chosen.number, chosen.list, chosen.place)) {
            return false;
        }
    }
    draw_bits(whitening, instance == KREYVIUM ? IV_BITS : RECORD_BITS * row);
    return true;
}

/* ---- the path */

static uint8_t enciphered[RECORD_BITS], inputs[LARGEST_KEY + RECORD_BITS], wires[MOST_WIRES];
static uint8_t plain_scores[SCORES], scores[SCORES];
static uint32_t deciphering[MOST_WORDS], glued[MOST_WORDS], depths[MOST_WIRES];
static struct level levels[MOST_GATES + 1];

static bool show_costs(const char *name, const uint32_t *net)
{
    struct metering m;

    probe_meter(&m, net, words_of(net), depths, MOST_WIRES, levels, MOST_GATES + 1);
    if (!done("meter", meter_lists, m.number, m.list, m.place)) {
        return false;
    }
    printf("  %-32s%8" PRIu32 "%8" PRIu32 "%19" PRIu32 "\n", name, net[1], m.depth, m.multiplications);
    return true;
}

/* The first frame of a file: mark, IV and enciphered record. */
static bool show_frame(void)
{
    static const int starts[] = {0, 2, 18, FRAME_SIZE};
    uint8_t frame[FRAME_SIZE];

    struct reply made = probe_append(key, instances[KREYVIUM - 1].key, record, RECORD_BITS, whitening, IV_BITS, NULL, 0, frame,
                                     FRAME_SIZE);
    if (!done("append", append_lists, made.number, made.list, made.place)) {
        return false;
    }
    printf("  frame       ");
    for (int part = 0; part < 3; part++) {
        putchar(' ');
        for (int i = starts[part]; i < starts[part + 1]; i++) {
            printf("%02X", frame[i]);
        }
    }
    putchar('\n');
    return true;
}

static bool show_path(uint32_t instance)
{
    size_t places = RECORD_BITS * (size_t)instances[instance - 1].row;
    size_t whites = instance == KREYVIUM ? IV_BITS : places;

    printf("\n%s\n", instances[instance - 1].name);
    if (!make_samples(instance)) {
        return false;
    }
    struct reply plain = probe_evaluate(scoring, scoring_words, record, RECORD_BITS, wires, MOST_WIRES, plain_scores, SCORES);
    if (!done("evaluate", evaluate_lists, plain.number, plain.list, plain.place)) {
        return false;
    }
    struct reply scored = probe_score(instance, RECORD_BITS, key, instances[instance - 1].key, record, RECORD_BITS, indices,
                                      places, whitening, whites, scoring, scoring_words, enciphered, RECORD_BITS, deciphering,
                                      MOST_WORDS, glued, MOST_WORDS, inputs, sizeof inputs, wires, MOST_WIRES, scores,
                                      SCORES);
    if (!done("score", score_lists, scored.number, scored.list, scored.place)) {
        return false;
    }

    printf("  record       ");
    print_bits(record, RECORD_BITS);
    printf("  enciphered   ");
    print_bits(enciphered, RECORD_BITS);
    if (instance == KREYVIUM && !show_frame()) {
        return false;
    }
    printf("\n  %-32s%8s%8s%19s\n", "netlist", "gates", "depth", "multiplications");
    if (!show_costs("deciphering", deciphering) || !show_costs("deciphering, then scoring", glued)) {
        return false;
    }
    printf("\n  %-32s%15s%20s\n", "score", "plain record", "enciphered record");
    for (int s = 0; s < SCORES; s++) {
        printf("  %-32s%15d%20d\n", score_names[s], plain_scores[s], scores[s]);
    }
    return true;
}

int main(int argc, char **argv)
{
    if (argc != 1 && argc != 1 + FIELDS) {
        fprintf(stderr, "usage: port [PORT ADMIN-UP LINK-UP ERRORS LOAD]\n");
        return NO_RECORD;
    }
    if (argc > 1 && !read_fields(argv + 1)) {
        return NO_RECORD;
    }
    show_record();
    if (!show_path(KREYVIUM) || !show_path(FILIP_144)) {
        return REFUSED;
    }
    printf("\nKeys, IV, draws and whitening are samples from a fixed generator, no random numbers.\n");
    return ACCEPTED;
}
