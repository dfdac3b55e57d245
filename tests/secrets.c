// Cipher calls and calls on frames, on a key and a record whose low bits valgrind's memcheck holds for undefined: it reports each
// jump and each address that depends on one of them. tests/secrets runs this and compares the reports.
//
//   secrets judged   every call is refused for want of room, which is judged last
//   secrets whole    every call is accepted
//   secrets leaky    as judged, and then a jump on a key bit
#include "../examples/probe.h"

#include <stdio.h>
#include <string.h>
#include <valgrind/memcheck.h>

enum { ROWS = 3 };

static uint8_t key[LARGEST_KEY], record[ROWS], whitening[ROWS * LARGEST_ROW], result[ROWS];
static uint32_t indices[ROWS * LARGEST_ROW];

static void hide_low_bits(const uint8_t *bytes, size_t length) {
  static uint8_t low[LARGEST_KEY];
  memset(low, 1, sizeof low);
  if (RUNNING_ON_VALGRIND && VALGRIND_SET_VBITS(bytes, low, length) != 1)
    puts("the low bits could not be hidden");
}

static void tell(const char *call, uint32_t instance, struct reply r) {
  VALGRIND_MAKE_MEM_DEFINED(&r, sizeof r);
  printf("%s %u: %u %u %zu\n", call, instance, r.number, r.list, r.place);
}

static void calls(uint32_t instance, size_t room) {
  uint32_t keys = instances[instance - 1].key, row = instances[instance - 1].row;
  size_t places = ROWS * row, whites = row ? places : IV_BITS;
  for (size_t j = 0; j < keys; j++)
    key[j] = (j * j / 5) % 2;
  for (size_t j = 0; j < ROWS; j++)
    record[j] = j % 2;
  for (size_t j = 0; j < places; j++)
    indices[j] = (j / row + j) % row;
  hide_low_bits(key, keys);
  hide_low_bits(record, ROWS);
  tell("keystream", instance,
       probe_keystream(instance, ROWS, key, keys, indices, places, whitening, whites, result, room));
  tell("encipher", instance,
       probe_encipher(instance, ROWS, key, keys, record, ROWS, indices, places, whitening, whites, result, room));
  tell("decipher", instance,
       probe_decipher(instance, ROWS, key, keys, record, ROWS, indices, places, whitening, whites, result, room));
}

// Frames: a record appended to an empty file and behind a last frame, and a file of one frame read.
static void frame_calls(int room) {
  static uint8_t bits[RECORD_BITS], iv[IV_BITS] = {1}, frame[FRAME_SIZE], records[RECORD_BITS];
  static const uint8_t file[FRAME_SIZE] = "PT";
  size_t keys = instances[KREYVIUM - 1].key, frame_room = room ? FRAME_SIZE : 0, record_room = room ? RECORD_BITS : 0;
  hide_low_bits(key, keys);
  hide_low_bits(bits, RECORD_BITS);
  tell("append", KREYVIUM, probe_append(key, keys, bits, RECORD_BITS, iv, IV_BITS, NULL, 0, frame, frame_room));
  tell("append after", KREYVIUM,
       probe_append_after(key, keys, bits, RECORD_BITS, iv, IV_BITS, file, FRAME_SIZE, frame, frame_room));
  tell("read", KREYVIUM, probe_read_frames(key, keys, file, FRAME_SIZE, records, record_room));
}

int main(int argc, char **argv) {
  const char *mode = argc == 2 ? argv[1] : "";
  int whole = strcmp(mode, "whole") == 0, leaky = strcmp(mode, "leaky") == 0;
  if (!whole && !leaky && strcmp(mode, "judged") != 0)
    return 2;
  for (uint32_t instance = 1; instance <= INSTANCES; instance++)
    calls(instance, whole ? ROWS : 0);
  frame_calls(whole);
  if (leaky && *(volatile uint8_t *)key)
    puts("the first key bit is 1");
  return 0;
}
