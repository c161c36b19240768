/*
 * Prints the readings of an EXI stream as CSV, a line each: the stamp as it stands in the stream,
 * in milliseconds since 2000-01-01T00:00:00.000Z, and the movement in micrometres.
 *
 *   (cd crates/plumethrift && rt lib)
 *   cc -std=c99 -Wall -Wextra -Werror -Iinclude examples/readings.c \
 *     crates/plumethrift/out/libplumethrift.a -o target/readings
 *   target/readings samples/day-bit-packed.exi
 *
 * The stream is bit-packed; with a second argument `--byte-aligned` it is not. Exit status: 0 read,
 * 1 refused, 2 bad usage or no input.
 */
#include <inttypes.h>
#include <stdio.h>
#include <string.h>

#include "plumethrift.h"

/* The stream: one octet more than it may have, so that a longer one is refused and not cut off. */
static uint8_t stream[PLUMETHRIFT_STREAM_OCTETS + 1];

/* Lent for the readings, and for the list that they are taken from. */
static uint64_t stamps[PLUMETHRIFT_MAX_READINGS];
static int32_t movements[PLUMETHRIFT_MAX_READINGS];
static uint32_t events[PLUMETHRIFT_EVENT_CELLS];
static uint32_t text[PLUMETHRIFT_TEXT_CELLS];
static uint32_t work[PLUMETHRIFT_READER_WORK_CELLS];

/*
 * Prints the stamp of reading `i` from the list that the call has left: start document, start
 * element `readings`, then for each reading start element `r`, attributes `t` and `um`, end
 * element.
 */
static void print_stamp(uint32_t i) {
  const uint32_t *t = events + (size_t)PLUMETHRIFT_CELLS_PER_EVENT * (2 + 4 * i + 1);
  const plumethrift_string stamp =
      plumethrift_event_string(t, PLUMETHRIFT_VALUE, text, PLUMETHRIFT_TEXT_CELLS);
  for (size_t k = 0; k < stamp.length; k++)
    putchar((int)stamp.code_points[k]);
}

int main(int argc, char **argv) {
  plumethrift_settings settings = {.alignment = PLUMETHRIFT_BIT_PACKED};
  if (argc == 3 && strcmp(argv[2], "--byte-aligned") == 0) {
    settings.alignment = PLUMETHRIFT_BYTE_ALIGNED;
  } else if (argc != 2) {
    fputs("usage: readings FILE [--byte-aligned]\n", stderr);
    return 2;
  }

  FILE *file = fopen(argv[1], "rb");
  if (file == NULL) {
    perror(argv[1]);
    return 2;
  }
  const size_t octets = fread(stream, 1, sizeof stream, file);
  if (ferror(file)) {
    perror(argv[1]);
    return 2;
  }
  fclose(file);

  const plumethrift_readings_reply reply = plumethrift_read_readings(
      settings, stream, octets, stamps, PLUMETHRIFT_MAX_READINGS, movements,
      PLUMETHRIFT_MAX_READINGS, events, PLUMETHRIFT_EVENT_CELLS, text, PLUMETHRIFT_TEXT_CELLS, work,
      PLUMETHRIFT_READER_WORK_CELLS);
  if (reply.number != PLUMETHRIFT_OK) {
    const plumethrift_name name = plumethrift_refusal_name(reply.number);
    fprintf(stderr, "refused: %" PRIu32 " %s at %s %" PRIu32 "\n", reply.number, name.text,
            reply.number < PLUMETHRIFT_STRUCTURE ? "event" : "reading", reply.index);
    return 1;
  }

  puts("t,ms,um");
  for (uint32_t i = 0; i < reply.readings; i++) {
    print_stamp(i);
    printf(",%" PRIu64 ",%" PRId32 "\n", stamps[i], movements[i]);
  }
  return 0;
}
