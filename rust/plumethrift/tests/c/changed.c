/*
 * Receivers whose record and memory are changed at random between their calls, on the streams named
 * as arguments: every call has to return, and nothing may be touched but what is lent. Each part,
 * and the record, ends just before a page that cannot be touched, or begins just after one.
 *
 *   changed ROUNDS SEED FILE..
 */
#define _DEFAULT_SOURCE
#include <stdio.h>
#include <stdlib.h>
#include <string.h>
#include <sys/mman.h>
#include <unistd.h>

#include "plumethrift.h"

static uint64_t state;

/* SplitMix64. */
static uint64_t random_word(void) {
  uint64_t z = state += 0x9E3779B97F4A7C15;
  z = (z ^ z >> 30) * 0xBF58476D1CE4E5B9;
  z = (z ^ z >> 27) * 0x94D049BB133111EB;
  return z ^ z >> 31;
}

static size_t below(size_t limit) {
  return (size_t)(random_word() % limit);
}

/* A number as counts, places and positions are, or any. */
static uint32_t number(void) {
  switch (below(7)) {
  case 0:
    return 0;
  case 1:
    return (uint32_t)below(8);
  case 2:
    return (uint32_t)below(200);
  case 3:
    return (uint32_t)below(20000);
  case 4:
    return (uint32_t)below(140000);
  case 5:
    return UINT32_MAX - (uint32_t)below(3);
  default:
    return (uint32_t)random_word();
  }
}

/* Memory between two pages that cannot be touched: `size` octets at its start, or at its end. */
typedef struct part {
  uint8_t *first, *last;
  size_t size;
} part;

static part new_part(size_t size) {
  const size_t page = (size_t)sysconf(_SC_PAGESIZE);
  const size_t inside = (size + page - 1) / page * page;
  uint8_t *all = (uint8_t *)mmap(NULL, inside + 2 * page, PROT_READ | PROT_WRITE,
                                 MAP_PRIVATE | MAP_ANONYMOUS, -1, 0);
  if (all == MAP_FAILED || mprotect(all, page, PROT_NONE) != 0 ||
      mprotect(all + page + inside, page, PROT_NONE) != 0) {
    perror("memory");
    exit(2);
  }
  const part it = {all + page, all + page + inside - size, size};
  return it;
}

enum { RECORD, HELD, EVENTS, TEXT, WORK, PIECE, PARTS };
enum { MAX_PACKET = 240 };

static part parts[PARTS];
static int at_the_end;

static uint8_t *octets_of(int which) {
  return at_the_end ? parts[which].last : parts[which].first;
}

static uint32_t *cells_of(int which) {
  return (uint32_t *)(void *)octets_of(which);
}

static plumethrift_receiver *receiver(void) {
  return (plumethrift_receiver *)(void *)octets_of(RECORD);
}

static plumethrift_read_reply feed(const uint8_t *octets, size_t size) {
  uint8_t *piece = octets_of(PIECE) + (at_the_end ? MAX_PACKET - size : 0);
  memcpy(piece, octets, size);
  return plumethrift_feed(receiver(), piece, size, octets_of(HELD), PLUMETHRIFT_HELD_OCTETS,
                          cells_of(EVENTS), PLUMETHRIFT_EVENT_CELLS, cells_of(TEXT),
                          PLUMETHRIFT_TEXT_CELLS, cells_of(WORK), PLUMETHRIFT_READER_WORK_CELLS);
}

static plumethrift_read_reply close_receiver(void) {
  return plumethrift_close(receiver(), octets_of(HELD), PLUMETHRIFT_HELD_OCTETS, cells_of(EVENTS),
                           PLUMETHRIFT_EVENT_CELLS, cells_of(TEXT), PLUMETHRIFT_TEXT_CELLS,
                           cells_of(WORK), PLUMETHRIFT_READER_WORK_CELLS);
}

/* Changes four octets of the record, or of what is lent. */
static void change(void) {
  const size_t which = below(8);
  const int part_of = which > WORK ? RECORD : (int)which;
  const uint32_t cell = number();
  const size_t place = below(parts[part_of].size / sizeof cell);
  memcpy(octets_of(part_of) + place * sizeof cell, &cell, sizeof cell);
}

static unsigned long calls, refused;

/*
 * Hands a stream over in pieces, and closes. How often something is changed differs; a receiver
 * that refuses often gets the record back that it had when it went on.
 */
static void receive(const uint8_t *stream, size_t octets) {
  const size_t seldom = 2 + below(30), longest = below(2) ? MAX_PACKET : 8;
  at_the_end = (int)below(2);
  *receiver() = plumethrift_start((plumethrift_settings){.alignment = (uint32_t)below(2)});
  plumethrift_receiver before = *receiver();
  for (size_t at = 0, closed = 0; closed < 3;) {
    size_t size = below(longest + 1);
    if (size > octets - at)
      size = octets - at;
    const int closes = at == octets && below(2) == 0;
    const plumethrift_read_reply reply = closes ? close_receiver() : feed(stream + at, size);
    closed += (size_t)closes;
    at += closes ? 0 : size;
    calls++;
    if (reply.number == PLUMETHRIFT_OK) {
      before = *receiver();
    } else {
      refused++;
      if (below(4) == 0)
        *receiver() = before;
    }
    while (below(seldom) == 0)
      change();
  }
}

int main(int argc, char **argv) {
  static const size_t sizes[PARTS] = {
    sizeof(plumethrift_receiver), PLUMETHRIFT_HELD_OCTETS,           4 * PLUMETHRIFT_EVENT_CELLS,
    4 * PLUMETHRIFT_TEXT_CELLS,   4 * PLUMETHRIFT_READER_WORK_CELLS, MAX_PACKET};
  if (argc < 4)
    return 2;
  const unsigned long rounds = strtoul(argv[1], NULL, 10);
  state = strtoul(argv[2], NULL, 10);
  for (int i = 0; i < PARTS; i++)
    parts[i] = new_part(sizes[i]);
  for (unsigned long round = 0; round < rounds; round++) {
    static uint8_t stream[PLUMETHRIFT_STREAM_OCTETS + 1000];
    FILE *file = fopen(argv[3 + below((size_t)argc - 3)], "rb");
    if (file == NULL)
      return 2;
    const size_t octets = fread(stream, 1, sizeof stream, file);
    fclose(file);
    if (octets > 0 && below(3) == 0)
      stream[below(octets)] ^= (uint8_t)(1u << below(8));
    receive(stream, octets);
  }
  printf("%lu calls, %lu refused\n", calls, refused);
  return 0;
}
