/*
 * Reads an EXI stream from standard input in packets, and says after each how many events are
 * complete, as a gateway does with what a radio hands over.
 *
 *   (cd crates/plumethrift && rt lib)
 *   cc -std=c99 -Wall -Wextra -Werror -Iinclude examples/packets.c \
 *     crates/plumethrift/out/libplumethrift.a -o target/packets
 *   printf '\200\001\002\141\003\003\142\000' | target/packets 3 --byte-aligned
 *
 * The first argument is how many octets a packet has, 1 to 240. The flags after it say how the
 * stream was written: --byte-aligned, --cookie, --comments, --instructions, --fragment,
 * --max-length N, --capacity N. Exit status: 0 read, 1 refused, 2 bad usage or no input.
 */
#include <inttypes.h>
#include <stdio.h>
#include <stdlib.h>
#include <string.h>

#include "plumethrift.h"

#define MAX_PACKET 240

/* Lent to each call, and left alone between them. */
static uint8_t held[PLUMETHRIFT_HELD_OCTETS];
static uint32_t events[PLUMETHRIFT_EVENT_CELLS];
static uint32_t text[PLUMETHRIFT_TEXT_CELLS];
static uint32_t work[PLUMETHRIFT_READER_WORK_CELLS];

static plumethrift_read_reply feed(plumethrift_receiver *receiver, const uint8_t *piece,
                                   size_t octets) {
  return plumethrift_feed(receiver, piece, octets, held, PLUMETHRIFT_HELD_OCTETS, events,
                          PLUMETHRIFT_EVENT_CELLS, text, PLUMETHRIFT_TEXT_CELLS, work,
                          PLUMETHRIFT_READER_WORK_CELLS);
}

static plumethrift_read_reply close_receiver(plumethrift_receiver *receiver) {
  return plumethrift_close(receiver, held, PLUMETHRIFT_HELD_OCTETS, events,
                           PLUMETHRIFT_EVENT_CELLS, text, PLUMETHRIFT_TEXT_CELLS, work,
                           PLUMETHRIFT_READER_WORK_CELLS);
}

/* Says why the stream is refused; the caller says where. */
static void print_refusal(plumethrift_read_reply reply) {
  const plumethrift_name name = plumethrift_refusal_name(reply.number);
  fprintf(stderr, "refused: %" PRIu32 " %s at event %" PRIu32, reply.number, name.text,
          reply.index);
}

/* A number of 1 to 240 in decimal digits; 0 for anything else. */
static size_t packet_size(const char *digits) {
  const size_t count = strlen(digits);
  if (count == 0 || count > 3 || strspn(digits, "0123456789") != count)
    return 0;
  const int size = atoi(digits);
  return size <= MAX_PACKET ? (size_t)size : 0;
}

/* Takes the word after a flag as a bound; answers 0 where it is no number. */
static int take_bound(uint32_t *bound, const char *word) {
  if (word == NULL || word[0] == '\0' || word[strspn(word, "0123456789")] != '\0')
    return 0;
  const unsigned long long number = strtoull(word, NULL, 10);
  *bound = PLUMETHRIFT_BOUND(number < UINT32_MAX ? (uint32_t)number : UINT32_MAX);
  return 1;
}

/* Takes a flag, and the word after it where it is a bound, into the settings; answers how many
 * words it took, 0 where it is no flag. */
static int take_flag(plumethrift_settings *settings, char **words) {
  const char *flag = words[0];
  if (strcmp(flag, "--max-length") == 0)
    return take_bound(&settings->value_length, words[1]) ? 2 : 0;
  if (strcmp(flag, "--capacity") == 0)
    return take_bound(&settings->value_capacity, words[1]) ? 2 : 0;
  if (strcmp(flag, "--byte-aligned") == 0)
    settings->alignment = PLUMETHRIFT_BYTE_ALIGNED;
  else if (strcmp(flag, "--cookie") == 0)
    settings->cookie = 1;
  else if (strcmp(flag, "--comments") == 0)
    settings->comments = 1;
  else if (strcmp(flag, "--instructions") == 0)
    settings->instructions = 1;
  else if (strcmp(flag, "--fragment") == 0)
    settings->fragment = 1;
  else
    return 0;
  return 1;
}

/* Takes the flags from the third word on; answers 0 where one of them is none. */
static int take_flags(plumethrift_settings *settings, int argc, char **argv) {
  for (int i = 2, took; i < argc; i += took) {
    took = take_flag(settings, argv + i);
    if (took == 0)
      return 0;
  }
  return 1;
}

int main(int argc, char **argv) {
  const size_t size = argc > 1 ? packet_size(argv[1]) : 0;
  plumethrift_settings settings = {0};
  if (size == 0 || !take_flags(&settings, argc, argv)) {
    fputs("usage: packets OCTETS [--byte-aligned] [--cookie] [--comments] [--instructions] "
          "[--fragment] [--max-length N] [--capacity N] (OCTETS from 1 to 240)\n", stderr);
    return 2;
  }

  plumethrift_receiver receiver = plumethrift_start(settings);
  uint8_t packet[MAX_PACKET];
  unsigned long packets = 0;
  for (size_t octets; (octets = fread(packet, 1, size, stdin)) > 0;) {
    const plumethrift_read_reply reply = feed(&receiver, packet, octets);
    packets++;
    if (reply.number != PLUMETHRIFT_OK) {
      print_refusal(reply);
      fprintf(stderr, ", in packet %lu\n", packets);
      return 1;
    }
    printf("packet %lu, %zu octets: %" PRIu32 " events complete\n", packets, octets, reply.events);
  }
  if (ferror(stdin)) {
    perror("standard input");
    return 2;
  }

  const plumethrift_read_reply reply = close_receiver(&receiver);
  if (reply.number != PLUMETHRIFT_OK) {
    print_refusal(reply);
    fputs(", at the close\n", stderr);
    return 1;
  }
  printf("closed: %" PRIu32 " events, %" PRIu32 " code points\n", reply.events, reply.code_points);
  return 0;
}
