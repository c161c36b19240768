/*
 * Decodes an EXI stream and prints its events.
 *
 *   (cd crates/plumethrift && rt lib)
 *   cc -std=c99 -Wall -Wextra -Werror -Iinclude examples/decode.c \
 *     crates/plumethrift/out/libplumethrift.a -o target/decode
 *   printf '\200\001\002\141\003\003\142\000' | target/decode 1000 -
 *
 * The first argument is at most ten digits, the settings' numbers in the order of the header:
 * alignment (0 bit-packed, 1 byte-aligned), cookie, comments, instructions, fragment (0 no, 1 yes),
 * value length and value capacity (0 unbounded, else the bound and 1), and three that this version
 * refuses; what is left out is 0. The second is a file's name, or - for standard input.
 * Exit status: 0 read, 1 refused, 2 bad usage or no input.
 */
#include <inttypes.h>
#include <stdio.h>
#include <string.h>

#include "plumethrift.h"

/* The stream: one octet more than it may have, so that a longer one is refused and not cut off. */
static uint8_t stream[PLUMETHRIFT_STREAM_OCTETS + 1];

/* Lent to the reader. */
static uint32_t events[PLUMETHRIFT_EVENT_CELLS];
static uint32_t text[PLUMETHRIFT_TEXT_CELLS];
static uint32_t work[PLUMETHRIFT_READER_WORK_CELLS];

/* Each kind's name and its strings, by its number. The reader answers no other kinds. */
static const struct {
  const char *name;
  unsigned count;
  unsigned strings[3];
} kinds[] = {
  [PLUMETHRIFT_START_DOCUMENT] = {"start document", 0, {0}},
  [PLUMETHRIFT_END_DOCUMENT] = {"end document", 0, {0}},
  [PLUMETHRIFT_START_ELEMENT] = {"start element", 2, {PLUMETHRIFT_URI, PLUMETHRIFT_LOCAL_NAME}},
  [PLUMETHRIFT_ATTRIBUTE] = {"attribute", 3,
                             {PLUMETHRIFT_URI, PLUMETHRIFT_LOCAL_NAME, PLUMETHRIFT_VALUE}},
  [PLUMETHRIFT_END_ELEMENT] = {"end element", 0, {0}},
  [PLUMETHRIFT_CHARACTERS] = {"characters", 1, {0}},
  [PLUMETHRIFT_COMMENT] = {"comment", 1, {0}},
  [PLUMETHRIFT_INSTRUCTION] = {"instruction", 2, {0, 1}},
};

/* Prints a string in quotes: printable ASCII as it is, any other code point as \u{hexadecimal}. */
static void print_string(plumethrift_string string) {
  fputs(" \"", stdout);
  for (size_t i = 0; i < string.length; i++) {
    const uint32_t point = string.code_points[i];
    if (point == '"' || point == '\\')
      printf("\\%c", (int)point);
    else if (point >= 32 && point < 127)
      putchar((int)point);
    else
      printf("\\u{%" PRIX32 "}", point);
  }
  putchar('"');
}

/* Prints the event in the nine cells at `event`, indented by `depth`. */
static void print_event(const uint32_t *event, unsigned depth, size_t code_points) {
  printf("%*s%s", (int)(2 * depth), "", kinds[event[0]].name);
  for (unsigned i = 0; i < kinds[event[0]].count; i++)
    print_string(plumethrift_event_string(event, kinds[event[0]].strings[i], text, code_points));
  putchar('\n');
}

/* Takes digits as settings; 0 if they are no such. What they mean is the library's to say. */
static int parse_settings(const char *digits, plumethrift_settings *settings) {
  uint32_t numbers[10] = {0};
  const size_t count = strlen(digits);
  if (count == 0 || count > 10 || strspn(digits, "0123456789") != count)
    return 0;
  for (size_t i = 0; i < count; i++)
    numbers[i] = (uint32_t)(digits[i] - '0');
  *settings = (plumethrift_settings){
    .alignment = numbers[0],
    .cookie = numbers[1],
    .comments = numbers[2],
    .instructions = numbers[3],
    .fragment = numbers[4],
    .value_length = numbers[5],
    .value_capacity = numbers[6],
    .loose = numbers[7],
    .prefixes = numbers[8],
    .grammar_cap = numbers[9],
  };
  return 1;
}

int main(int argc, char **argv) {
  plumethrift_settings settings;
  if (argc != 3 || !parse_settings(argv[1], &settings)) {
    fputs("usage: decode SETTINGS FILE (such as: decode 1000 -)\n", stderr);
    return 2;
  }

  FILE *file = strcmp(argv[2], "-") == 0 ? stdin : fopen(argv[2], "rb");
  if (file == NULL) {
    perror(argv[2]);
    return 2;
  }
  const size_t octets = fread(stream, 1, sizeof stream, file);
  if (ferror(file)) {
    perror(argv[2]);
    return 2;
  }
  fclose(file);

  const plumethrift_read_reply reply = plumethrift_read(
      settings, stream, octets, events, PLUMETHRIFT_EVENT_CELLS, text, PLUMETHRIFT_TEXT_CELLS, work,
      PLUMETHRIFT_READER_WORK_CELLS);
  if (reply.number != PLUMETHRIFT_OK) {
    const plumethrift_name name = plumethrift_refusal_name(reply.number);
    fprintf(stderr, "refused: %" PRIu32 " %s at event %" PRIu32 "\n", reply.number, name.text,
            reply.index);
    return 1;
  }

  /* The list is well-formed: what starts also ends, and depth comes back to 0. */
  unsigned depth = 0;
  for (uint32_t i = 0; i < reply.events; i++) {
    const uint32_t *event = events + (size_t)PLUMETHRIFT_CELLS_PER_EVENT * i;
    if (event[0] == PLUMETHRIFT_END_ELEMENT || event[0] == PLUMETHRIFT_END_DOCUMENT)
      depth--;
    print_event(event, depth, reply.code_points);
    if (event[0] == PLUMETHRIFT_START_ELEMENT || event[0] == PLUMETHRIFT_START_DOCUMENT)
      depth++;
  }
  return 0;
}
