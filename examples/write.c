/*
 * Writes the lines of standard input as an EXI stream: an element `lines` with a child `line` for
 * each, numbered by the attribute `n`.
 *
 *   (cd crates/plumethrift && rt lib)
 *   cc -std=c99 -Wall -Wextra -Werror -Iinclude examples/write.c \
 *     crates/plumethrift/out/libplumethrift.a -o target/write
 *   printf 'eins\nzwei\n' | target/write --byte-aligned >target/lines.exi
 *
 * Lines are UTF-8 of up to 4,095 octets. The flags are --byte-aligned, --cookie, --comments,
 * --instructions, --fragment, --max-length N and --capacity N, as the reader has to be given them,
 * too; in a fragment the lines have no element around them.
 * Exit status: 0 written, 1 refused, 2 bad usage, or no input or output.
 */
#include <inttypes.h>
#include <stdio.h>
#include <stdlib.h>
#include <string.h>

#include "plumethrift_list.h"

static uint32_t events[PLUMETHRIFT_EVENT_CELLS];
static uint32_t text[PLUMETHRIFT_TEXT_CELLS];

/* Lent to the writer. */
static uint8_t stream[PLUMETHRIFT_STREAM_OCTETS];
static uint32_t work[PLUMETHRIFT_WRITER_WORK_CELLS];

/* Adds a line's element; answers the list's fault. */
static int add_line(plumethrift_list *list, unsigned long number, const char *line) {
  char digits[24];
  snprintf(digits, sizeof digits, "%lu", number);
  plumethrift_add_start_element(list, "", "line");
  plumethrift_add_attribute(list, "", "n", digits);
  plumethrift_add_characters(list, line);
  return plumethrift_add_end_element(list);
}

/* Makes the list of all lines; answers 0 after saying what is wrong with one of them. */
static int add_lines(plumethrift_list *list, int fragment) {
  char line[4096];
  plumethrift_add_start_document(list);
  if (!fragment)
    plumethrift_add_start_element(list, "", "lines");
  for (unsigned long number = 1; fgets(line, sizeof line, stdin) != NULL; number++) {
    const size_t length = strcspn(line, "\n");
    if (line[length] == '\0' && !feof(stdin)) {
      fprintf(stderr, "line %lu is too long, or has a zero\n", number);
      return 0;
    }
    line[length] = '\0';
    switch (add_line(list, number, line)) {
    case PLUMETHRIFT_LIST_FINE:
      break;
    case PLUMETHRIFT_LIST_NO_UTF8:
      fprintf(stderr, "line %lu is not UTF-8\n", number);
      return 0;
    default:
      fprintf(stderr, "line %lu has no room\n", number);
      return 0;
    }
  }
  if (!fragment)
    plumethrift_add_end_element(list);
  return plumethrift_add_end_document(list) == PLUMETHRIFT_LIST_FINE;
}

/* Takes the word after a flag as a bound; answers 0 where it is no number. */
static int take_bound(uint32_t *bound, const char *word) {
  if (word == NULL || word[0] == '\0' || word[strspn(word, "0123456789")] != '\0')
    return 0;
  const unsigned long long number = strtoull(word, NULL, 10);
  *bound = PLUMETHRIFT_BOUND(number < UINT32_MAX ? (uint32_t)number : UINT32_MAX);
  return 1;
}

/* Takes a flag, and the word after it where it is a bound, into the settings; answers how many
 * words it took, 0 where it is no flag. */
static int take_flag(plumethrift_settings *settings, char **words) {
  const char *flag = words[0];
  if (strcmp(flag, "--max-length") == 0)
    return take_bound(&settings->value_length, words[1]) ? 2 : 0;
  if (strcmp(flag, "--capacity") == 0)
    return take_bound(&settings->value_capacity, words[1]) ? 2 : 0;
  if (strcmp(flag, "--byte-aligned") == 0)
    settings->alignment = PLUMETHRIFT_BYTE_ALIGNED;
  else if (strcmp(flag, "--cookie") == 0)
    settings->cookie = 1;
  else if (strcmp(flag, "--comments") == 0)
    settings->comments = 1;
  else if (strcmp(flag, "--instructions") == 0)
    settings->instructions = 1;
  else if (strcmp(flag, "--fragment") == 0)
    settings->fragment = 1;
  else
    return 0;
  return 1;
}

int main(int argc, char **argv) {
  plumethrift_settings settings = {0};
  for (int i = 1, took; i < argc; i += took) {
    took = take_flag(&settings, argv + i);
    if (took == 0) {
      fputs("usage: write [--byte-aligned] [--cookie] [--comments] [--instructions] [--fragment] "
            "[--max-length N] [--capacity N]\n", stderr);
      return 2;
    }
  }

  plumethrift_list list =
      plumethrift_list_in(events, PLUMETHRIFT_EVENT_CELLS, text, PLUMETHRIFT_TEXT_CELLS);
  if (!add_lines(&list, settings.fragment == 1))
    return 1;
  if (ferror(stdin)) {
    perror("standard input");
    return 2;
  }

  const plumethrift_write_reply reply = plumethrift_write(
      settings, stream, sizeof stream, list.events, list.event_cells, list.text, list.text_cells,
      work, PLUMETHRIFT_WRITER_WORK_CELLS);
  if (reply.number != PLUMETHRIFT_OK) {
    const plumethrift_name name = plumethrift_refusal_name(reply.number);
    fprintf(stderr, "refused: %" PRIu32 " %s at event %" PRIu32 ": %s\n", reply.number, name.text,
            reply.index, plumethrift_refusal_sentence(reply.number));
    return 1;
  }
  if (fwrite(stream, 1, reply.octets, stdout) != reply.octets || fflush(stdout) != 0) {
    perror("standard output");
    return 2;
  }
  return 0;
}
