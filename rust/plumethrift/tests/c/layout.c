/*
 * Holds the structs of plumethrift.h against what the archive reads and writes: each field has a
 * value that only it can have. Says what differs, and then ends with status 1.
 *
 * Structs of more than 16 octets are answered in a place that the caller gives: a declaration that
 * has this place, as the calling convention passes it, shows which octets the archive writes.
 */
#include <stdio.h>
#include <string.h>
#define plumethrift_start plumethrift_start_by_value
#define plumethrift_sizes plumethrift_sizes_by_value
#include "plumethrift.h"
#undef plumethrift_start
#undef plumethrift_sizes

void *plumethrift_start(void *place, plumethrift_settings settings);
void *plumethrift_sizes(void *place);

static int status = 0;

#define HOLD(fact) \
  do { \
    if (!(fact)) { \
      printf("line %d: %s\n", __LINE__, #fact); \
      status = 1; \
    } \
  } while (0)

static uint8_t octets[PLUMETHRIFT_STREAM_OCTETS];
static uint8_t held[PLUMETHRIFT_HELD_OCTETS];
static uint32_t events[PLUMETHRIFT_EVENT_CELLS];
static uint32_t text[PLUMETHRIFT_TEXT_CELLS];
static uint32_t work[PLUMETHRIFT_READER_WORK_CELLS];
static uint64_t stamps[PLUMETHRIFT_MAX_READINGS];
static int32_t movements[PLUMETHRIFT_MAX_READINGS];

static plumethrift_read_reply read_octets(plumethrift_settings settings, const char *stream,
                                          size_t size) {
  return plumethrift_read(settings, (const uint8_t *)stream, size, events, PLUMETHRIFT_EVENT_CELLS,
                          text, PLUMETHRIFT_TEXT_CELLS, work, PLUMETHRIFT_READER_WORK_CELLS);
}

static plumethrift_write_reply write_cells(plumethrift_settings settings, const uint32_t *cells,
                                           size_t count) {
  static const uint32_t letters[] = {'a', 'b'};
  return plumethrift_write(settings, octets, sizeof octets, cells, count, letters, 2, work,
                           PLUMETHRIFT_WRITER_WORK_CELLS);
}

/* How many octets from the start of a place are written: `call` is made over two fills. */
static size_t written(void (*call)(void *place), uint8_t *place, size_t size) {
  size_t last = 0;
  for (int fill = 0; fill < 256; fill += 85) {
    memset(place, fill, size);
    call(place);
    for (size_t at = last; at < size; at++)
      if (place[at] != fill)
        last = at + 1;
  }
  return last;
}

static void start_in(void *place) {
  plumethrift_start(place, (plumethrift_settings){.alignment = 1, .cookie = 1});
}

static void sizes_in(void *place) {
  plumethrift_sizes(place);
}

/* <a>b</a>, byte-aligned; with the cookie before it. */
static const char stream[] = "$EXI\x80\x01\x02"
                             "a\x03\x03"
                             "b\x00";

static void settings_by_effect(void) {
  const size_t size = sizeof stream - 1;
  const plumethrift_settings aligned = {.alignment = 1};
  const plumethrift_settings both = {.alignment = 1, .cookie = 1};
  HOLD(read_octets(aligned, stream + 4, size - 4).number == PLUMETHRIFT_OK);
  HOLD(read_octets(both, stream, size).number == PLUMETHRIFT_OK);
  HOLD(read_octets(aligned, stream, size).number == PLUMETHRIFT_HEADER);

  /* start document, a comment or an instruction, <a/>, end document */
  uint32_t cells[5 * PLUMETHRIFT_CELLS_PER_EVENT] = {0};
  const uint32_t kinds[5] = {PLUMETHRIFT_START_DOCUMENT, PLUMETHRIFT_COMMENT,
                             PLUMETHRIFT_START_ELEMENT, PLUMETHRIFT_END_ELEMENT,
                             PLUMETHRIFT_END_DOCUMENT};
  for (size_t i = 0; i < 5; i++)
    cells[i * PLUMETHRIFT_CELLS_PER_EVENT] = kinds[i];
  cells[2 * PLUMETHRIFT_CELLS_PER_EVENT + 2 + 2 * PLUMETHRIFT_LOCAL_NAME] = 1;
  const plumethrift_settings comments = {.comments = 1}, instructions = {.instructions = 1};
  HOLD(write_cells(comments, cells, sizeof cells / sizeof *cells).number == PLUMETHRIFT_OK);
  plumethrift_write_reply reply = write_cells(instructions, cells, sizeof cells / sizeof *cells);
  HOLD(reply.number == PLUMETHRIFT_SHAPE && reply.index == 1 && reply.octets == 0);
  cells[PLUMETHRIFT_CELLS_PER_EVENT] = PLUMETHRIFT_INSTRUCTION;
  cells[PLUMETHRIFT_CELLS_PER_EVENT + 2] = 1;
  reply = write_cells(instructions, cells, sizeof cells / sizeof *cells);
  HOLD(reply.number == PLUMETHRIFT_OK && reply.index == 0 && reply.octets == 7);
}

static void replies(void) {
  const plumethrift_settings both = {.alignment = 1, .cookie = 1};
  plumethrift_read_reply read = read_octets(both, stream, sizeof stream - 1);
  HOLD(read.number == 0 && read.index == 0 && read.events == 5 && read.code_points == 101);
  read = read_octets(both, stream, sizeof stream);
  HOLD(read.number == 13 && read.index == 5 && read.events == 0 && read.code_points == 0);

  uint64_t two[] = {1, 2};
  int32_t movement[] = {-7, 7};
  plumethrift_list_reply list = plumethrift_list_of_readings(
      two, 2, movement, 2, events, PLUMETHRIFT_EVENT_CELLS, text, PLUMETHRIFT_TEXT_CELLS);
  HOLD(list.number == 0 && list.index == 0 && list.events == 12 && list.code_points == 162);
  plumethrift_readings_reply readings = plumethrift_readings_of_list(
      events, PLUMETHRIFT_CELLS_PER_EVENT * 12, text, 162, stamps, PLUMETHRIFT_MAX_READINGS,
      movements, PLUMETHRIFT_MAX_READINGS);
  HOLD(readings.number == 0 && readings.index == 0 && readings.readings == 2);
  HOLD(stamps[1] == 2 && movements[0] == -7);
  two[1] = 1;
  list = plumethrift_list_of_readings(two, 2, movement, 2, events, PLUMETHRIFT_EVENT_CELLS, text,
                                      PLUMETHRIFT_TEXT_CELLS);
  HOLD(list.number == PLUMETHRIFT_NOT_LATER && list.index == 1 && list.events == 0);
  readings = plumethrift_read_readings(both, (const uint8_t *)stream, sizeof stream - 1, stamps,
                                       PLUMETHRIFT_MAX_READINGS, movements,
                                       PLUMETHRIFT_MAX_READINGS, events, PLUMETHRIFT_EVENT_CELLS,
                                       text, PLUMETHRIFT_TEXT_CELLS, work,
                                       PLUMETHRIFT_READER_WORK_CELLS);
  HOLD(readings.number == PLUMETHRIFT_STRUCTURE && readings.index == 0);
  HOLD(strcmp(plumethrift_refusal_name(18).text, "BAD_MOVEMENT") == 0);
}

/* The calls of a receiver write to their record alone, which lies so many octets into a place. */
static void calls_in(uint8_t *place, size_t size, size_t from) {
  memset(place, 0xA5, size);
  start_in(place + from);
  plumethrift_receiver *receiver = (plumethrift_receiver *)(void *)(place + from);
  for (size_t at = 0; at < sizeof stream; at++) {
    plumethrift_read_reply reply = plumethrift_feed(
        receiver, (const uint8_t *)stream + at, 1, held, sizeof held, events,
        PLUMETHRIFT_EVENT_CELLS, text, PLUMETHRIFT_TEXT_CELLS, work, PLUMETHRIFT_READER_WORK_CELLS);
    HOLD(reply.number == (at + 1 < sizeof stream ? PLUMETHRIFT_OK : PLUMETHRIFT_TAIL));
  }
  plumethrift_read_reply reply = plumethrift_close(
      receiver, held, sizeof held, events, PLUMETHRIFT_EVENT_CELLS, text, PLUMETHRIFT_TEXT_CELLS,
      work, PLUMETHRIFT_READER_WORK_CELLS);
  HOLD(reply.number == PLUMETHRIFT_TAIL && reply.index == 5);
  for (size_t at = 0; at < size; at++)
    if (at < from || at >= from + sizeof *receiver)
      HOLD(place[at] == 0xA5);
}

static void answers_in_a_place(void) {
  static union {
    uint64_t aligned;
    uint8_t octets[4096];
  } place;
  HOLD(written(sizes_in, place.octets, sizeof place) == sizeof(plumethrift_sizes_to_lend));
  plumethrift_sizes_to_lend sizes;
  memcpy(&sizes, &place, sizeof sizes);
  HOLD(sizes.event_cells == PLUMETHRIFT_EVENT_CELLS);
  HOLD(sizes.text_cells == PLUMETHRIFT_TEXT_CELLS);
  HOLD(sizes.stream_octets == PLUMETHRIFT_STREAM_OCTETS);
  HOLD(sizes.reader_work_cells == PLUMETHRIFT_READER_WORK_CELLS);
  HOLD(sizes.writer_work_cells == PLUMETHRIFT_WRITER_WORK_CELLS);
  HOLD(sizes.max_readings == PLUMETHRIFT_MAX_READINGS);
  HOLD(written(start_in, place.octets, sizeof place) == sizeof(plumethrift_receiver));

  /* of the record's two places one is a multiple of 8 and not of 16: it asks for no more than 8 */
  for (size_t from = 64; from <= 72; from += 8)
    calls_in(place.octets, sizeof place, from);
}

int main(void) {
  settings_by_effect();
  replies();
  answers_in_a_place();
  printf("a record of %zu octets\n", sizeof(plumethrift_receiver));
  return status;
}
