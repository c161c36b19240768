/*
 * Tries plumethrift_list.h: every code point both ways, octets that are no UTF-8, memory that is
 * just enough and one too short, and a list that is written and read. Says what is wrong, and then
 * ends with status 1. Cells and octets are allocated one by one, so that a sanitizer sees each that
 * is touched past them.
 */
#include <stdio.h>
#include <stdlib.h>

#include "plumethrift_list.h"

static int status = 0;

#define HOLD(fact) \
  do { \
    if (!(fact)) { \
      printf("line %d: %s\n", __LINE__, #fact); \
      status = 1; \
    } \
  } while (0)

static void *allocated(size_t octets) {
  void *memory = malloc(octets == 0 ? 1 : octets);
  if (memory == NULL)
    exit(2);
  return memory;
}

/* The fault of octets, laid in just so many cells; how many code points there are, in `count`. */
static int fault_of(const char *octets, size_t size, size_t room, size_t *count) {
  char *utf8 = (char *)allocated(size);
  uint32_t *cells = (uint32_t *)allocated(room * sizeof *cells);
  memcpy(utf8, octets, size);
  const int fault = plumethrift_from_utf8(utf8, size, cells, room, count);
  free(utf8);
  free(cells);
  return fault;
}

static int is_scalar(uint32_t point) {
  return point <= 0x10FFFF && (point < 0xD800 || point > 0xDFFF);
}

static void every_code_point(void) {
  for (uint32_t point = 0; point < 0x110100; point++) {
    char utf8[5];
    size_t octets, count;
    uint32_t back;
    const plumethrift_string string = {&point, 1};
    const int fault = plumethrift_to_utf8(string, utf8, sizeof utf8, &octets);
    HOLD((fault == PLUMETHRIFT_LIST_FINE) == is_scalar(point));
    if (fault != PLUMETHRIFT_LIST_FINE)
      continue;
    const size_t size = point < 0x80 ? 1 : point < 0x800 ? 2 : point < 0x10000 ? 3 : 4;
    HOLD(octets == size && utf8[octets] == 0);
    HOLD(plumethrift_from_utf8(utf8, octets, &back, 1, &count) == PLUMETHRIFT_LIST_FINE);
    HOLD(count == 1 && back == point);
    /* cut anywhere, or in too little room */
    for (size_t cut = 1; cut < octets; cut++)
      HOLD(plumethrift_from_utf8(utf8, cut, &back, 1, &count) == PLUMETHRIFT_LIST_NO_UTF8);
    HOLD(plumethrift_from_utf8(utf8, octets, &back, 0, &count) == PLUMETHRIFT_LIST_FULL);
    for (size_t room = 0; room <= octets; room++)
      HOLD(plumethrift_to_utf8(string, utf8, room, &count) == PLUMETHRIFT_LIST_FULL);
  }
  HOLD(!is_scalar(UINT32_MAX));
}

/* All sequences of up to four octets whose last octets are at the ends of ranges. */
static void every_beginning(void) {
  static const int ends[] = {0x00, 0x7F, 0x80, 0x8F, 0x90, 0x9F, 0xA0, 0xBF, 0xC0, 0xFF};
  const size_t n = sizeof ends / sizeof *ends;
  for (int a = 0; a < 256; a++)
    for (int b = 0; b < 256; b++)
      for (size_t k = 0; k < n * n; k++) {
        const char utf8[4] = {(char)a, (char)b, (char)ends[k / n], (char)ends[k % n]};
        uint32_t point;
        const size_t size = plumethrift_utf8_next(utf8, 4, &point);
        if (size == 0)
          continue;
        /* what is taken is what the code point is written as */
        char again[5];
        size_t octets;
        const plumethrift_string string = {&point, 1};
        HOLD(plumethrift_to_utf8(string, again, sizeof again, &octets) == PLUMETHRIFT_LIST_FINE);
        HOLD(octets == size && memcmp(again, utf8, size) == 0);
      }
}

static void not_utf8(void) {
  static const char *const wrong[] = {
    "\x80", "\xBF", "\xC0\x80", "\xC1\xBF", "\xE0\x80\x80", "\xE0\x9F\xBF", /* overlong */
    "\xF0\x80\x80\x80", "\xF0\x8F\xBF\xBF", "\xED\xA0\x80", "\xED\xBF\xBF", /* surrogates */
    "\xF4\x90\x80\x80", "\xF5\x80\x80\x80", "\xF8\x88\x80\x80\x80", "\xFE", "\xFF",
    "a\xC3", "\xE2\x82", "\xF0\x9F\x98", "\xC3(", "\xE2(\x82", "\xE2\x82(", /* cut */
  };
  size_t count;
  for (size_t i = 0; i < sizeof wrong / sizeof *wrong; i++) {
    HOLD(fault_of(wrong[i], strlen(wrong[i]), 8, &count) == PLUMETHRIFT_LIST_NO_UTF8);
    HOLD(count == 0);
  }
  HOLD(fault_of("T\xC3\xBCr", 4, 3, &count) == PLUMETHRIFT_LIST_FINE && count == 3);
  HOLD(fault_of("T\xC3\xBCr", 4, 2, &count) == PLUMETHRIFT_LIST_FULL && count == 0);
  HOLD(fault_of("", 0, 0, &count) == PLUMETHRIFT_LIST_FINE && count == 0);
  const plumethrift_string none = {NULL, 0};
  char zero = 1;
  HOLD(plumethrift_to_utf8(none, &zero, 1, &count) == PLUMETHRIFT_LIST_FINE && zero == 0);
  HOLD(plumethrift_to_utf8(none, NULL, 0, &count) == PLUMETHRIFT_LIST_FULL);
}

/* <?t i?><T&#xFC;r k="1"><!--c-->offen</T&#xFC;r> in so many cells; 72 and 16 are enough. */
static plumethrift_list built(uint32_t *events, size_t event_cells, uint32_t *text,
                              size_t text_cells) {
  plumethrift_list list = plumethrift_list_in(events, event_cells, text, text_cells);
  plumethrift_add_start_document(&list);
  plumethrift_add_instruction(&list, "t", "i");
  plumethrift_add_start_element(&list, "", "T\xC3\xBCr");
  plumethrift_add_attribute(&list, "", "k", "1");
  plumethrift_add_comment(&list, "c");
  plumethrift_add_characters(&list, "offen!!!");
  plumethrift_add_end_element(&list);
  plumethrift_add_end_document(&list);
  return list;
}

static void faults_stay(void) {
  for (size_t event_cells = 0; event_cells <= 73; event_cells++)
    for (size_t text_cells = 0; text_cells <= 17; text_cells++) {
      uint32_t *events = (uint32_t *)allocated(event_cells * sizeof *events);
      uint32_t *text = (uint32_t *)allocated(text_cells * sizeof *text);
      const plumethrift_list list = built(events, event_cells, text, text_cells);
      const int fits = event_cells >= 72 && text_cells >= 16;
      HOLD(list.fault == (fits ? PLUMETHRIFT_LIST_FINE : PLUMETHRIFT_LIST_FULL));
      HOLD(!fits || (list.event_cells == 72 && list.text_cells == 16));
      free(events);
      free(text);
    }
  uint32_t events[18], text[2];
  plumethrift_list list = plumethrift_list_in(events, 18, text, 2);
  HOLD(plumethrift_add_characters(&list, NULL) == PLUMETHRIFT_LIST_MISSING);
  HOLD(plumethrift_add_characters(&list, "\xFF") == PLUMETHRIFT_LIST_MISSING);
  list = plumethrift_list_in(events, 18, text, 2);
  HOLD(plumethrift_add_start_element(&list, "", "\xFF") == PLUMETHRIFT_LIST_NO_UTF8);
  HOLD(plumethrift_add_end_element(&list) == PLUMETHRIFT_LIST_NO_UTF8 && list.event_cells == 0);
}

static void written_and_read(void) {
  static uint32_t events[PLUMETHRIFT_EVENT_CELLS], text[PLUMETHRIFT_TEXT_CELLS];
  static uint32_t work[PLUMETHRIFT_WRITER_WORK_CELLS];
  static uint8_t stream[PLUMETHRIFT_STREAM_OCTETS];
  const plumethrift_settings settings = {.comments = 1, .instructions = 1};
  const plumethrift_list list =
      built(events, PLUMETHRIFT_EVENT_CELLS, text, PLUMETHRIFT_TEXT_CELLS);
  const plumethrift_write_reply wrote =
      plumethrift_write(settings, stream, sizeof stream, list.events, list.event_cells, list.text,
                        list.text_cells, work, PLUMETHRIFT_WRITER_WORK_CELLS);
  HOLD(wrote.number == PLUMETHRIFT_OK);
  const plumethrift_read_reply read =
      plumethrift_read(settings, stream, wrote.octets, events, PLUMETHRIFT_EVENT_CELLS, text,
                       PLUMETHRIFT_TEXT_CELLS, work, PLUMETHRIFT_READER_WORK_CELLS);
  HOLD(read.number == PLUMETHRIFT_OK && read.events == 8);
  static const struct {
    unsigned event, which;
    const char *utf8;
  } expected[] = {
    {1, 0, "t"}, {1, 1, "i"}, {2, PLUMETHRIFT_URI, ""}, {2, PLUMETHRIFT_LOCAL_NAME, "T\xC3\xBCr"},
    {3, PLUMETHRIFT_LOCAL_NAME, "k"}, {3, PLUMETHRIFT_VALUE, "1"}, {4, 0, "c"}, {5, 0, "offen!!!"},
  };
  for (size_t i = 0; i < sizeof expected / sizeof *expected; i++) {
    char utf8[16];
    size_t octets;
    const plumethrift_string string = plumethrift_event_string(
        events + PLUMETHRIFT_CELLS_PER_EVENT * expected[i].event, expected[i].which, text,
        read.code_points);
    HOLD(plumethrift_to_utf8(string, utf8, sizeof utf8, &octets) == PLUMETHRIFT_LIST_FINE);
    HOLD(octets == strlen(utf8) && strcmp(utf8, expected[i].utf8) == 0);
  }
}

int main(void) {
  every_code_point();
  every_beginning();
  not_utf8();
  faults_stay();
  written_and_read();
  return status;
}
