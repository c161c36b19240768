/*
 * Lists of events for plumethrift_write, built event by event from UTF-8, and UTF-8 both ways. All
 * of this is ordinary C, and not proved; it allocates nothing. The writer judges the list.
 *
 *   static uint32_t events[PLUMETHRIFT_EVENT_CELLS];
 *   static uint32_t text[PLUMETHRIFT_TEXT_CELLS];
 *   plumethrift_list list = plumethrift_list_in(events, PLUMETHRIFT_EVENT_CELLS, text,
 *                                               PLUMETHRIFT_TEXT_CELLS);
 *   plumethrift_add_start_document(&list);
 *   plumethrift_add_start_element(&list, "", "a");
 *   plumethrift_add_characters(&list, "b");
 *   plumethrift_add_end_element(&list);
 *   plumethrift_add_end_document(&list);
 *   if (list.fault == PLUMETHRIFT_LIST_FINE)
 *     reply = plumethrift_write(settings, stream, PLUMETHRIFT_STREAM_OCTETS, list.events,
 *                               list.event_cells, list.text, list.text_cells, work,
 *                               PLUMETHRIFT_WRITER_WORK_CELLS);
 */
#ifndef PLUMETHRIFT_LIST_H
#define PLUMETHRIFT_LIST_H

#include <string.h>

#include "plumethrift.h"

#ifdef __cplusplus
extern "C" {
#endif

/* What is wrong with a list, or with text. */
enum plumethrift_list_fault {
  PLUMETHRIFT_LIST_FINE = 0,
  PLUMETHRIFT_LIST_FULL = 1,    /* the memory is too short */
  PLUMETHRIFT_LIST_NO_UTF8 = 2, /* octets that are no UTF-8, or a number that is no code point */
  PLUMETHRIFT_LIST_MISSING = 3  /* a null pointer for a string */
};

/*
 * UTF-8
 *
 *   Well-formed is what Unicode says (table 3-7): a code point in its fewest octets, no surrogates
 *   (D800 to DFFF), nothing above 10FFFF, no octets cut off and none astray.
 */

/*
 * Takes one code point from the start of `left` octets: how many octets it has, 1 to 4, or 0 where
 * they do not begin with UTF-8.
 */
static inline size_t plumethrift_utf8_next(const char *utf8, size_t left, uint32_t *code_point) {
  static const uint32_t least[] = {0, 0, 0x80, 0x800, 0x10000};
  if (left == 0)
    return 0;
  const uint32_t first = (uint8_t)utf8[0];
  const size_t size = first < 0x80 ? 1 : first < 0xC0 ? 0 : first < 0xE0 ? 2 : first < 0xF0 ? 3
                      : first < 0xF8 ? 4 : 0;
  if (size == 0 || size > left)
    return 0;
  uint32_t point = size == 1 ? first : first & (0x7Fu >> size);
  for (size_t i = 1; i < size; i++) {
    const uint32_t octet = (uint8_t)utf8[i];
    if ((octet & 0xC0) != 0x80)
      return 0;
    point = point << 6 | (octet & 0x3F);
  }
  if (point < least[size] || point > 0x10FFFF || (point >= 0xD800 && point < 0xE000))
    return 0;
  *code_point = point;
  return size;
}

/*
 * Lays `octets` octets of UTF-8 down as code points, `*count` of them. Where it answers a fault,
 * `*count` is 0, and any of the `room` cells may have been written.
 */
static inline int plumethrift_from_utf8(const char *utf8, size_t octets, uint32_t *code_points,
                                        size_t room, size_t *count) {
  size_t used = 0;
  *count = 0;
  for (size_t at = 0; at < octets;) {
    uint32_t point;
    const size_t size = plumethrift_utf8_next(utf8 + at, octets - at, &point);
    if (size == 0)
      return PLUMETHRIFT_LIST_NO_UTF8;
    if (used == room)
      return PLUMETHRIFT_LIST_FULL;
    code_points[used++] = point;
    at += size;
  }
  *count = used;
  return PLUMETHRIFT_LIST_FINE;
}

/*
 * Writes a string as UTF-8 with a zero behind it, `*octets` octets without that one; four for each
 * code point and one are always enough. Where it answers a fault, `*octets` is 0, and any of the
 * `room` octets may have been written. No string of a list that was read has the code point 0.
 */
static inline int plumethrift_to_utf8(plumethrift_string string, char *utf8, size_t room,
                                      size_t *octets) {
  static const uint8_t mark[] = {0, 0, 0xC0, 0xE0, 0xF0};
  size_t used = 0;
  *octets = 0;
  for (size_t i = 0; i < string.length; i++) {
    uint32_t point = string.code_points[i];
    if (point > 0x10FFFF || (point >= 0xD800 && point < 0xE000))
      return PLUMETHRIFT_LIST_NO_UTF8;
    const size_t size = point < 0x80 ? 1 : point < 0x800 ? 2 : point < 0x10000 ? 3 : 4;
    if (size >= room - used || room == 0)
      return PLUMETHRIFT_LIST_FULL;
    for (size_t k = size - 1; k > 0; k--) {
      utf8[used + k] = (char)(0x80 | (point & 0x3F));
      point >>= 6;
    }
    utf8[used] = (char)(mark[size] | point);
    used += size;
  }
  if (room == 0)
    return PLUMETHRIFT_LIST_FULL;
  utf8[used] = 0;
  *octets = used;
  return PLUMETHRIFT_LIST_FINE;
}

/*
 * Lists
 *
 *   Each function below adds one event, its strings UTF-8 that ends with a zero, and answers the
 *   list's fault. Once there is a fault, it stays, and nothing more is added: it will do to look at
 *   it at the end.
 */
typedef struct plumethrift_list {
  uint32_t *events;   /* the caller's */
  size_t event_cells; /* in use: the list is the first so many */
  uint32_t *text;     /* the caller's */
  size_t text_cells;  /* in use */
  size_t event_room;
  size_t text_room;
  int fault; /* of enum plumethrift_list_fault */
} plumethrift_list;

/* A list without events, in memory of the caller. */
static inline plumethrift_list plumethrift_list_in(uint32_t *events, size_t event_room,
                                                   uint32_t *text, size_t text_room) {
  const plumethrift_list list = {events, 0, text, 0, event_room, text_room, PLUMETHRIFT_LIST_FINE};
  return list;
}

/* Lays a string down, and its place and length as string `which` of the event at `cells`. */
static inline void plumethrift_list_lay(plumethrift_list *list, uint32_t *cells, unsigned which,
                                        const char *utf8) {
  size_t count;
  if (list->fault == PLUMETHRIFT_LIST_FINE && utf8 == NULL)
    list->fault = PLUMETHRIFT_LIST_MISSING;
  if (list->fault != PLUMETHRIFT_LIST_FINE)
    return;
  list->fault = plumethrift_from_utf8(utf8, strlen(utf8), list->text + list->text_cells,
                                      list->text_room - list->text_cells, &count);
  cells[1 + 2 * which] = (uint32_t)list->text_cells;
  cells[2 + 2 * which] = (uint32_t)count;
  list->text_cells += count;
}

/* Adds the event in these cells, if all went well so far. */
static inline int plumethrift_list_add(plumethrift_list *list, const uint32_t *cells) {
  const size_t size = PLUMETHRIFT_CELLS_PER_EVENT;
  if (list->fault == PLUMETHRIFT_LIST_FINE && list->event_room - list->event_cells < size)
    list->fault = PLUMETHRIFT_LIST_FULL;
  if (list->fault == PLUMETHRIFT_LIST_FINE) {
    memcpy(list->events + list->event_cells, cells, size * sizeof *cells);
    list->event_cells += size;
  }
  return list->fault;
}

static inline int plumethrift_add_start_document(plumethrift_list *list) {
  const uint32_t cells[PLUMETHRIFT_CELLS_PER_EVENT] = {PLUMETHRIFT_START_DOCUMENT};
  return plumethrift_list_add(list, cells);
}

static inline int plumethrift_add_end_document(plumethrift_list *list) {
  const uint32_t cells[PLUMETHRIFT_CELLS_PER_EVENT] = {PLUMETHRIFT_END_DOCUMENT};
  return plumethrift_list_add(list, cells);
}

/* The URI is empty for a name in no namespace. */
static inline int plumethrift_add_start_element(plumethrift_list *list, const char *uri,
                                                const char *local_name) {
  uint32_t cells[PLUMETHRIFT_CELLS_PER_EVENT] = {PLUMETHRIFT_START_ELEMENT};
  plumethrift_list_lay(list, cells, PLUMETHRIFT_URI, uri);
  plumethrift_list_lay(list, cells, PLUMETHRIFT_LOCAL_NAME, local_name);
  return plumethrift_list_add(list, cells);
}

/* The URI is empty for a name in no namespace. */
static inline int plumethrift_add_attribute(plumethrift_list *list, const char *uri,
                                            const char *local_name, const char *value) {
  uint32_t cells[PLUMETHRIFT_CELLS_PER_EVENT] = {PLUMETHRIFT_ATTRIBUTE};
  plumethrift_list_lay(list, cells, PLUMETHRIFT_URI, uri);
  plumethrift_list_lay(list, cells, PLUMETHRIFT_LOCAL_NAME, local_name);
  plumethrift_list_lay(list, cells, PLUMETHRIFT_VALUE, value);
  return plumethrift_list_add(list, cells);
}

static inline int plumethrift_add_end_element(plumethrift_list *list) {
  const uint32_t cells[PLUMETHRIFT_CELLS_PER_EVENT] = {PLUMETHRIFT_END_ELEMENT};
  return plumethrift_list_add(list, cells);
}

static inline int plumethrift_add_characters(plumethrift_list *list, const char *characters) {
  uint32_t cells[PLUMETHRIFT_CELLS_PER_EVENT] = {PLUMETHRIFT_CHARACTERS};
  plumethrift_list_lay(list, cells, 0, characters);
  return plumethrift_list_add(list, cells);
}

/* Of a stream whose settings keep comments. */
static inline int plumethrift_add_comment(plumethrift_list *list, const char *comment) {
  uint32_t cells[PLUMETHRIFT_CELLS_PER_EVENT] = {PLUMETHRIFT_COMMENT};
  plumethrift_list_lay(list, cells, 0, comment);
  return plumethrift_list_add(list, cells);
}

/* Of a stream whose settings keep processing instructions. */
static inline int plumethrift_add_instruction(plumethrift_list *list, const char *target,
                                              const char *instruction) {
  uint32_t cells[PLUMETHRIFT_CELLS_PER_EVENT] = {PLUMETHRIFT_INSTRUCTION};
  plumethrift_list_lay(list, cells, 0, target);
  plumethrift_list_lay(list, cells, 1, instruction);
  return plumethrift_list_add(list, cells);
}

#ifdef __cplusplus
}
#endif

#endif
