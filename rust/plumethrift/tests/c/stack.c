/*
 * Measures the stack that the calls take, on the streams named as arguments: each call runs in a
 * thread whose stack was painted. Prints the most octets that each took, 512 where it is fewer.
 */
#define _DEFAULT_SOURCE
#include <pthread.h>
#include <stdio.h>
#include <string.h>

#include "plumethrift.h"

enum { STACK = 1 << 18, PAINT = 0xA5 };

static _Alignas(4096) uint8_t stack[STACK];
static uint8_t stream[PLUMETHRIFT_STREAM_OCTETS], held[PLUMETHRIFT_HELD_OCTETS];
static uint8_t written[PLUMETHRIFT_STREAM_OCTETS];
static uint32_t events[PLUMETHRIFT_EVENT_CELLS], other_events[PLUMETHRIFT_EVENT_CELLS];
static uint32_t text[PLUMETHRIFT_TEXT_CELLS], other_text[PLUMETHRIFT_TEXT_CELLS];
static uint32_t work[PLUMETHRIFT_READER_WORK_CELLS];
static uint64_t stamps[PLUMETHRIFT_MAX_READINGS];
static int32_t movements[PLUMETHRIFT_MAX_READINGS];
static size_t octets;
static plumethrift_settings settings;
static plumethrift_read_reply list;
static plumethrift_readings_reply readings;
static plumethrift_receiver receiver;

#define READER events, PLUMETHRIFT_EVENT_CELLS, text, PLUMETHRIFT_TEXT_CELLS, work, \
               PLUMETHRIFT_READER_WORK_CELLS

static void call_read(void) {
  list = plumethrift_read(settings, stream, octets, READER);
}

static void call_write(void) {
  plumethrift_write(settings, written, sizeof written, events,
                    PLUMETHRIFT_CELLS_PER_EVENT * (size_t)list.events, text, list.code_points, work,
                    PLUMETHRIFT_WRITER_WORK_CELLS);
}

static void call_readings_of_list(void) {
  readings = plumethrift_readings_of_list(
      events, PLUMETHRIFT_CELLS_PER_EVENT * (size_t)list.events, text, list.code_points, stamps,
      PLUMETHRIFT_MAX_READINGS, movements, PLUMETHRIFT_MAX_READINGS);
}

static void call_list_of_readings(void) {
  plumethrift_list_of_readings(stamps, readings.readings, movements, readings.readings,
                               other_events, PLUMETHRIFT_EVENT_CELLS, other_text,
                               PLUMETHRIFT_TEXT_CELLS);
}

static void call_write_readings(void) {
  plumethrift_write_readings(settings, written, sizeof written, stamps, readings.readings,
                             movements, readings.readings, other_events, PLUMETHRIFT_EVENT_CELLS,
                             other_text, PLUMETHRIFT_TEXT_CELLS, work,
                             PLUMETHRIFT_WRITER_WORK_CELLS);
}

static void call_read_readings(void) {
  readings = plumethrift_read_readings(settings, stream, octets, stamps, PLUMETHRIFT_MAX_READINGS,
                                       movements, PLUMETHRIFT_MAX_READINGS, READER);
}

static void call_start(void) {
  receiver = plumethrift_start(settings);
}

static void call_feed(void) {
  for (size_t at = 0; at < octets; at += 7)
    plumethrift_feed(&receiver, stream + at, octets - at < 7 ? octets - at : 7, held, sizeof held,
                     READER);
}

static void call_close(void) {
  plumethrift_close(&receiver, held, sizeof held, READER);
}

static const struct {
  const char *name;
  void (*call)(void);
} calls[] = {
  {"read", call_read},
  {"write", call_write},
  {"readings_of_list", call_readings_of_list},
  {"list_of_readings", call_list_of_readings},
  {"read_readings", call_read_readings},
  {"write_readings", call_write_readings},
  {"start", call_start},
  {"feed", call_feed},
  {"close", call_close},
};
enum { CALLS = sizeof calls / sizeof *calls };

static uint8_t *volatile top;

static void *in_thread(void *which) {
  uint8_t here;
  top = &here;
  memset(stack, PAINT, (size_t)(top - stack) - 512);
  calls[*(const size_t *)which].call();
  return NULL;
}

static size_t taken_by(size_t which) {
  pthread_attr_t attributes;
  pthread_t thread;
  if (pthread_attr_init(&attributes) != 0 ||
      pthread_attr_setstack(&attributes, stack, sizeof stack) != 0 ||
      pthread_create(&thread, &attributes, in_thread, &which) != 0 ||
      pthread_join(thread, NULL) != 0)
    return SIZE_MAX;
  size_t untouched = 0;
  while (stack[untouched] == PAINT)
    untouched++;
  return (size_t)(top - stack) - untouched;
}

int main(int argc, char **argv) {
  size_t most[CALLS] = {0};
  for (int i = 1; i < argc; i++) {
    FILE *file = fopen(argv[i], "rb");
    if (file == NULL)
      return 2;
    octets = fread(stream, 1, sizeof stream, file);
    fclose(file);
    for (uint32_t alignment = 0; alignment < 2; alignment++) {
      settings.alignment = alignment;
      for (size_t which = 0; which < CALLS; which++)
        calls[which].call(); /* the linker takes some stack once, to find memcpy */
      for (size_t which = 0; which < CALLS; which++) {
        const size_t taken = taken_by(which);
        if (taken > most[which])
          most[which] = taken;
      }
    }
  }
  for (size_t which = 0; which < CALLS; which++)
    printf("%s %zu\n", calls[which].name, most[which]);
  return 0;
}
