/*
 * Plumethrift: a proved reader and writer of schema-less EXI 1.0 (W3C Efficient XML Interchange,
 * Second Edition).
 *
 * The reader turns the octets of a stream into a list of events, the writer a list of events into
 * octets. The reader accepts exactly the strict forms of well-formed lists inside the sizes below:
 * each accepted stream has one list, each such list one stream. Anything else is refused with a
 * number and the index of the event concerned. Above them stand readings, stamps with movements,
 * taken from such a list or stream and made into one. All are proved against the definitions for
 * every input; this header is written by hand, and nothing checks it against the proved source but
 * the tests in rust/.
 *
 * Memory
 *
 *   The calls work in memory that the caller lends: parts, each a pointer and a length in octets
 *   or in cells. A cell has 32 bits, a stamp's 64. What the caller owes is this, and no more:
 *
 *   - Each pointer is good for its length, to write where it is not const, and aligned for its
 *     type. It is null only where the length is 0.
 *   - A part lent for writing overlaps no other part of the call.
 *
 *   All else is safe: any octets as a stream, any cells as a list or as readings, any numbers as
 *   settings, any lengths. A part that is too short is refused (ROOM). What memory lent for writing
 *   holds before a call does not matter. (A receiver's calls are told apart below: between them
 *   record and memory are to come back as they were left.)
 *
 * What a call leaves
 *
 *   - Success (number 0): index is 0 and the counts say what was written. Every lent cell or octet
 *     past the last one used is zero, and all work memory is zero.
 *   - Refusal (number 1 to 19): the counts are 0, and all memory lent for writing is zero.
 *
 *   Both hold for all that is lent, however long; more than asked for only costs time.
 *
 * The library allocates nothing, keeps no pointer after a call and has no state of its own. Calls
 * may run in any number of threads at once, as long as none of them writes a part of another.
 *
 * A call takes at most 8 KiB of the stack: that is measured, not proved.
 *
 * The archive is for x86-64 with the System V calling convention. Of other libraries it needs
 * memcpy and memset alone.
 */
#ifndef PLUMETHRIFT_H
#define PLUMETHRIFT_H

#include <stddef.h>
#include <stdint.h>

#ifdef __cplusplus
extern "C" {
#endif

/* The version of this header, and of the archive that it is for. */
#define PLUMETHRIFT_VERSION "0.1.0"

/* Sizes to lend, at least. plumethrift_sizes answers the same numbers. */
#define PLUMETHRIFT_EVENT_CELLS 36864       /* reader: events, 9 cells for each of 4,096 */
#define PLUMETHRIFT_TEXT_CELLS 16384        /* reader: text store, one code point a cell */
#define PLUMETHRIFT_STREAM_OCTETS 16384     /* writer: octets; the reader takes no longer stream */
#define PLUMETHRIFT_READER_WORK_CELLS 18432 /* reader: work memory */
#define PLUMETHRIFT_WRITER_WORK_CELLS 18432 /* writer: work memory */

/* The most readings that there are in one list: stamps to lend, at least, and as many movements. */
#define PLUMETHRIFT_MAX_READINGS 678

/* Cells of one event. */
#define PLUMETHRIFT_CELLS_PER_EVENT 9

/* Of a reading: the stamp of 2099-12-31T23:59:59.999Z, and the largest movement, either way. */
#define PLUMETHRIFT_LAST_STAMP 3155759999999
#define PLUMETHRIFT_MAX_MOVEMENT 20000

/*
 * Settings of a stream. They travel outside it: reader and writer have to be given the same. A
 * number other than those named here is refused (SETTINGS). All zero, as from `= {0}`, is
 * bit-packed, no cookie, nothing kept: name the members that differ, and leave out the others, as
 * in `= {.alignment = PLUMETHRIFT_BYTE_ALIGNED}`; in C++17, assign to members of a `= {}`.
 *
 * The last three are for what this version does not do: as yet, a number other than 0 is refused.
 * The struct stays as it is when they get their meanings.
 */
typedef struct plumethrift_settings {
  uint32_t alignment;      /* PLUMETHRIFT_BIT_PACKED or PLUMETHRIFT_BYTE_ALIGNED */
  uint32_t cookie;         /* 1: the stream begins with 24 45 58 49 ("$EXI"); 0: it does not */
  uint32_t comments;       /* 1: comments are kept; 0: no list or stream has any */
  uint32_t instructions;   /* 1: processing instructions are kept; 0: no list or stream has any */
  uint32_t fragment;       /* 1: a fragment, elements in any number; 0: a document, one root */
  uint32_t value_length;   /* PLUMETHRIFT_BOUND(n): no value of more than n code points joins the
                              tables; PLUMETHRIFT_UNBOUNDED: values of any length do */
  uint32_t value_capacity; /* PLUMETHRIFT_BOUND(n), n at most 2,048: a value that joins n others
                              replaces the oldest, at 0 none joins; PLUMETHRIFT_UNBOUNDED: none is
                              replaced, and one that would join 2,048 others is refused (LIMIT) */
  uint32_t loose;          /* 0: the reader takes strict forms alone */
  uint32_t prefixes;       /* 0: prefixes are not kept */
  uint32_t grammar_cap;    /* PLUMETHRIFT_UNBOUNDED: element grammars are not capped */
} plumethrift_settings;

/*
 * Value length, value capacity and grammar cap are bounds: a bound n is given as n + 1, and 0 is
 * none. The largest number stays as it is, so that no bound comes round to none.
 */
#define PLUMETHRIFT_UNBOUNDED 0
#define PLUMETHRIFT_BOUND(n) \
  ((uint32_t)(n) < UINT32_MAX ? (uint32_t)(n) + 1 : UINT32_MAX)

enum plumethrift_alignment {
  PLUMETHRIFT_BIT_PACKED = 0, /* EXI's default */
  PLUMETHRIFT_BYTE_ALIGNED = 1
};

/* The kind of an event, its cell 0. */
enum plumethrift_kind {
  PLUMETHRIFT_START_DOCUMENT = 1,
  PLUMETHRIFT_END_DOCUMENT = 2,
  PLUMETHRIFT_START_ELEMENT = 3, /* URI, local name */
  PLUMETHRIFT_ATTRIBUTE = 4,     /* URI, local name, value */
  PLUMETHRIFT_END_ELEMENT = 5,
  PLUMETHRIFT_CHARACTERS = 6, /* text */
  PLUMETHRIFT_COMMENT = 7,    /* text */
  PLUMETHRIFT_INSTRUCTION = 8 /* target, text */
};

/*
 * Which string of an event. Behind the kind there are four pairs of cells: string i has its place
 * in the text store in cell 1 + 2 * i, and its length in cell 2 + 2 * i. The text of characters and
 * of a comment is string 0; an instruction's target is 0, and its text 1. Pairs that a kind does
 * not use are 0, and so is every prefix, since none are kept. Nine zero cells are no event.
 */
enum plumethrift_string_of_an_event {
  PLUMETHRIFT_URI = 0,        /* start element, attribute */
  PLUMETHRIFT_LOCAL_NAME = 1, /* start element, attribute */
  PLUMETHRIFT_PREFIX = 2,
  PLUMETHRIFT_VALUE = 3 /* attribute */
};

/*
 * Refusals, the `number` of a reply. `index` is the number of events before the one concerned; it
 * is 0 for ROOM, SETTINGS, LONG and HEADER, and counts all events for TAIL. From 16 on it is the
 * number of readings before; so it is for LIMIT where readings are given, or taken from a list (but
 * see plumethrift_write_readings under bounds of values).
 *
 * Of several faults the first is answered: ROOM, SETTINGS, the reader's LONG, then that of the
 * first event that has one. Within an event the reader goes in stream order: the count of events,
 * the event code, then each string: of a literal its length, the text store, its characters, LOOSE,
 * NAME, its table; of a hit REFERENCE, LOOSE, NAME. After the strings: SHAPE for an equal
 * attribute, LOOSE for the production, open elements, element grammars, learned productions. The
 * writer: the count of events, SHAPE, PLACE of any string, then each string (its length, the store
 * if it is a literal, its characters, NAME, its table), SHAPE for an equal attribute, and the same
 * three sizes; its LONG comes last of all.
 *
 * LIMIT speaks of these sizes: 4,096 events; 100 elements open at once; 16 URIs and 128 local names
 * over all URIs, with those that every stream begins with (3 and 6); 2,048 distinct values that are
 * not empty, where they have no capacity; 64 element grammars; 512 learned productions; 4,096 code
 * points in a string; 16,384 in the reader's text store.
 */
enum plumethrift_refusal {
  PLUMETHRIFT_OK = 0,        /* not refused */
  PLUMETHRIFT_ROOM = 1,      /* a lent part is shorter than asked for */
  PLUMETHRIFT_SETTINGS = 2,  /* a settings number has no meaning */
  PLUMETHRIFT_LONG = 3,      /* over 16,384 octets: the reader's input, or the writer's result */
  PLUMETHRIFT_HEADER = 4,    /* an octet differs from the header that the settings ask for */
  PLUMETHRIFT_ENDED = 5,     /* the input ends inside the header or a field */
  PLUMETHRIFT_CODE = 6,      /* an event code part names no production */
  PLUMETHRIFT_NUMBER = 7,    /* an Unsigned Integer not in fewest octets, over 5, or over 2^31-1 */
  PLUMETHRIFT_CHARACTER = 8, /* no XML Char; comment with -- or a last -; instruction with ?> */
  PLUMETHRIFT_REFERENCE = 9, /* a URI, name or value number names no entry */
  PLUMETHRIFT_LOOSE = 10,    /* a literal, hit or production where the strict form has another */
  PLUMETHRIFT_NAME = 11,     /* no NCName; target xml; nil or type of XMLSchema-instance */
  PLUMETHRIFT_LIMIT = 12,    /* one of the sizes above would be passed */
  PLUMETHRIFT_TAIL = 13,     /* a pad bit is 1, or octets follow the end */
  PLUMETHRIFT_SHAPE = 14,    /* two equal attributes in a start tag; writer: no well-formed list */
  PLUMETHRIFT_PLACE = 15,    /* writer: a string's place plus length passes the store's length */

  /* readings alone */
  PLUMETHRIFT_STRUCTURE = 16,    /* the list is not one of readings */
  PLUMETHRIFT_BAD_STAMP = 17,    /* no stamp of the years 2000 to 2099, or no such day or time */
  PLUMETHRIFT_BAD_MOVEMENT = 18, /* no number of -20000 to 20000; a plus, a leading zero, or -0 */
  PLUMETHRIFT_NOT_LATER = 19     /* a stamp is not later than the one before */
};

typedef struct plumethrift_read_reply {
  uint32_t number;      /* 0, or the refusal's number */
  uint32_t index;       /* the event concerned by a refusal; 0 on success */
  uint32_t events;      /* events written: the list is the first 9 * events of the event cells */
  uint32_t code_points; /* code points written: the store is the first so many of the text cells */
} plumethrift_read_reply;

typedef struct plumethrift_write_reply {
  uint32_t number; /* 0, or the refusal's number */
  uint32_t index;  /* the event, or the reading, concerned by a refusal; 0 on success */
  uint32_t octets; /* octets written: the stream is the first so many of the octets */
} plumethrift_write_reply;

/* A refusal's name: ASCII, padded with zeros, of which there is at least one. */
typedef struct plumethrift_name {
  char text[16];
} plumethrift_name;

/*
 * Reads the stream of `stream_octets` octets. `events`, `text` and `work` are lent for writing, at
 * least PLUMETHRIFT_EVENT_CELLS, PLUMETHRIFT_TEXT_CELLS and PLUMETHRIFT_READER_WORK_CELLS cells.
 * Refusals 1 to 14.
 *
 * On success the list is well-formed, every string in it lies inside the code points counted, and
 * each of those is an XML 1.0 Char. The store begins with the 99 of the initial URIs and local
 * names; every literal of the stream follows, in stream order.
 *
 * What a well-formed list is, and which strings are names, is said at plumethrift_write: a stream
 * is held to the same rules. Which of several faults is answered stands at the refusals above.
 */
plumethrift_read_reply plumethrift_read(plumethrift_settings settings,
                                        const uint8_t *stream, size_t stream_octets,
                                        uint32_t *events, size_t event_cells,
                                        uint32_t *text, size_t text_cells,
                                        uint32_t *work, size_t work_cells);

/*
 * Writes the list that is all of `events`, with its strings in `text`: both are only read, and may
 * have any length. Where `event_cells` is no multiple of 9, the rest is one more event, which is
 * SHAPE. `stream` and `work` are lent for writing, at least PLUMETHRIFT_STREAM_OCTETS octets and
 * PLUMETHRIFT_WRITER_WORK_CELLS cells. Refusals 1 to 3, 8, 11, 12, 14 and 15.
 *
 * A well-formed list is: start document; comments and instructions; one element, balanced; comments
 * and instructions; end document; nothing after. In a fragment comments, instructions and balanced
 * elements stand between start and end document, in any order and number, none too. Attributes come
 * before any other event in their element, and no two of one start tag have the same URI and local
 * name. Kinds that the settings drop are not allowed.
 *
 * Its strings have only XML 1.0 Chars. Local names are NCNames of Namespaces in XML 1.0 (by XML
 * 1.0, Fifth Edition), and so are targets, but not xml in any case; no attribute is nil or type of
 * XMLSchema-instance: else NAME. A comment has no two hyphens in a row and none at its end, the
 * text of an instruction no ?>: else CHARACTER. URIs and values have no rule but that of Chars.
 * What a stream holds is judged so, too, each string once it is whole.
 */
plumethrift_write_reply plumethrift_write(plumethrift_settings settings,
                                          uint8_t *stream, size_t stream_octets,
                                          const uint32_t *events, size_t event_cells,
                                          const uint32_t *text, size_t text_cells,
                                          uint32_t *work, size_t work_cells);

/*
 * Readings
 *
 *   A reading is a stamp and a movement. The stamp is whole milliseconds since
 *   2000-01-01T00:00:00.000Z, up to PLUMETHRIFT_LAST_STAMP; the movement is micrometres, from
 *   -PLUMETHRIFT_MAX_MOVEMENT to PLUMETHRIFT_MAX_MOVEMENT. Each stamp is later than the one before.
 *
 *   A list of readings is a document whose root `readings` has children `r`, one for each, with the
 *   attribute `t`, the stamp as YYYY-MM-DDThh:mm:ss.mmmZ, then `um`, the movement as a decimal
 *   number; no other event, and all names in no namespace. Lists and readings stand for each other
 *   one to one: stamps that differ never become the same.
 *
 *   With the setting `fragment` the same list is written and read, as the only element of a
 *   fragment; a fragment of several elements, or of none, is STRUCTURE. What is said below of
 *   refusals by the writer, and of how the list lies, is proved for documents without bounds of
 *   values, and tested for fragments. Under bounds a movement may have to be laid again: then the
 *   reader's text store is not that of the list, and the writer may answer LIMIT, with the index of
 *   an event.
 *
 *   Readings lie in two parts, stamps and movements, reading i in cell i of both. Of the sizes that
 *   LIMIT speaks of, their list can pass the text store's alone: 111 code points, 24 a stamp, and
 *   each distinct movement once. So there are at most PLUMETHRIFT_MAX_READINGS, and fewer where
 *   movements differ.
 *
 *   Refused is the first reading that is wrong; of what is wrong with it the first of STRUCTURE,
 *   BAD_STAMP, BAD_MOVEMENT, NOT_LATER, LIMIT. ROOM comes before all.
 */
typedef struct plumethrift_readings_reply {
  uint32_t number;   /* 0, or the refusal's number */
  uint32_t index;    /* the reading, or the stream's event, concerned by a refusal; 0 on success */
  uint32_t readings; /* readings written: the first so many stamps and movements */
} plumethrift_readings_reply;

typedef struct plumethrift_list_reply {
  uint32_t number;      /* 0, or the refusal's number */
  uint32_t index;       /* the reading concerned by a refusal; 0 on success */
  uint32_t events;      /* events written: the list is the first 9 * events of the event cells */
  uint32_t code_points; /* code points written: the store is the first so many of the text cells */
} plumethrift_list_reply;

/*
 * Takes the readings out of the list that is all of `events`, with its strings in `text`: both are
 * only read, and may have any length. `stamps` and `movements` are lent for writing, at least
 * PLUMETHRIFT_MAX_READINGS cells each. Refusals 1, 12 and 16 to 19. A string that lies outside the
 * store is STRUCTURE. Where `event_cells` is no multiple of 9, the rest is one more event, which is
 * STRUCTURE.
 */
plumethrift_readings_reply plumethrift_readings_of_list(const uint32_t *events, size_t event_cells,
                                                        const uint32_t *text, size_t text_cells,
                                                        uint64_t *stamps, size_t stamp_cells,
                                                        int32_t *movements, size_t movement_cells);

/*
 * Makes the list of readings, as many as both `stamps` and `movements` have: both are only read,
 * and may have any length. `events` and `text` are lent for writing, at least
 * PLUMETHRIFT_EVENT_CELLS and PLUMETHRIFT_TEXT_CELLS cells. The list lies in them as the reader
 * leaves it for the stream that is written of it. Refusals 1, 12 and 17 to 19.
 */
plumethrift_list_reply plumethrift_list_of_readings(const uint64_t *stamps, size_t stamp_cells,
                                                    const int32_t *movements, size_t movement_cells,
                                                    uint32_t *events, size_t event_cells,
                                                    uint32_t *text, size_t text_cells);

/*
 * Reads a stream, and takes the readings out of its list, which is left in `events` and `text`.
 * Lent for writing are `events`, `text` and `work` as to plumethrift_read, and `stamps` and
 * `movements` as to plumethrift_readings_of_list. ROOM of any part comes first, then refusals 2 to
 * 14 of the reader, with the index of an event, then 16 to 19, with that of a reading.
 */
plumethrift_readings_reply plumethrift_read_readings(plumethrift_settings settings,
                                                     const uint8_t *stream, size_t stream_octets,
                                                     uint64_t *stamps, size_t stamp_cells,
                                                     int32_t *movements, size_t movement_cells,
                                                     uint32_t *events, size_t event_cells,
                                                     uint32_t *text, size_t text_cells,
                                                     uint32_t *work, size_t work_cells);

/*
 * Makes the list of readings, which is left in `events` and `text`, and writes it. Lent for writing
 * are `events` and `text` as to plumethrift_list_of_readings, and `stream` and `work` as to
 * plumethrift_write. ROOM of any part comes first, then refusals 12 and 17 to 19, with the index of
 * a reading, then 2 and 3, with index 0, and under bounds of values 12 with the index of an event.
 * That one is always above PLUMETHRIFT_MAX_READINGS, and a reading's never: event i is one of
 * reading (i - 2) / 4.
 */
plumethrift_write_reply plumethrift_write_readings(plumethrift_settings settings,
                                                   uint8_t *stream, size_t stream_octets,
                                                   const uint64_t *stamps, size_t stamp_cells,
                                                   const int32_t *movements, size_t movement_cells,
                                                   uint32_t *events, size_t event_cells,
                                                   uint32_t *text, size_t text_cells,
                                                   uint32_t *work, size_t work_cells);

/*
 * The stream in packets
 *
 *   A receiver reads a stream that comes in pieces. The caller keeps one record of it,
 *   plumethrift_receiver, and lends it to each call together with the memory: `held`, at least
 *   PLUMETHRIFT_HELD_OCTETS octets, in which the stream so far is kept, and `events`, `text` and
 *   `work` as to plumethrift_read. Before the first call the memory may hold anything. From then on
 *   record and memory go from call to call as they are; where one is changed between them, the
 *   answers may be other ones, counts in a reply too; the calls stay safe: they end, and touch
 *   nothing but what is lent.
 *
 *   However a stream is cut, empty pieces included, the closing call answers and leaves what
 *   plumethrift_read does for the whole of it; `held` is zero then, too.
 */
#define PLUMETHRIFT_HELD_OCTETS 16384 /* receiver: octets of the stream so far */
#define PLUMETHRIFT_RECEIVER_WORDS 44 /* 64-bit words of a receiver's record */

/* A receiver between its calls. What the words are is the library's affair. */
typedef struct plumethrift_receiver {
  uint64_t words[PLUMETHRIFT_RECEIVER_WORDS];
} plumethrift_receiver;

/* Starts a receiver for one stream. Settings without a meaning are refused by its calls. */
plumethrift_receiver plumethrift_start(plumethrift_settings settings);

/*
 * Hands over the next piece of the stream, of any length. Number 0: the stream may go on or be
 * complete; `events` and `text` show the events that are complete from the octets so far, counted
 * in the reply, and zeros past them. Refused is a piece once the octets so far, read whole, are
 * refused by a number other than ENDED. A refusal stays until a receiver is started afresh, but
 * past 16,384 octets, all of them counted, it is LONG, unless it is ROOM or SETTINGS. From a
 * refusal on every call leaves all that is lent zero, but the record. Refusals 1 to 4 and 6 to 14;
 * after a close its own number, 5 too.
 */
plumethrift_read_reply plumethrift_feed(plumethrift_receiver *receiver,
                                        const uint8_t *piece, size_t piece_octets,
                                        uint8_t *held, size_t held_octets,
                                        uint32_t *events, size_t event_cells,
                                        uint32_t *text, size_t text_cells,
                                        uint32_t *work, size_t work_cells);

/*
 * Says that the stream has ended. Calls after this one repeat its answer, whatever they are given;
 * they leave what is lent as it is, or zero where the answer is a refusal. Refusals 1 to 14.
 */
plumethrift_read_reply plumethrift_close(plumethrift_receiver *receiver,
                                         uint8_t *held, size_t held_octets,
                                         uint32_t *events, size_t event_cells,
                                         uint32_t *text, size_t text_cells,
                                         uint32_t *work, size_t work_cells);

/* The name of a refusal, "ROOM" to "NOT_LATER" for 1 to 19; "" for any other number. */
plumethrift_name plumethrift_refusal_name(uint32_t number);

/*
 * What a refusal means, in one sentence without a full stop; "" for any other number. This function
 * is ordinary C.
 */
static inline const char *plumethrift_refusal_sentence(uint32_t number) {
  switch (number) {
  case PLUMETHRIFT_ROOM:
    return "a lent part is too short";
  case PLUMETHRIFT_SETTINGS:
    return "a settings number has no meaning";
  case PLUMETHRIFT_LONG:
    return "the stream is, or would be, over 16384 octets";
  case PLUMETHRIFT_HEADER:
    return "an octet differs from the header that the settings ask for";
  case PLUMETHRIFT_ENDED:
    return "the input ends inside the header or a field";
  case PLUMETHRIFT_CODE:
    return "an event code part names no production";
  case PLUMETHRIFT_NUMBER:
    return "an Unsigned Integer is not in fewest octets, over 5 octets, or above 2147483647";
  case PLUMETHRIFT_CHARACTER:
    return "a code point is no XML 1.0 Char, or a comment has -- or ends in -, or an instruction "
           "has ?>";
  case PLUMETHRIFT_REFERENCE:
    return "a URI, name or value number names no entry";
  case PLUMETHRIFT_LOOSE:
    return "a literal, hit or production stands where the strict form has another";
  case PLUMETHRIFT_NAME:
    return "a local name or target is no NCName, a target is xml, or an attribute is xsi:nil or "
           "xsi:type";
  case PLUMETHRIFT_LIMIT:
    return "a size would be passed";
  case PLUMETHRIFT_TAIL:
    return "a pad bit is 1, or octets follow the end";
  case PLUMETHRIFT_SHAPE:
    return "a start tag has an attribute twice, or the kinds or the order of events are wrong";
  case PLUMETHRIFT_PLACE:
    return "a string lies outside the text store";
  case PLUMETHRIFT_STRUCTURE:
    return "the list is not one of readings";
  case PLUMETHRIFT_BAD_STAMP:
    return "a stamp is none of the years 2000 to 2099, or there is no such day or time";
  case PLUMETHRIFT_BAD_MOVEMENT:
    return "a movement is no whole number from -20000 to 20000, or not in its plain form";
  case PLUMETHRIFT_NOT_LATER:
    return "a stamp is not later than the one before";
  default:
    return "";
  }
}

/* The sizes to lend, at least: what the macros of the same names say. */
typedef struct plumethrift_sizes_to_lend {
  size_t event_cells;
  size_t text_cells;
  size_t stream_octets;
  size_t reader_work_cells;
  size_t writer_work_cells;
  size_t max_readings; /* stamps, and as many movements */
} plumethrift_sizes_to_lend;

plumethrift_sizes_to_lend plumethrift_sizes(void);

/* A string that was looked up: a part of the caller's own text store. It is not ended by a zero. */
typedef struct plumethrift_string {
  const uint32_t *code_points;
  size_t length;
} plumethrift_string;

/*
 * Looks up string `which` (0 to 3, as PLUMETHRIFT_VALUE) of the event in the nine cells at `event`,
 * in the store of `text_cells` cells at `text`. A string that lies outside the store is the empty
 * part at its start, and so is one that the kind does not have. This function is ordinary C.
 */
static inline plumethrift_string plumethrift_event_string(const uint32_t *event, unsigned which,
                                                          const uint32_t *text, size_t text_cells) {
  plumethrift_string string = {text, 0};
  const size_t place = event[1 + 2 * which];
  const size_t length = event[2 + 2 * which];
  if (place <= text_cells && length <= text_cells - place) {
    string.code_points = text + place;
    string.length = length;
  }
  return string;
}

#ifdef __cplusplus
}
#endif

#endif
