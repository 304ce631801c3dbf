/* What the tests share: a stream given to a decoder in pieces, and the sum of the events that it puts. */
#ifndef GIVE_H
#define GIVE_H

#define _DEFAULT_SOURCE
#include "cqlp.h"

#include <assert.h>
#include <stdio.h>
#include <stdlib.h>
#include <string.h>
#include <sys/mman.h>

/* Ends the test where something is not so, also where asserts are off. */
#define CHECK(holds)                                                       \
  do {                                                                     \
    if (!(holds)) {                                                        \
      fprintf(stderr, "%s:%d: not so: %s\n", __FILE__, __LINE__, #holds);  \
      exit(1);                                                             \
    }                                                                      \
  } while (0)

enum { ROOM = 64 };

/* What was seen of a stream: a sum over its events, and how many there are. */
typedef struct seen {
  uint64_t sum;
  size_t events;
} seen;

static inline uint64_t add(uint64_t sum, const uint8_t *bytes, size_t length) {
  for (size_t i = 0; i < length; i++) sum = (sum ^ bytes[i]) * 1099511628211u;
  return sum;
}

/* An event without where its content lies, and its content. */
static inline void see(seen *seen, const cqlp_event *event) {
  cqlp_event plain = *event;
  plain.content = NULL;
  seen->sum = add(seen->sum, (const uint8_t *)&plain, offsetof(cqlp_event, octets) + 1);
  seen->sum = add(seen->sum, event->content, event->length);
  seen->events++;
}

/* The events of a page of two rows, a text and a list of two ints in each, one of them null, or null and empty; and their contents. */
enum { OF_PAGE = 20 };
static const char page_contents[] = "ktabx";

static inline void make_page(cqlp_event events[OF_PAGE]) {
  const cqlp_event page[OF_PAGE] = {
    {.tag = CQLP_TAG_FRAME, .opcode = CQLP_OPCODE_RESULT, .extra = 7, .mark = CQLP_MARK_RESPONSE},
    {.tag = CQLP_TAG_INT, .field = CQLP_FIELD_RESULT_KIND, .number = CQLP_RESULT_ROWS},
    {.tag = CQLP_TAG_INT, .field = CQLP_FIELD_META_FLAGS, .number = 1},
    {.tag = CQLP_TAG_COUNT, .field = CQLP_FIELD_COLUMNS, .number = 2},
    {.tag = CQLP_TAG_TEXT, .field = CQLP_FIELD_KEYSPACE, .length = 1},
    {.tag = CQLP_TAG_TEXT, .field = CQLP_FIELD_TABLE, .length = 1},
    {.tag = CQLP_TAG_TEXT, .field = CQLP_FIELD_COLUMN_NAME, .length = 1},
    {.tag = CQLP_TAG_TYPE_NODE, .kind = CQLP_KIND_VARCHAR},
    {.tag = CQLP_TAG_TEXT, .field = CQLP_FIELD_COLUMN_NAME, .length = 1},
    {.tag = CQLP_TAG_TYPE_NODE, .kind = CQLP_KIND_LIST},
    {.tag = CQLP_TAG_TYPE_NODE, .kind = CQLP_KIND_INT},
    {.tag = CQLP_TAG_COUNT, .field = CQLP_FIELD_ROWS, .number = 2},
    {.tag = CQLP_TAG_LEAF, .kind = CQLP_KIND_VARCHAR, .length = 1},
    {.tag = CQLP_TAG_ENTER, .column = 1, .kind = CQLP_KIND_LIST, .number = 2},
    {.tag = CQLP_TAG_LEAF, .column = 1, .level = 1, .kind = CQLP_KIND_INT, .number = 7},
    {.tag = CQLP_TAG_NULL, .column = 1, .level = 1},
    {.tag = CQLP_TAG_LEAVE, .number = 2},
    {.tag = CQLP_TAG_NULL, .row = 1},
    {.tag = CQLP_TAG_EMPTY, .row = 1, .column = 1},
    {.tag = CQLP_TAG_END},
  };
  memcpy(events, page, sizeof page);
}

enum { PIECE, EVENTS, BYTES, AREAS };

/* The last bytes, this many, of an area after which no byte may be read or written, so that a step outside ends the test, also
 * one of code that no sanitizer was built into. */
static inline void *edge(int area, size_t size) {
  enum { AREA = 1 << 22 };
  static uint8_t *ends[AREAS];
  if (!ends[area]) {
    uint8_t *all = mmap(NULL, 2 * AREA, PROT_READ | PROT_WRITE, MAP_PRIVATE | MAP_ANONYMOUS, -1, 0);
    CHECK(all != MAP_FAILED && mprotect(all + AREA, AREA, PROT_NONE) == 0);
    ends[area] = all + AREA;
  }
  CHECK(size <= AREA);
  return ends[area] - size;
}

/* Gives a piece to the decoder. The piece and the array of events lie at edges. */
static inline uint8_t give(cqlp_decoder *decoder, const uint8_t *piece, size_t length, size_t room, seen *seen) {
  cqlp_event *events = edge(EVENTS, room * sizeof *events);
  uint8_t *copy = edge(PIECE, length);
  cqlp_batch batch;
  size_t used = 0;
  memcpy(copy, piece, length);
  memset(events, 0, room * sizeof *events);
  memset(&batch, 0, sizeof batch);
  do {
    CHECK(cqlp_next(decoder, copy + used, length - used, events, room, &batch) == CQLP_DONE);
    CHECK(batch.used <= length - used && batch.events <= room);
    CHECK(batch.stop != CQLP_STOP_FULL || batch.events > 0);
    used += batch.used;
    for (size_t i = 0; i < batch.events; i++) see(seen, &events[i]);
  } while (batch.stop == CQLP_STOP_FULL);
  CHECK(batch.stop != CQLP_STOP_MORE || used == length);
  return batch.stop;
}

static inline int same_end(const cqlp_end *a, const cqlp_end *b) {
  return a->verdict == b->verdict && a->at == b->at && a->bytes == b->bytes && a->reason == b->reason;
}

#endif
