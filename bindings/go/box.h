// What the library writes for the package, in memory of C.
#ifndef CQLP_BOX_H
#define CQLP_BOX_H

#include <stddef.h>
#include <stdlib.h>
#include <string.h>
#include "cqlp.h"

enum { CQLP_ROOM = 256 };

// The place of a content that lies in the decoder, and not in the input.
#define CQLP_IN_DECODER SIZE_MAX

typedef struct {
  cqlp_decoder decoder;
  cqlp_batch batch;
  cqlp_end end;
  cqlp_holding holding;
  cqlp_skipped skipped;
  cqlp_columns columns;
  cqlp_column column;
  // where the content lies that is in the decoder, that of the last event, if it has one
  const uint8_t *content;
  cqlp_event events[CQLP_ROOM];
} cqlp_box;

// An event without an address: of a content it has the place in the input. The members lie as those of cqlp_event.
typedef struct {
  uint64_t at;
  size_t place, length;
  int64_t number;
  uint32_t row, column, level;
  int32_t extra;
  uint8_t bytes[16];
  uint8_t tag, field, kind, opcode, flags, mark, octets;
} cqlp_placed;

_Static_assert(sizeof(cqlp_placed) == sizeof(cqlp_event) && offsetof(cqlp_placed, place) == offsetof(cqlp_event, content) &&
                   offsetof(cqlp_placed, tag) == offsetof(cqlp_event, tag) && offsetof(cqlp_placed, octets) == offsetof(cqlp_event, octets),
               "both lie alike");

static inline cqlp_box *cqlp_box_new(const cqlp_limits *limits, int lenient, uint32_t *code) {
  cqlp_box *box = calloc(1, sizeof *box);
  *code = !box ? CQLP_NO_MEMORY : lenient ? cqlp_new_lenient(limits, &box->decoder) : cqlp_new(limits, &box->decoder);
  if (box && *code != CQLP_DONE) {
    free(box);
    box = NULL;
  }
  return box;
}

// Puts the place of each content in place of its address, since the input is memory of Go, so no address in it stays: in the events, or in a copy of
// them in memory of Go, into which C writes no address.
static inline void cqlp_box_place(cqlp_box *box, const uint8_t *input, size_t length, cqlp_placed *placed) {
  int there = (void *)placed == (void *)box->events;
  for (size_t i = 0; i < box->batch.events; i++) {
    cqlp_event *event = &box->events[i];
    size_t place = (uintptr_t)event->content - (uintptr_t)input;
    if (!event->length) {
      place = 0;
    } else if (place >= length) {
      box->content = event->content;
      place = CQLP_IN_DECODER;
    }
    if (there) {
      event->content = (const uint8_t *)(uintptr_t)place;
      continue;
    }
    memcpy(&placed[i], event, sizeof *event);
    placed[i].place = place;
    // after the copy, which would wait for a store to what it reads
    event->content = NULL;
  }
}

static inline void cqlp_box_next(cqlp_box *box, const uint8_t *input, size_t length, size_t room, cqlp_placed *placed) {
  cqlp_next(&box->decoder, input, length, box->events, room, &box->batch);
  cqlp_box_place(box, input, length, placed);
}

static inline void cqlp_box_fill(cqlp_box *box, const uint8_t *input, size_t length, cqlp_placed *placed) {
  cqlp_columns_next(&box->decoder, &box->columns, input, length, box->events, &box->batch);
  cqlp_box_place(box, input, length, placed);
}

// How many rows are whole in this many columns: the last one has no cell of the row under way.
static inline size_t cqlp_box_rows(cqlp_box *box, size_t columns) {
  return columns && cqlp_columns_get(&box->columns, columns - 1, &box->column) == CQLP_DONE ? box->column.cells : 0;
}

static inline void cqlp_box_free(cqlp_box *box) {
  cqlp_columns_free(&box->columns);
  cqlp_free(&box->decoder);
  free(box);
}

#endif
