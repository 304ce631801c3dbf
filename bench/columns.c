/* Puts the cells of the page on standard input into columns, 4,096 rows at a time, and writes how many there were: columns <PAGE. The page is one of
 * pages.py without items. */
#include "cqlp.h"

#include <stdio.h>
#include <stdlib.h>
#include <unistd.h>

enum { PIECE = 4096, MOST = 256 };

static uint8_t piece[PIECE], kinds[MOST];
static size_t length, used, count;

/* The next event, before the page's first cell. */
static cqlp_event next_event(cqlp_decoder *decoder) {
  cqlp_event event = {0};
  cqlp_batch batch = {0, 0, 0, 0, 0};
  for (;;) {
    cqlp_next(decoder, piece + used, length - used, &event, 1, &batch);
    used += batch.used;
    if (batch.events) return event;
    ssize_t more = read(0, piece, PIECE);
    if (batch.stop != CQLP_STOP_MORE || more <= 0) exit(1);
    length = (size_t)more, used = 0;
  }
}

/* Reads on until the number of rows, and keeps the kind of each column. */
static void read_front(cqlp_decoder *decoder) {
  cqlp_event event;
  do {
    event = next_event(decoder);
    if (event.tag == CQLP_TAG_TYPE_NODE && count < MOST) kinds[count++] = event.kind;
  } while (event.tag != CQLP_TAG_COUNT || event.field != CQLP_FIELD_ROWS);
}

/* How many cells the columns have, which are taken out of them. */
static size_t taken(cqlp_columns *columns) {
  size_t cells = 0;
  cqlp_column column;
  for (size_t at = 0; at < count && cqlp_columns_get(columns, at, &column) == CQLP_DONE; at++) cells += column.cells;
  cqlp_columns_clear(columns);
  return cells;
}

int main(void) {
  cqlp_limits limits = CQLP_DEFAULT_LIMITS;
  cqlp_batch_limits most = {0, 4096, 1 << 17, 1 << 12};
  cqlp_decoder decoder = CQLP_NO_DECODER_YET;
  cqlp_columns columns = CQLP_NO_COLUMNS_YET;
  cqlp_event event;
  cqlp_batch batch;
  size_t cells = 0;
  if (cqlp_new(&limits, &decoder) != CQLP_DONE) return 1;
  read_front(&decoder);
  most.columns = (uint32_t)count;
  if (cqlp_columns_new(&most, kinds, count, &columns) != CQLP_DONE) return 1;
  do {
    do {
      cqlp_columns_next(&decoder, &columns, piece + used, length - used, &event, &batch);
      used += batch.used;
      if (batch.stop == CQLP_STOP_FULL && !batch.events) cells += taken(&columns);
    } while (batch.stop == CQLP_STOP_FULL);
    ssize_t more = read(0, piece, PIECE);
    length = more > 0 ? (size_t)more : 0, used = 0;
  } while (length > 0 && batch.stop == CQLP_STOP_MORE);
  printf("%zu cells\n", cells + taken(&columns));
  return cqlp_columns_free(&columns) != CQLP_DONE || cqlp_free(&decoder) != CQLP_DONE || batch.stop != CQLP_STOP_MORE;
}
