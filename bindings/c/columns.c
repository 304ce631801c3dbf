/* Columns of a page: each cut of its bytes into two, and byte by byte; cells without a value; batches that fill; what the columns do not take, with
 * its content in the input and in the decoder; the codes; a frame that is passed over; and calls that take turns with cqlp_next. It prints the arrays,
 * and expected-columns is what it must print. */
#include "give.h"

static const cqlp_limits LIMITS = {64, 64, 64, 8, 1, 0};
static const cqlp_batch_limits BATCH = {3, 2, 1024, 16};
static const uint8_t KINDS[] = {CQLP_KIND_INT, CQLP_KIND_VARCHAR, CQLP_KIND_BOOLEAN};

/* A page of three rows: 1, "abc", true; null, empty, empty; empty, null, false. */
static const uint8_t PAGE[] =
    "\x84\0\0\1\x08\0\0\0\122\0\0\0\2\0\0\0\1\0\0\0\3\0\1k\0\1t\0\1a\0\x09\0\1b\0\x0d\0\1c\0\4\0\0\0\3"
    "\0\0\0\4\0\0\0\1\0\0\0\3abc\0\0\0\1\1\xff\xff\xff\xff\0\0\0\0\0\0\0\0\0\0\0\0\xff\xff\xff\xff\0\0\0\1\0";

typedef struct totals {
  seen others;
  uint64_t arrays; /* a sum of all arrays, batch by batch */
  size_t batches, cells;
} totals;

static void see_arrays(totals *totals, cqlp_columns *columns, int print) {
  cqlp_column column;
  for (size_t k = 0; k < 3; k++) {
    CHECK(cqlp_columns_get(columns, k, &column) == CQLP_DONE && column.kind == KINDS[k]);
    size_t bits = (column.cells + 7) / 8;
    const uintptr_t places[] = {column.size ? (uintptr_t)column.values : 0, column.bounds ? (uintptr_t)column.offsets : 0,
                                bits ? (uintptr_t)column.validity : 0, bits ? (uintptr_t)column.empties : 0};
    for (size_t i = 0; i < 4; i++) CHECK(places[i] % _Alignof(max_align_t) == 0);
    totals->arrays = add(totals->arrays, column.values, column.size);
    totals->arrays = add(totals->arrays, (const uint8_t *)column.offsets, column.bounds * sizeof *column.offsets);
    totals->arrays = add(totals->arrays, column.validity, bits);
    totals->arrays = add(totals->arrays, column.empties, bits);
    totals->cells += column.cells;
    if (!print) continue;
    printf("column %zu: %zu cells, values", k, column.cells);
    for (size_t i = 0; i < column.size; i++) printf(" %u", column.values[i]);
    printf(", offsets");
    for (size_t i = 0; i < column.bounds; i++) printf(" %u", (unsigned)column.offsets[i]);
    printf(", valid %u, empty %u\n", bits ? column.validity[0] : 0, bits ? column.empties[0] : 0);
  }
  CHECK(cqlp_columns_get(columns, 3, &column) == CQLP_NO_COLUMN);
  totals->batches++;
}

/* Gives a piece, copied so that nothing beside it is read. */
static void give_piece(cqlp_decoder *decoder, cqlp_columns *columns, const uint8_t *piece, size_t length, totals *totals, int print) {
  uint8_t *copy = malloc(length + !length);
  CHECK(copy);
  memcpy(copy, piece, length);
  size_t used = 0;
  cqlp_event event;
  memset(&event, 0, sizeof event);
  for (;;) {
    cqlp_batch batch;
    CHECK(cqlp_columns_next(decoder, columns, copy + used, length - used, &event, &batch) == CQLP_DONE);
    used += batch.used;
    CHECK(used <= length && batch.events <= 1);
    if (batch.stop == CQLP_STOP_MORE) break;
    CHECK(batch.stop == CQLP_STOP_FULL);
    if (batch.events) {
      see(&totals->others, &event);
    } else {
      CHECK(cqlp_columns_next(decoder, columns, copy + used, length - used, &event, &batch) == CQLP_DONE);
      CHECK(batch.used == 0 && batch.events == 0 && batch.stop == CQLP_STOP_FULL);
      see_arrays(totals, columns, print);
      CHECK(cqlp_columns_clear(columns) == CQLP_DONE);
    }
  }
  CHECK(used == length);
  free(copy);
}

static totals read_page(const uint8_t *kinds, const size_t *ends, size_t pieces, int print) {
  totals totals = {{0, 0}, 0, 0, 0};
  cqlp_decoder decoder = CQLP_NO_DECODER_YET;
  cqlp_columns columns = CQLP_NO_COLUMNS_YET;
  CHECK(cqlp_new(&LIMITS, &decoder) == CQLP_DONE);
  CHECK(cqlp_columns_new(&BATCH, kinds, 3, &columns) == CQLP_DONE);
  size_t from = 0;
  for (size_t i = 0; i < pieces; from = ends[i], i++) give_piece(&decoder, &columns, PAGE + from, ends[i] - from, &totals, print);
  if (kinds == KINDS) see_arrays(&totals, &columns, print);
  CHECK(cqlp_columns_free(&columns) == CQLP_DONE && cqlp_free(&decoder) == CQLP_DONE);
  return totals;
}

static void cuts(void) {
  enum { LENGTH = sizeof PAGE - 1 };
  const size_t all[] = {LENGTH};
  totals whole = read_page(KINDS, all, 1, 1);
  printf("%zu batches, %zu cells, %zu other events\n", whole.batches, whole.cells, whole.others.events);
  size_t each[LENGTH];
  for (size_t i = 0; i < LENGTH; i++) each[i] = i + 1;
  for (size_t cut = 0; cut <= LENGTH + 1; cut++) {
    const size_t two[] = {cut, LENGTH};
    totals totals = cut <= LENGTH ? read_page(KINDS, two, 2, 0) : read_page(KINDS, each, LENGTH, 0);
    CHECK(memcmp(&totals, &whole, sizeof totals) == 0);
  }
  /* Cells of another kind are other events, with their contents. */
  const uint8_t ints[] = {CQLP_KIND_INT, CQLP_KIND_INT, CQLP_KIND_INT};
  whole = read_page(ints, all, 1, 0);
  printf("of other kinds: %zu other events\n", whole.others.events);
  for (size_t cut = 0; cut <= LENGTH; cut++) {
    const size_t two[] = {cut, LENGTH};
    totals totals = read_page(ints, two, 2, 0);
    CHECK(memcmp(&totals.others, &whole.others, sizeof totals.others) == 0);
  }
}

static void codes(void) {
  cqlp_decoder decoder = CQLP_NO_DECODER_YET;
  cqlp_columns columns = CQLP_NO_COLUMNS_YET;
  cqlp_event event;
  cqlp_batch batch;
  cqlp_column column;
  const uint8_t list[] = {CQLP_KIND_INT, CQLP_KIND_LIST}, none[] = {CQLP_KIND_INT, 0x7f};
  printf("no columns: %u %u %u", cqlp_columns_get(&columns, 0, &column), cqlp_columns_clear(&columns), cqlp_columns_free(&columns));
  printf(" %u", cqlp_columns_next(&decoder, &columns, PAGE, 9, &event, &batch));
  CHECK(cqlp_new(&LIMITS, &decoder) == CQLP_DONE);
  printf(" %u\n", cqlp_columns_next(&decoder, &columns, PAGE, 9, &event, &batch));
  printf("not made: %u %u", cqlp_columns_new(&BATCH, list, 2, &columns), cqlp_columns_new(&BATCH, none, 2, &columns));
  printf(" %u", cqlp_columns_new(&BATCH, (const uint8_t *)"\x09\x09\x09\x09", 4, &columns));
  CHECK(cqlp_columns_new(&BATCH, NULL, 0, &columns) == CQLP_DONE);
  printf(" %u\n", cqlp_columns_new(&BATCH, KINDS, 3, &columns));
  CHECK(cqlp_columns_next(&decoder, &columns, NULL, 0, &event, &batch) == CQLP_DONE && batch.stop == CQLP_STOP_MORE);
  CHECK(cqlp_columns_free(&columns) == CQLP_DONE && cqlp_free(&decoder) == CQLP_DONE);
}

/* A frame that is refused and passed over, and then the page, whose first events cqlp_next puts. */
static void skipped(void) {
  static const uint8_t bad[] = "\4\0\0\2\7\0\0\0\x09\0\0\0\2\xc3\x28\0\1\0";
  cqlp_decoder decoder = CQLP_NO_DECODER_YET;
  cqlp_columns columns = CQLP_NO_COLUMNS_YET;
  cqlp_skipped skipped;
  cqlp_event event, events[ROOM];
  cqlp_batch batch;
  cqlp_column column;
  size_t cells = 0, others = 0;
  uint8_t stream[sizeof bad - 1 + sizeof PAGE - 1];
  memcpy(stream, bad, sizeof bad - 1);
  memcpy(stream + sizeof bad - 1, PAGE, sizeof PAGE - 1);
  CHECK(cqlp_new(&LIMITS, &decoder) == CQLP_DONE && cqlp_columns_new(&BATCH, KINDS, 3, &columns) == CQLP_DONE);
  CHECK(cqlp_columns_next(&decoder, &columns, stream, sizeof stream, &event, &batch) == CQLP_DONE && batch.events == 1);
  size_t used = batch.used;
  CHECK(cqlp_columns_next(&decoder, &columns, stream + used, sizeof stream - used, &event, &batch) == CQLP_DONE);
  used += batch.used;
  printf("refused: %u %u at %u\n", batch.stop, batch.reason, (unsigned)batch.at);
  CHECK(cqlp_skip(&decoder, &skipped) == CQLP_DONE);
  CHECK(cqlp_next(&decoder, stream + used, sizeof stream - used, events, 4, &batch) == CQLP_DONE && batch.events == 4);
  used += batch.used;
  do {
    CHECK(cqlp_columns_next(&decoder, &columns, stream + used, sizeof stream - used, &event, &batch) == CQLP_DONE);
    used += batch.used;
    if (batch.events) {
      others++;
      CHECK(!event.length || (event.content >= stream && event.content + event.length == stream + used));
    } else if (batch.stop == CQLP_STOP_FULL) {
      CHECK(cqlp_columns_get(&columns, 0, &column) == CQLP_DONE);
      cells += column.cells;
      CHECK(cqlp_columns_clear(&columns) == CQLP_DONE);
    }
  } while (batch.stop == CQLP_STOP_FULL);
  CHECK(cqlp_columns_get(&columns, 0, &column) == CQLP_DONE && event.tag == CQLP_TAG_END && event.at == sizeof stream);
  printf("behind it: %zu rows, %zu other events, %s\n", cells + column.cells, others, used == sizeof stream ? "all used" : "not all used");
  CHECK(cqlp_columns_free(&columns) == CQLP_DONE && cqlp_free(&decoder) == CQLP_DONE);
}

int main(void) {
  _Static_assert(sizeof(cqlp_batch_limits) == 16 && sizeof(cqlp_column) == 64, "as the header says");
  cuts();
  codes();
  skipped();
  return 0;
}
