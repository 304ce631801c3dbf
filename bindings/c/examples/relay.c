/* Writes the page in a file with another stream id, a cell at a time: relay FILE ID */
#include <cqlp.h>
#include <stdio.h>
#include <stdlib.h>
#include <string.h>

/* Events that wait to be written, those of the head or of one cell, and their contents one after the other. */
static cqlp_event events[1024];
static uint8_t contents[65536], bytes[65536];
static size_t count, length;

static int32_t id;
static cqlp_measured measured;
static cqlp_page page = CQLP_NO_PAGE_YET;

static uint32_t hold(const cqlp_event *event) {
  size_t more = event->content ? event->length : 0;
  if (count == sizeof events / sizeof *events || more > sizeof contents - length) return CQLP_NO_ROOM;
  events[count++] = *event;
  if (more) memcpy(contents + length, event->content, more);
  length += more;
  return CQLP_DONE;
}

static uint32_t written(uint32_t code, size_t put) {
  fwrite(bytes, 1, put, stdout);
  count = length = 0;
  return code;
}

static uint32_t begin(void) {
  cqlp_encoded begun = {0};
  events[0].extra = id;
  uint32_t code = cqlp_page_begin(events, count, contents, length, measured.size, bytes, sizeof bytes, &page, &begun);
  return written(code, code == CQLP_DONE ? begun.length : 0);
}

static uint32_t put(void) {
  cqlp_put put = {0};
  uint32_t code = cqlp_page_put(&page, events, count, contents, length, bytes, sizeof bytes, &put);
  return written(code, put.length);
}

/* The first time the bytes of the cells are added up, since the header counts them. */
static uint32_t take(const cqlp_event *event, int again) {
  int is_cell = CQLP_TAG_LEAF <= event->tag && event->tag <= CQLP_TAG_LEAVE;
  if (!again) return cqlp_page_measure(event, 1, event->content, event->content ? event->length : 0, &measured);
  if (event->tag == CQLP_TAG_END) return cqlp_page_end(&page);
  uint32_t code = hold(event);
  if (code == CQLP_DONE && event->tag == CQLP_TAG_COUNT && event->field == CQLP_FIELD_ROWS) return begin();
  if (code == CQLP_DONE && is_cell && event->level == 0 && event->tag != CQLP_TAG_ENTER) return put();
  return code;
}

/* Hands the events of a file on, up to the first that is not taken. */
static uint32_t read_file(FILE *file, int again) {
  static uint8_t piece[4096];
  cqlp_event some[64];
  cqlp_limits limits = CQLP_DEFAULT_LIMITS;
  cqlp_decoder decoder = CQLP_NO_DECODER_YET;
  cqlp_batch batch = {0};
  uint32_t code = cqlp_new(&limits, &decoder);
  for (size_t got; code == CQLP_DONE && batch.stop != CQLP_STOP_REFUSED && (got = fread(piece, 1, sizeof piece, file)) > 0;) {
    size_t used = 0;
    do {
      cqlp_next(&decoder, piece + used, got - used, some, 64, &batch);
      used += batch.used;
      for (size_t i = 0; i < batch.events && code == CQLP_DONE; i++) code = take(&some[i], again);
    } while (code == CQLP_DONE && batch.stop == CQLP_STOP_FULL);
  }
  cqlp_free(&decoder);
  return batch.stop == CQLP_STOP_REFUSED ? CQLP_NO_SUCH_FRAME : code;
}

int main(int words, char **word) {
  FILE *file = words == 3 ? fopen(word[1], "rb") : NULL;
  if (!file) return 2;
  id = atoi(word[2]);
  uint32_t code = read_file(file, 0);
  rewind(file);
  if (code == CQLP_DONE) code = read_file(file, 1);
  if (code == CQLP_DONE && page.live == 0) code = CQLP_NO_PAGE;
  cqlp_page_free(&page);
  fclose(file);
  if (code != CQLP_DONE) fprintf(stderr, "%s\n", cqlp_name(CQLP_GROUP_CODE, code));
  return code != CQLP_DONE;
}
