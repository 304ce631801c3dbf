/* What a caller in C sees: the events of a page, a refusal, handles that are made and freed, and every cut of a stream. It
 * prints, and bindings/c/expected is what it must print. */
#include "give.h"

/* A response with one page, of one row with one list<int>, whose elements are 1 and null. */
static const uint8_t page[] = {0x84, 0, 0, 0, 8, 0, 0, 0, 49, 0, 0, 0, 2, 0, 0, 0, 1, 0, 0, 0, 1, 0, 1, 'k', 0, 1, 't', 0, 1,
                               'c', 0, 0x20, 0, 9, 0, 0, 0, 1, 0, 0, 0, 16, 0, 0, 0, 2, 0, 0, 0, 4, 0, 0, 0, 1, 0xFF, 0xFF,
                               0xFF, 0xFF};

/* A request, QUERY, whose text has six bytes. */
static const uint8_t query[] = {4, 0, 0, 7, 7, 0, 0, 0, 13, 0, 0, 0, 6, 'a', 'b', 'c', 'd', 'e', 'f', 0, 1, 0};

/* A page of one row with one decimal, 12345 with a scale of 2. */
static const uint8_t decimal[] = {0x84, 0, 0, 0, 8, 0, 0, 0, 37, 0, 0, 0, 2, 0, 0, 0, 1, 0, 0, 0, 1, 0, 1, 'k', 0, 1,
                                  't', 0, 1, 'c', 0, 6, 0, 0, 0, 1, 0, 0, 0, 6, 0, 0, 0, 2, 0x30, 0x39};

/* A page of two cells of the type int, the second of which has three bytes. */
static const uint8_t odd[] = {0x84, 0, 0, 1, 8, 0, 0, 0, 40, 0, 0, 0, 2, 0, 0, 0, 1, 0, 0, 0, 1, 0, 0, 0, 0,
                              0, 1, 'n', 0, 9, 0, 0, 0, 2, 0, 0, 0, 4, 0, 0, 0, 7, 0, 0, 0, 3, 0, 1, 2};

static void print_event(const cqlp_event *e) {
  printf("%llu tag %u", (unsigned long long)e->at, e->tag);
  if (e->field) printf(" field %u", e->field);
  if (e->kind) printf(" kind %u", e->kind);
  if (e->tag == CQLP_TAG_FRAME) printf(" opcode %u flags %u", e->opcode, e->flags);
  if (e->tag >= CQLP_TAG_LEAF && e->tag <= CQLP_TAG_PART) printf(" at %u %u %u", e->row, e->column, e->level);
  printf(" number %lld", (long long)e->number);
  if (e->extra) printf(" extra %d", e->extra);
  if (e->mark) printf(" mark %u", e->mark);
  if (e->length) {
    printf(" content ");
    for (size_t i = 0; i < e->length; i++) printf("%02x", e->content[i]);
  }
  printf("\n");
}

static void print_stream(const char *name, const uint8_t *stream, size_t length) {
  cqlp_limits limits = CQLP_DEFAULT_LIMITS;
  cqlp_decoder decoder = CQLP_NO_DECODER_YET;
  cqlp_event events[ROOM];
  cqlp_batch batch;
  cqlp_end end;
  memset(events, 0, sizeof events);
  memset(&batch, 0, sizeof batch);
  memset(&end, 0, sizeof end);
  CHECK(cqlp_new(&limits, &decoder) == CQLP_DONE);
  CHECK(cqlp_next(&decoder, stream, length, events, ROOM, &batch) == CQLP_DONE);
  printf("%s\n", name);
  for (size_t i = 0; i < batch.events; i++) print_event(&events[i]);
  printf("used %zu stop %u reason %u at %llu\n", batch.used, batch.stop, batch.reason, (unsigned long long)batch.at);
  CHECK(cqlp_finish(&decoder, &end) == CQLP_DONE);
  printf("verdict %u at %llu bytes %llu reason %u\n", end.verdict, (unsigned long long)end.at,
         (unsigned long long)end.bytes, end.reason);
  cqlp_end whole;
  memset(&whole, 0, sizeof whole);
  CHECK(cqlp_check(&limits, stream, length, &whole) == CQLP_DONE);
  CHECK(whole.verdict == end.verdict && whole.at == end.at && whole.bytes == end.bytes && whole.reason == end.reason);
  CHECK(cqlp_free(&decoder) == CQLP_DONE);
}

/* Each cut of a stream, and each room, gives the same events. */
static void cut_everywhere(const uint8_t *stream, size_t length) {
  cqlp_limits limits = CQLP_DEFAULT_LIMITS;
  seen wanted = {0, 0};
  cqlp_decoder decoder = CQLP_NO_DECODER_YET;
  CHECK(cqlp_new(&limits, &decoder) == CQLP_DONE);
  give(&decoder, stream, length, ROOM, &wanted);
  cqlp_free(&decoder);
  for (size_t first = 0; first <= length; first++)
    for (size_t second = first; second <= length; second++)
      for (size_t room = 1; room <= 3; room++) {
        seen seen = {0, 0};
        cqlp_end end;
        memset(&end, 0, sizeof end);
        CHECK(cqlp_new(&limits, &decoder) == CQLP_DONE);
        give(&decoder, stream, first, room, &seen);
        give(&decoder, stream + first, second - first, room, &seen);
        give(&decoder, stream + second, length - second, room, &seen);
        CHECK(seen.sum == wanted.sum && seen.events == wanted.events);
        CHECK(cqlp_finish(&decoder, &end) == CQLP_DONE);
        CHECK(end.verdict == CQLP_END_WHOLE && end.bytes == length);
        CHECK(cqlp_free(&decoder) == CQLP_DONE);
      }
  printf("each cut of %zu bytes: %zu events\n", length, wanted.events);
}

static void print_handles(void) {
  cqlp_limits limits = CQLP_DEFAULT_LIMITS;
  cqlp_decoder decoder = CQLP_NO_DECODER_YET;
  cqlp_holding held;
  cqlp_batch batch;
  cqlp_event event;
  cqlp_end end;
  memset(&held, 0, sizeof held);
  memset(&batch, 0, sizeof batch);
  memset(&event, 0, sizeof event);
  memset(&end, 0, sizeof end);
  printf("no decoder: %u %u %u %u\n", cqlp_next(&decoder, page, sizeof page, &event, 1, &batch),
         cqlp_finish(&decoder, &end), cqlp_held(&decoder, &held), cqlp_free(&decoder));
  limits.depth = 65;
  printf("bad depth: %u\n", cqlp_new(&limits, &decoder));
  limits.text = 31;
  printf("bad text first: %u\n", cqlp_new(&limits, &decoder));
  cqlp_limits good = CQLP_DEFAULT_LIMITS;
  for (int i = 0; i < 10000; i++) {
    CHECK(cqlp_new(&good, &decoder) == CQLP_DONE);
    CHECK(cqlp_new(&good, &decoder) == CQLP_IN_USE);
    CHECK(cqlp_next(&decoder, query, 15, &event, 1, &batch) == CQLP_DONE);
    CHECK(cqlp_free(&decoder) == CQLP_DONE);
  }
  CHECK(cqlp_new(&good, &decoder) == CQLP_DONE);
  CHECK(cqlp_next(&decoder, query, 15, &event, 1, &batch) == CQLP_DONE && batch.stop == CQLP_STOP_FULL);
  CHECK(cqlp_next(&decoder, query + 9, 6, &event, 1, &batch) == CQLP_DONE && batch.stop == CQLP_STOP_MORE);
  CHECK(cqlp_held(&decoder, &held) == CQLP_DONE);
  printf("held: %u bytes %u entries %u levels\n", held.bytes, held.entries, held.levels);
  CHECK(cqlp_next(&decoder, query + 15, 7, &event, 1, &batch) == CQLP_DONE);
  printf("a text of two pieces: %.*s used %zu stop %u\n", (int)event.length, (const char *)event.content, batch.used,
         batch.stop);
  printf("no room: %u", cqlp_next(&decoder, query + 19, 3, &event, 0, &batch));
  printf(" stop %u used %zu events %zu\n", batch.stop, batch.used, batch.events);
  CHECK(cqlp_free(&decoder) == CQLP_DONE);
}

/* A content that its type does not have is refused, and put as raw bytes by a decoder that is lenient. */
static void read_leniently(void) {
  cqlp_limits limits = CQLP_DEFAULT_LIMITS;
  cqlp_decoder decoder = CQLP_NO_DECODER_YET;
  cqlp_event events[ROOM];
  cqlp_batch batch;
  cqlp_end end;
  memset(events, 0, sizeof events);
  memset(&batch, 0, sizeof batch);
  memset(&end, 0, sizeof end);
  limits.depth = 0;
  CHECK(cqlp_new_lenient(&limits, &decoder) == CQLP_BAD_DEPTH);
  limits.depth = 16;
  CHECK(cqlp_new(&limits, &decoder) == CQLP_DONE && cqlp_new_lenient(&limits, &decoder) == CQLP_IN_USE);
  CHECK(cqlp_next(&decoder, odd, sizeof odd, events, ROOM, &batch) == CQLP_DONE);
  CHECK(batch.stop == CQLP_STOP_REFUSED && batch.reason == CQLP_REASON_BAD_SIZE && batch.at == 42);
  CHECK(cqlp_free(&decoder) == CQLP_DONE && cqlp_new_lenient(&limits, &decoder) == CQLP_DONE);
  CHECK(cqlp_next(&decoder, odd, sizeof odd, events, ROOM, &batch) == CQLP_DONE && batch.stop == CQLP_STOP_MORE);
  const cqlp_event *first = &events[batch.events - 3], *second = first + 1;
  CHECK(first->tag == CQLP_TAG_LEAF && first->kind == CQLP_KIND_INT && first->number == 7);
  CHECK(second->tag == CQLP_TAG_LEAF && second->kind == CQLP_KIND_RAW && second->row == 1 && second->at == 42);
  CHECK(second->length == 3 && second->content == odd + sizeof odd - 3);
  CHECK(cqlp_finish(&decoder, &end) == CQLP_DONE && end.verdict == CQLP_END_WHOLE && end.bytes == sizeof odd);
  CHECK(cqlp_free(&decoder) == CQLP_DONE);
}

/* No byte and no room may be given by a null pointer. */
static void give_nothing(void) {
  cqlp_limits limits = CQLP_DEFAULT_LIMITS;
  cqlp_decoder decoder = CQLP_NO_DECODER_YET;
  cqlp_event event;
  cqlp_batch batch;
  cqlp_end end;
  memset(&event, 0, sizeof event);
  memset(&batch, 0, sizeof batch);
  memset(&end, 0, sizeof end);
  CHECK(cqlp_new(&limits, &decoder) == CQLP_DONE);
  CHECK(cqlp_next(&decoder, NULL, 0, &event, 1, &batch) == CQLP_DONE);
  printf("no input: stop %u used %zu events %zu\n", batch.stop, batch.used, batch.events);
  CHECK(cqlp_next(&decoder, NULL, 0, NULL, 0, &batch) == CQLP_DONE);
  printf("and no room: stop %u used %zu events %zu\n", batch.stop, batch.used, batch.events);
  CHECK(cqlp_next(&decoder, query, sizeof query - 1, &event, 1, &batch) == CQLP_DONE && batch.used == 9);
  CHECK(cqlp_next(&decoder, query + 9, 3, &event, 1, &batch) == CQLP_DONE && batch.stop == CQLP_STOP_MORE);
  CHECK(cqlp_next(&decoder, NULL, 0, &event, 1, &batch) == CQLP_DONE && batch.stop == CQLP_STOP_MORE);
  CHECK(cqlp_finish(&decoder, &end) == CQLP_DONE);
  printf("within a field: verdict %u bytes %llu\n", end.verdict, (unsigned long long)end.bytes);
  CHECK(cqlp_free(&decoder) == CQLP_DONE);
  CHECK(cqlp_check(&limits, NULL, 0, &end) == CQLP_DONE);
  printf("a stream of nothing: verdict %u bytes %llu\n", end.verdict, (unsigned long long)end.bytes);
}

/* After a refusal each call says it again, with room and without, so that a loop over full batches ends. */
static void refuse_without_room(void) {
  static const uint8_t bad[] = {5, 0, 0, 0, 8, 0, 0, 0, 0};
  cqlp_limits limits = CQLP_DEFAULT_LIMITS;
  cqlp_decoder decoder = CQLP_NO_DECODER_YET;
  cqlp_event event;
  cqlp_batch batch;
  memset(&event, 0, sizeof event);
  memset(&batch, 0, sizeof batch);
  CHECK(cqlp_new(&limits, &decoder) == CQLP_DONE);
  CHECK(cqlp_next(&decoder, bad, sizeof bad, &event, 0, &batch) == CQLP_DONE);
  printf("no room: stop %u used %zu\n", batch.stop, batch.used);
  for (size_t room = 2; room-- > 0;) {
    CHECK(cqlp_next(&decoder, bad, sizeof bad, &event, room, &batch) == CQLP_DONE);
    printf("room %zu: stop %u reason %u at %llu used %zu events %zu\n", room, batch.stop, batch.reason,
           (unsigned long long)batch.at, batch.used, batch.events);
  }
  CHECK(cqlp_next(&decoder, NULL, 0, NULL, 0, &batch) == CQLP_DONE && batch.stop == CQLP_STOP_REFUSED);
  CHECK(cqlp_free(&decoder) == CQLP_DONE);
}

/* A QUERY with an empty text, whole and byte by byte: its content is no null pointer, and may be copied. */
static void copy_empty(void) {
  static const uint8_t empty[] = {4, 0, 0, 7, 7, 0, 0, 0, 7, 0, 0, 0, 0, 0, 1, 0};
  cqlp_limits limits = CQLP_DEFAULT_LIMITS;
  size_t seen = 0;
  for (size_t piece = 1; piece <= sizeof empty; piece += sizeof empty - 1) {
    cqlp_decoder decoder = CQLP_NO_DECODER_YET;
    CHECK(cqlp_new(&limits, &decoder) == CQLP_DONE);
    for (size_t at = 0; at < sizeof empty; at += piece) {
      cqlp_event events[ROOM];
      cqlp_batch batch;
      uint8_t copy[1] = {7};
      memset(events, 0, sizeof events);
      memset(&batch, 0, sizeof batch);
      do {
        CHECK(cqlp_next(&decoder, empty + at, piece, events, ROOM, &batch) == CQLP_DONE && batch.used == piece);
        for (size_t i = 0; i < batch.events; i++) {
          if (events[i].tag != CQLP_TAG_TEXT) continue;
          CHECK(events[i].content != NULL && events[i].length == 0);
          memcpy(copy, events[i].content, events[i].length);
          CHECK(copy[0] == 7);
          seen++;
        }
      } while (batch.stop == CQLP_STOP_FULL);
    }
    CHECK(cqlp_free(&decoder) == CQLP_DONE);
  }
  printf("an empty content, whole and byte by byte: %zu\n", seen);
}

int main(void) {
  static const uint8_t hostile[] = {0x84, 0, 0, 0, 8, 0x10, 0, 0, 1};
  print_stream("a page", page, sizeof page);
  print_stream("a query", query, sizeof query);
  print_stream("a decimal", decimal, sizeof decimal);
  print_stream("a page that is cut", page, 52);
  print_stream("a length of 256 MB and a byte", hostile, sizeof hostile);
  print_handles();
  read_leniently();
  give_nothing();
  refuse_without_room();
  copy_empty();
  cut_everywhere(page, sizeof page);
  cut_everywhere(query, sizeof query);
  cut_everywhere(decimal, sizeof decimal);
  return 0;
}
