/* Streams as data: those of bindings/streams.txt within the limits below come on standard input, each a name, `--raw` or `--parts`, `|` and
 * hexadecimal digits (bindings/build). Of each stream the offset and the tag of its events and its verdict are printed, as they are in
 * that file, and each cut of it has to give the same, with each content in its place. Then bytes of each stream are
 * replaced by others, one and four at each place, so that lengths and counts lie: however it is cut, the events and the verdict are
 * those of the whole, and no byte past a piece or past the array is read or written. */
#include "give.h"

static void print_whole(const cqlp_limits *limits, const uint8_t *stream, size_t length) {
  cqlp_decoder decoder = CQLP_NO_DECODER_YET;
  cqlp_event event;
  cqlp_batch batch;
  cqlp_end end;
  size_t used = 0;
  memset(&event, 0, sizeof event);
  memset(&batch, 0, sizeof batch);
  memset(&end, 0, sizeof end);
  CHECK(cqlp_new(limits, &decoder) == CQLP_DONE);
  do {
    CHECK(cqlp_next(&decoder, stream + used, length - used, &event, 1, &batch) == CQLP_DONE);
    used += batch.used;
    if (batch.events) printf("%llu %s\n", (unsigned long long)event.at, cqlp_name(CQLP_GROUP_TAG, event.tag));
  } while (batch.stop == CQLP_STOP_FULL);
  CHECK(cqlp_finish(&decoder, &end) == CQLP_DONE);
  if (end.verdict == CQLP_END_WHOLE) printf("whole %llu\n", (unsigned long long)end.bytes);
  if (end.verdict == CQLP_END_CUT)
    printf("cut %llu %llu\n", (unsigned long long)end.at, (unsigned long long)end.bytes);
  if (end.verdict == CQLP_END_REFUSED) printf("refused %llu %s\n", (unsigned long long)end.at, cqlp_name(CQLP_GROUP_REASON, end.reason));
  CHECK(cqlp_free(&decoder) == CQLP_DONE);
}

/* What two pieces of a stream, cut here, give, with this much room. */
static seen seen_of(const cqlp_limits *limits, const uint8_t *stream, size_t length, size_t cut, size_t room, cqlp_end *end) {
  cqlp_decoder decoder = CQLP_NO_DECODER_YET;
  seen seen = {0, 0};
  memset(end, 0, sizeof *end);
  CHECK(cqlp_new(limits, &decoder) == CQLP_DONE);
  give(&decoder, stream, cut, room, &seen);
  give(&decoder, stream + cut, length - cut, room, &seen);
  CHECK(cqlp_finish(&decoder, end) == CQLP_DONE);
  CHECK(cqlp_free(&decoder) == CQLP_DONE);
  return seen;
}

/* The same byte by byte. */
static seen seen_by_byte(const cqlp_limits *limits, const uint8_t *stream, size_t length, cqlp_end *end) {
  cqlp_decoder decoder = CQLP_NO_DECODER_YET;
  seen seen = {0, 0};
  memset(end, 0, sizeof *end);
  CHECK(cqlp_new(limits, &decoder) == CQLP_DONE);
  for (size_t i = 0; i < length; i++) give(&decoder, stream + i, 1, 2, &seen);
  CHECK(cqlp_finish(&decoder, end) == CQLP_DONE);
  CHECK(cqlp_free(&decoder) == CQLP_DONE);
  return seen;
}

static void check_same(seen a, seen b, const cqlp_end *end, const cqlp_end *whole) {
  CHECK(a.sum == b.sum && a.events == b.events && same_end(end, whole));
}

static void cut_everywhere(const cqlp_limits *limits, const uint8_t *stream, size_t length) {
  cqlp_end whole, end;
  seen wanted = seen_of(limits, stream, length, length, ROOM, &whole);
  memset(&end, 0, sizeof end);
  CHECK(cqlp_check(limits, stream, length, &end) == CQLP_DONE && same_end(&end, &whole));
  for (size_t cut = 0; cut <= length; cut++)
    for (size_t room = 1; room <= ROOM; room += ROOM - 1) {
      seen cut_there = seen_of(limits, stream, length, cut, room, &end);
      check_same(cut_there, wanted, &end, &whole);
    }
  seen by_byte = seen_by_byte(limits, stream, length, &end);
  check_same(by_byte, wanted, &end, &whole);
}

/* Whether an event lends a content. */
static int lends(const cqlp_event *event) {
  switch (event->tag) {
    case CQLP_TAG_TEXT: case CQLP_TAG_PART: return 1;
    case CQLP_TAG_BYTES: case CQLP_TAG_BOUND: return event->mark == CQLP_MARK_NONE;
    case CQLP_TAG_LEAF: break;
    default: return 0;
  }
  switch (event->kind) {
    case CQLP_KIND_CUSTOM: case CQLP_KIND_ASCII: case CQLP_KIND_BLOB: case CQLP_KIND_DECIMAL: case CQLP_KIND_VARCHAR:
    case CQLP_KIND_VARINT: case CQLP_KIND_RAW: return 1;
    default: return 0;
  }
}

/* Of each event of a stream the offset at which its content begins, as it was put alone, out of the whole stream: before the bytes that
 * were used, as many as it has. */
enum { PLACES = 4096 };
static size_t places[PLACES];

static void find_places(const cqlp_limits *limits, const uint8_t *stream, size_t length) {
  cqlp_decoder decoder = CQLP_NO_DECODER_YET;
  cqlp_event event;
  cqlp_batch batch;
  size_t used = 0, count = 0;
  memset(&event, 0, sizeof event);
  memset(&batch, 0, sizeof batch);
  CHECK(cqlp_new(limits, &decoder) == CQLP_DONE);
  do {
    CHECK(cqlp_next(&decoder, stream + used, length - used, &event, 1, &batch) == CQLP_DONE);
    used += batch.used;
    if (!batch.events) continue;
    CHECK(lends(&event) || (!event.content && !event.length));
    CHECK(!lends(&event) || event.content == stream + used - event.length);
    CHECK(count < PLACES);
    places[count++] = used - event.length;
  } while (batch.stop == CQLP_STOP_FULL);
  CHECK(cqlp_free(&decoder) == CQLP_DONE);
}

/* Gives a piece of the stream, which lies elsewhere, and looks at the contents once the call is over: one that came whole in the piece
 * lies there in its place; one whose first bytes came before lies outside, and is the last of its batch. Answers how many events there
 * were so far. */
static size_t give_and_look(cqlp_decoder *decoder, const uint8_t *stream, size_t from, size_t length, size_t room, size_t count) {
  uint8_t *piece = edge(PIECE, length);
  cqlp_event events[ROOM];
  cqlp_batch batch;
  size_t used = 0;
  memcpy(piece, stream + from, length);
  memset(events, 0, sizeof events);
  memset(&batch, 0, sizeof batch);
  do {
    CHECK(cqlp_next(decoder, piece + used, length - used, events, room, &batch) == CQLP_DONE);
    for (size_t i = 0; i < batch.events; i++, count++) {
      const cqlp_event *event = &events[i];
      if (!lends(event)) continue;
      size_t place = places[count];
      size_t scale = event->tag == CQLP_TAG_LEAF && event->kind == CQLP_KIND_DECIMAL ? 4 : 0;
      CHECK(event->content && memcmp(event->content, stream + place, event->length) == 0);
      if (place >= from + used + scale) {
        CHECK(event->content == piece + (place - from));
      } else {
        CHECK(event->content + event->length < piece || event->content > piece + length);
        CHECK(i + 1 == batch.events && batch.stop == CQLP_STOP_FULL);
      }
    }
    used += batch.used;
  } while (batch.stop == CQLP_STOP_FULL);
  return count;
}

static void look_everywhere(const cqlp_limits *limits, const uint8_t *stream, size_t length) {
  find_places(limits, stream, length);
  for (size_t cut = 0; cut <= length; cut++)
    for (size_t room = 1; room <= ROOM; room += ROOM - 1) {
      cqlp_decoder decoder = CQLP_NO_DECODER_YET;
      CHECK(cqlp_new(limits, &decoder) == CQLP_DONE);
      size_t count = give_and_look(&decoder, stream, 0, cut, room, 0);
      give_and_look(&decoder, stream, cut, length - cut, room, count);
      CHECK(cqlp_free(&decoder) == CQLP_DONE);
    }
}

/* Bytes that replace others. */
typedef struct lie {
  size_t width;
  uint8_t bytes[4];
} lie;

static const lie LIES[] = {{1, {0x00}}, {1, {0x01}}, {1, {0x7F}}, {1, {0x80}}, {1, {0xFF}}, {4, {0x7F, 0xFF, 0xFF, 0xFF}},
                           {4, {0x80, 0, 0, 0}}, {4, {0xFF, 0xFF, 0xFF, 0xFE}}, {4, {0xFF, 0xFF, 0xFF, 0xFD}},
                           {4, {0x10, 0, 0, 1}}};

/* Each place of the stream lies in turn, by each lie. */
static void lie_everywhere(const cqlp_limits *limits, uint8_t *stream, size_t length) {
  for (size_t at = 0; at < length; at++)
    for (size_t i = 0; i < sizeof LIES / sizeof LIES[0] && at + LIES[i].width <= length; i++) {
      uint8_t truth[4];
      cqlp_end whole, end;
      memcpy(truth, stream + at, LIES[i].width);
      memcpy(stream + at, LIES[i].bytes, LIES[i].width);
      seen wanted = seen_of(limits, stream, length, length, ROOM, &whole);
      seen by_byte = seen_by_byte(limits, stream, length, &end);
      check_same(by_byte, wanted, &end, &whole);
      seen cut_there = seen_of(limits, stream, length, at, 1, &end);
      check_same(cut_there, wanted, &end, &whole);
      memcpy(stream + at, truth, LIES[i].width);
    }
}

static int digit(char c) {
  if (c >= '0' && c <= '9') return c - '0';
  if (c >= 'a' && c <= 'f') return c - 'a' + 10;
  return -1;
}

static size_t bytes_of(const char *digits, uint8_t *bytes, size_t room) {
  size_t count = 0;
  int high = -1;
  for (; *digits; digits++) {
    int value = digit(*digits);
    if (value < 0) continue;
    if (high < 0) {
      high = value;
    } else {
      CHECK(count < room);
      bytes[count++] = (uint8_t)(high * 16 + value);
      high = -1;
    }
  }
  CHECK(high < 0);
  return count;
}

int main(void) {
  static char line[8192];
  static uint8_t stream[4096];
  while (fgets(line, sizeof line, stdin)) {
    char *bar = strchr(line, '|');
    if (!bar) continue;
    size_t length = bytes_of(bar + 1, stream, sizeof stream);
    while (bar > line && bar[-1] == ' ') bar--;
    *bar = 0;
    printf("== %s\n", line);
    cqlp_limits limits = {64, 64, 8, 3, !strstr(line, "--raw"), strstr(line, "--parts") != NULL};
    print_whole(&limits, stream, length);
    cut_everywhere(&limits, stream, length);
    look_everywhere(&limits, stream, length);
    lie_everywhere(&limits, stream, length);
  }
  return 0;
}
