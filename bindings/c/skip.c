/* Frames that are passed over: streams with frames that are refused within their bodies, each whole, in every cut into three, in batches of
 * one to three events and of no room; what cannot be passed over; tables of types; and that a skip asks for nothing. It prints what it sees
 * of each stream, and expected-skip is what it must print. */
#include "give.h"

static const cqlp_limits LIMITS = {32, 32, 64, 16, 1, 0};

/* Each stream in hexadecimal digits. */
static const struct {
  const char *name, *bytes;
} STREAMS[] = {
    {"the second of three frames",
     "04000001050000000004000002070000000900000002c328000100040000030500000000"},
    {"a text over the limit",
     "0400000105000000000400000207000000280000002161616161616161616161616161616161616161616161616161616161"
     "6161616161000100040000030500000000"},
    {"a text past its frame",
     "040000020700000009000000066161610001040000030500000000"},
    {"a frame that ends within a length",
     "0400000207000000020000040000030500000000"},
    {"two bad frames, and then one that is not",
     "04000001070000000900000002c3280001000400000207000000090000000228ff00010004000003070000000b0000000461"
     "626364000100040000040500000000"},
    {"a page with a cell that is no int",
     "8400000508000000320000000200000001000000010001780001790001610009000000030000000400000007000000030102"
     "0300000004000000088400000608000000230000000200000001000000010001780001790001610009000000010000000400"
     "000009"},
    {"a cut within the bytes that are passed over",
     "04000001050000000004000002070000000900000002c32800"},
    {"an end with the bytes that are passed over",
     "04000001050000000004000002070000000900000002c328000100"},
    {"a bad header behind a bad frame",
     "04000001070000000900000002c328000100040000024400000000040000030500000000"},
    {"a bad version",
     "040000010500000000830000020500000000040000030500000000"},
};

enum { MOST = 256, SKIPS = 4 };

/* What was seen of a stream, and what was passed over. */
typedef struct outcome {
  seen seen;
  cqlp_skipped skipped[SKIPS];
  size_t skips;
  cqlp_end end;
  uint32_t code; /* of the last skip */
} outcome;

static size_t bytes_of(const char *digits, uint8_t *bytes) {
  size_t length = strlen(digits) / 2;
  CHECK(strlen(digits) % 2 == 0 && length <= MOST);
  for (size_t i = 0; i < length; i++) {
    unsigned byte;
    CHECK(sscanf(digits + 2 * i, "%2x", &byte) == 1);
    bytes[i] = (uint8_t)byte;
  }
  return length;
}

static void print_event(const cqlp_event *event) {
  printf("  %d %s", (int)event->at, cqlp_name(CQLP_GROUP_TAG, event->tag));
  if (event->tag == CQLP_TAG_FRAME) printf(" under %d, %d bytes", (int)event->extra, (int)event->number);
  if (event->field) printf(" %s", cqlp_name(CQLP_GROUP_FIELD, event->field));
  if (event->length) printf(" %.*s", (int)event->length, (const char *)event->content);
  printf("\n");
}

/* Passes over a frame, if it can be. The event of its header is that which was put. */
static int pass_over(cqlp_decoder *decoder, const cqlp_event *frame, outcome *outcome) {
  cqlp_skipped skipped;
  memset(&skipped, 0, sizeof skipped);
  outcome->code = cqlp_skip(decoder, &skipped);
  if (outcome->code != CQLP_DONE) {
    CHECK(skipped.frame.tag == 0 && skipped.at == 0 && skipped.rest == 0 && skipped.reason == 0);
    return 0;
  }
  CHECK(memcmp(&skipped.frame, frame, offsetof(cqlp_event, octets) + 1) == 0 && outcome->skips < SKIPS);
  CHECK(cqlp_skip(decoder, &skipped) == CQLP_NOT_REFUSED);
  outcome->skipped[outcome->skips++] = skipped;
  return 1;
}

/* Gives a piece, and passes over each frame that is refused. Answers whether the decoder goes on. */
static int read_piece(cqlp_decoder *decoder, const uint8_t *piece, size_t length, size_t room, int print, outcome *outcome) {
  static cqlp_event frame;
  cqlp_event *events = edge(EVENTS, room * sizeof *events);
  uint8_t *copy = edge(PIECE, length);
  cqlp_batch batch;
  size_t used = 0;
  memcpy(copy, piece, length);
  memset(events, 0, room * sizeof *events);
  memset(&batch, 0, sizeof batch);
  do {
    CHECK(cqlp_next(decoder, copy + used, length - used, events, room, &batch) == CQLP_DONE);
    CHECK(batch.used <= length - used && batch.events <= room);
    used += batch.used;
    for (size_t i = 0; i < batch.events; i++) {
      see(&outcome->seen, &events[i]);
      if (print) print_event(&events[i]);
      if (events[i].tag == CQLP_TAG_FRAME) frame = events[i];
    }
    if (batch.stop == CQLP_STOP_REFUSED) {
      size_t skips = outcome->skips;
      if (!pass_over(decoder, &frame, outcome)) return 0;
      CHECK(outcome->skipped[skips].at == batch.at && outcome->skipped[skips].reason == batch.reason);
      if (print)
        printf("  %d %s: the frame at %d is passed over, %d bytes to come\n", (int)batch.at, cqlp_name(CQLP_GROUP_REASON, batch.reason),
               (int)outcome->skipped[skips].frame.at, (int)outcome->skipped[skips].rest);
    }
  } while (batch.stop != CQLP_STOP_MORE);
  CHECK(used == length);
  return 1;
}

/* Reads a stream that is cut at two places. */
static outcome read_cut(const uint8_t *bytes, size_t length, size_t first, size_t second, size_t room, int print) {
  cqlp_decoder decoder = CQLP_NO_DECODER_YET;
  outcome outcome;
  memset(&outcome, 0, sizeof outcome);
  CHECK(cqlp_new(&LIMITS, &decoder) == CQLP_DONE);
  if (read_piece(&decoder, bytes, first, room, print, &outcome) && read_piece(&decoder, bytes + first, second - first, room, print, &outcome))
    read_piece(&decoder, bytes + second, length - second, room, print, &outcome);
  CHECK(cqlp_finish(&decoder, &outcome.end) == CQLP_DONE && cqlp_free(&decoder) == CQLP_DONE);
  return outcome;
}

/* The frame is the same, and what came of it; how many of its bytes are to come depends on the cut alone. */
static int same_skip(const cqlp_skipped *a, const cqlp_skipped *b) {
  return memcmp(&a->frame, &b->frame, offsetof(cqlp_event, octets) + 1) == 0 && a->at == b->at && a->reason == b->reason;
}

static void check_same(const outcome *a, const outcome *b) {
  CHECK(a->seen.events == b->seen.events && a->seen.sum == b->seen.sum && a->skips == b->skips && a->code == b->code);
  CHECK(same_end(&a->end, &b->end));
  for (size_t i = 0; i < a->skips; i++) CHECK(same_skip(&a->skipped[i], &b->skipped[i]));
}

static void print_end(const outcome *outcome) {
  printf("  %s", cqlp_name(CQLP_GROUP_END, outcome->end.verdict));
  if (outcome->end.verdict == CQLP_END_WHOLE) printf(" %d", (int)outcome->end.bytes);
  if (outcome->end.verdict == CQLP_END_CUT) printf(" %d %d", (int)outcome->end.at, (int)outcome->end.bytes);
  if (outcome->end.verdict == CQLP_END_REFUSED)
    printf(" %d %s, not passed over: %s", (int)outcome->end.at, cqlp_name(CQLP_GROUP_REASON, outcome->end.reason),
           cqlp_name(CQLP_GROUP_CODE, outcome->code));
  printf("\n");
}

static void read_streams(void) {
  for (size_t i = 0; i < sizeof STREAMS / sizeof STREAMS[0]; i++) {
    uint8_t bytes[MOST];
    size_t length = bytes_of(STREAMS[i].bytes, bytes);
    printf("%s\n", STREAMS[i].name);
    outcome whole = read_cut(bytes, length, 0, length, ROOM, 1);
    print_end(&whole);
    for (size_t first = 0; first <= length; first++)
      for (size_t second = first; second <= length; second++) {
        outcome cut = read_cut(bytes, length, first, second, 1 + (first + second) % 3, 0);
        check_same(&whole, &cut);
      }
  }
}

/* The bytes of a frame that was passed over are used without room too, and an end within them is a cut. */
static void count_bytes(void) {
  static const uint8_t frame[] = {4, 0, 0, 1, 7, 0, 0, 0, 9, 0, 0, 0, 2, 0xC3, 0x28, 0, 1, 0};
  cqlp_decoder decoder = CQLP_NO_DECODER_YET;
  cqlp_event events[2];
  cqlp_skipped skipped;
  cqlp_batch batch;
  cqlp_end end = {0, 0, 0, 0};
  memset(events, 0, sizeof events);
  memset(&skipped, 0, sizeof skipped);
  memset(&batch, 0, sizeof batch);
  printf("no decoder: %u", cqlp_skip(&decoder, &skipped));
  CHECK(cqlp_new(&LIMITS, &decoder) == CQLP_DONE);
  printf(", nothing refused: %u", cqlp_skip(&decoder, &skipped));
  CHECK(cqlp_next(&decoder, frame, 15, events, 2, &batch) == CQLP_DONE && batch.stop == CQLP_STOP_REFUSED && batch.used == 9);
  printf(", refused: %u", cqlp_skip(&decoder, &skipped));
  printf(", %d bytes to come", (int)skipped.rest);
  CHECK(cqlp_next(&decoder, frame + 9, 6, events, 0, &batch) == CQLP_DONE && batch.stop == CQLP_STOP_FULL && batch.used == 6);
  CHECK(cqlp_finish(&decoder, &end) == CQLP_DONE && end.verdict == CQLP_END_CUT && end.at == 0 && end.bytes == 15);
  CHECK(cqlp_next(&decoder, frame + 15, 3, events, 2, &batch) == CQLP_DONE && batch.stop == CQLP_STOP_MORE && batch.used == 3);
  CHECK(cqlp_finish(&decoder, &end) == CQLP_DONE && end.verdict == CQLP_END_WHOLE && end.bytes == 18);
  CHECK(cqlp_next(&decoder, frame, 9, events, 2, &batch) == CQLP_DONE && batch.events == 1 && events[0].at == 18);
  CHECK(cqlp_free(&decoder) == CQLP_DONE && cqlp_new(&LIMITS, &decoder) == CQLP_DONE);
  CHECK(cqlp_next(&decoder, frame, 9, events, 2, &batch) == CQLP_DONE && batch.events == 1 && events[0].at == 0);
  CHECK(cqlp_free(&decoder) == CQLP_DONE);
  printf(", and a new decoder begins at 0\n");
}

/* A table that was given is taken back before a skip; one that was not is freed with it. */
static void keep_types(void) {
  static const uint8_t prepared[] = {0x84, 0, 0, 1, 8, 0, 0, 0, 36, 0, 0, 0, 4, 0, 1, 'p', 0, 0, 0, 0, 0, 0, 0, 0, 0, 0, 0, 0,
                                     0, 0, 0, 1, 0, 0, 0, 1, 0, 1, 'k', 0, 1, 't', 0, 1, 'a'};
  static const uint8_t type[] = {0, 9};
  static const uint8_t page[] = {0x84, 0, 0, 2, 8, 0, 0, 0, 24, 0, 0, 0, 2, 0, 0, 0, 4, 0, 0, 0, 1, 0, 0, 0, 1, 0, 0, 0, 4, 0, 0, 0, 7};
  cqlp_decoder decoder = CQLP_NO_DECODER_YET;
  cqlp_types types = CQLP_NO_TYPES_YET;
  uint8_t first[sizeof prepared + sizeof type], bad[sizeof page];
  cqlp_event events[ROOM];
  cqlp_skipped skipped;
  cqlp_holding held;
  cqlp_batch batch;
  memset(events, 0, sizeof events);
  memset(&skipped, 0, sizeof skipped);
  memset(&held, 0, sizeof held);
  memset(&batch, 0, sizeof batch);
  memcpy(first, prepared, sizeof prepared);
  memcpy(first + sizeof prepared, type, sizeof type);
  first[8] = sizeof first - 9;
  memcpy(bad, page, sizeof page);
  bad[28] = 3; /* an int of three bytes */
  CHECK(cqlp_new(&LIMITS, &decoder) == CQLP_DONE);
  CHECK(cqlp_next(&decoder, first, sizeof first, events, ROOM, &batch) == CQLP_DONE && batch.used == sizeof first);
  CHECK(cqlp_types_of(&decoder, &types) == CQLP_DONE && cqlp_give(&decoder, &types) == CQLP_DONE);
  CHECK(cqlp_next(&decoder, bad, sizeof bad, events, ROOM, &batch) == CQLP_DONE && batch.stop == CQLP_STOP_REFUSED);
  printf("refused: %s, taken back: %u", cqlp_name(CQLP_GROUP_REASON, batch.reason), cqlp_take_given(&decoder, &types));
  printf(", skip: %u", cqlp_skip(&decoder, &skipped));
  printf(", given: %u", cqlp_give(&decoder, &types));
  CHECK(skipped.rest == sizeof bad - batch.used);
  CHECK(cqlp_next(&decoder, bad + batch.used, skipped.rest, events, ROOM, &batch) == CQLP_DONE && batch.events == 0);
  CHECK(cqlp_next(&decoder, page, sizeof page, events, ROOM, &batch) == CQLP_DONE && batch.stop == CQLP_STOP_MORE);
  printf(", then the cell is %s %d", cqlp_name(CQLP_GROUP_KIND, events[batch.events - 2].kind), (int)events[batch.events - 2].number);
  CHECK(cqlp_take_given(&decoder, &types) == CQLP_DONE && cqlp_give(&decoder, &types) == CQLP_DONE);
  CHECK(cqlp_next(&decoder, bad, sizeof bad, events, ROOM, &batch) == CQLP_DONE && batch.stop == CQLP_STOP_REFUSED);
  printf("; skip: %u", cqlp_skip(&decoder, &skipped));
  printf(", taken back: %u\n", cqlp_take_given(&decoder, &types));
  CHECK(cqlp_held(&decoder, &held) == CQLP_DONE && held.bytes == 0 && held.entries == 0 && held.levels == 0);
  CHECK(cqlp_types_free(&types) == CQLP_DONE && cqlp_free(&decoder) == CQLP_DONE);
}

int main(void) {
  read_streams();
  count_bytes();
  keep_types();
  return 0;
}
