/* Pages that are written in pieces. bindings/streams.txt comes on standard input, and the words are files with pages. The events of each whole page are
 * handed to cqlp_page_begin, and those of its cells to cqlp_page_put, in batches of 1, 3 and 64, and into rooms of 16, 100 and 4096 bytes: what is put in all
 * is what cqlp_encode writes of the page. A room that is too short, a batch that ends within a cell, and cells that are refused put nothing of the cell. Then
 * events and sizes are changed at random, from a fixed seed: where the page is whole, what was put is what cqlp_encode writes of the events. Events,
 * contents and bytes lie at edges. */
#include "give.h"

enum { MOST = 4096, LONG = 1 << 16 };

/* The events of a frame, and their contents one after the other; which is the first of a cell, and where the contents of cells begin. */
typedef struct frame {
  cqlp_event events[MOST];
  uint8_t contents[LONG];
  size_t count, length, cells, from;
} frame;

static int has_content(const cqlp_event *event) {
  int may_be_null = event->tag == CQLP_TAG_BYTES || event->tag == CQLP_TAG_BOUND;
  if (event->tag == CQLP_TAG_LEAF) {
    switch (event->kind) {
      case CQLP_KIND_CUSTOM: case CQLP_KIND_ASCII: case CQLP_KIND_BLOB: case CQLP_KIND_DECIMAL:
      case CQLP_KIND_VARCHAR: case CQLP_KIND_VARINT: case CQLP_KIND_RAW: return 1;
      default: return 0;
    }
  }
  return event->tag == CQLP_TAG_TEXT || (may_be_null && event->mark == CQLP_MARK_NONE);
}

static size_t content_length(const cqlp_event *event) { return has_content(event) ? event->length : 0; }

static void note(frame *frame, const cqlp_event *event) {
  CHECK(frame->count < MOST && event->length <= LONG - frame->length);
  frame->events[frame->count] = *event;
  frame->events[frame->count++].content = NULL;
  if (has_content(event)) {
    memcpy(frame->contents + frame->length, event->content, event->length);
    frame->length += event->length;
  }
  if (event->tag == CQLP_TAG_COUNT && event->field == CQLP_FIELD_ROWS) {
    frame->cells = frame->count;
    frame->from = frame->length;
  }
}

/* How many bytes all contents of the first events have. */
static size_t contents_of(const cqlp_event *events, size_t count) {
  size_t length = 0;
  for (size_t i = 0; i < count; i++) length += content_length(&events[i]);
  return length;
}

/* What is put so far. */
typedef struct sent {
  uint8_t bytes[LONG];
  size_t length;
} sent;

static void send(sent *sent, const uint8_t *bytes, size_t length) {
  CHECK(length <= LONG - sent->length);
  memcpy(sent->bytes + sent->length, bytes, length);
  sent->length += length;
}

static const cqlp_event *events_at_edge(const cqlp_event *from, size_t count) {
  cqlp_event *events = edge(EVENTS, count * sizeof *events);
  memcpy(events, from, count * sizeof *events);
  return events;
}

static const uint8_t *contents_at_edge(const uint8_t *from, size_t length) {
  uint8_t *contents = edge(PIECE, length);
  memcpy(contents, from, length);
  return contents;
}

/* A room at the edge, and whether nothing but the first bytes of it was written. */
static uint8_t *room_of(size_t room) { return memset(edge(BYTES, room), 0xA5, room); }

static int is_left(const uint8_t *bytes, size_t from, size_t room) {
  for (size_t i = from; i < room; i++)
    if (bytes[i] != 0xA5) return 0;
  return 1;
}

/* Begins the page in a room of this size. */
static uint32_t begin(const frame *frame, uint64_t size, size_t room, cqlp_page *page, cqlp_encoded *begun, uint8_t **bytes) {
  const cqlp_event *events = events_at_edge(frame->events, frame->cells);
  const uint8_t *contents = contents_at_edge(frame->contents, frame->from);
  *bytes = room_of(room);
  memset(begun, 0xA5, sizeof *begun);
  uint32_t code = cqlp_page_begin(events, frame->cells, contents, frame->from, size, *bytes, room, page, begun);
  CHECK(is_left(*bytes, code == CQLP_DONE ? begun->length : 0, room));
  CHECK(code == CQLP_IN_USE || begun->event <= frame->cells);
  CHECK(code == CQLP_IN_USE || code == CQLP_DONE || code == CQLP_NO_ROOM || begun->length == 0);
  return code;
}

/* Begins the page, into the least room that it fits in. */
static uint32_t begin_whole(const frame *frame, uint64_t size, cqlp_page *page, sent *sent) {
  cqlp_encoded begun;
  uint8_t *bytes;
  uint32_t code = begin(frame, size, 0, page, &begun, &bytes);
  if (code != CQLP_NO_ROOM) return code;
  size_t wanted = begun.length;
  CHECK(begin(frame, size, wanted - 1, page, &begun, &bytes) == CQLP_NO_ROOM && begun.length == wanted);
  CHECK(cqlp_page_end(page) == CQLP_NO_PAGE);
  CHECK(begin(frame, size, wanted + 1, page, &begun, &bytes) == CQLP_DONE && begun.length == wanted && begun.event == frame->cells);
  send(sent, bytes, wanted);
  CHECK(begin(frame, size, wanted, page, &begun, &bytes) == CQLP_IN_USE);
  return CQLP_DONE;
}

/* Puts all cells in batches and rooms of these sizes, which grow where a cell wants more. */
static uint32_t put_cells(const frame *frame, size_t end, size_t batch, size_t room, cqlp_page *page, sent *sent) {
  size_t done = frame->cells, used = frame->from, count = batch;
  for (;;) {
    count = count < end - done ? count : end - done;
    const cqlp_event *events = events_at_edge(frame->events + done, count);
    size_t length = contents_of(events, count);
    if (length > frame->length - used) length = frame->length - used;
    const uint8_t *contents = contents_at_edge(frame->contents + used, length);
    uint8_t *bytes = room_of(room);
    cqlp_put put;
    memset(&put, 0xA5, sizeof put);
    uint32_t code = cqlp_page_put(page, events, count, contents, length, bytes, room, &put);
    CHECK(put.events <= put.event && put.event <= count && put.used <= length && put.length <= room && is_left(bytes, put.length, room));
    CHECK(put.used == contents_of(events, put.events) && (put.wanted > 0) == (code == CQLP_NO_ROOM));
    send(sent, bytes, put.length);
    done += put.events;
    used += put.used;
    switch (code) {
      case CQLP_DONE:
        CHECK(put.events == count);
        if (done == end) return CQLP_DONE;
        count = batch;
        break;
      case CQLP_NOT_ENDED:
        CHECK(put.event == count && put.events < count);
        if (done + (count - put.events) == end) return code;
        count += batch - put.events % batch;
        break;
      case CQLP_NO_ROOM:
        CHECK(put.wanted > room - put.length);
        if (put.wanted > room) room = put.wanted;
        break;
      default: return code;
    }
  }
}

static uint64_t size_of(const frame *frame, size_t end) {
  cqlp_measured measured = {0, 0};
  size_t half = end / 2, used = contents_of(frame->events, half);
  CHECK(cqlp_page_measure(frame->events, half, frame->contents, used, &measured) == CQLP_DONE && measured.event == half);
  const cqlp_event *events = events_at_edge(frame->events + half, end - half);
  const uint8_t *contents = contents_at_edge(frame->contents + used, frame->length - used);
  CHECK(cqlp_page_measure(events, end - half, contents, frame->length - used, &measured) == CQLP_DONE && measured.event == end - half);
  return measured.size;
}

static size_t pages, cells;

/* A whole page, written in each of the ways. */
static void write_page(const frame *frame) {
  static const size_t BATCHES[] = {1, 3, 64}, ROOMS[] = {16, 100, 4096};
  static uint8_t wanted[LONG];
  static sent sent;
  cqlp_encoded encoded;
  size_t end = frame->count - 1;
  CHECK(cqlp_encode(frame->events, frame->count, frame->contents, frame->length, wanted, LONG, &encoded) == CQLP_DONE);
  uint64_t size = size_of(frame, end);
  for (size_t i = 0; i < 9; i++) {
    cqlp_page page = CQLP_NO_PAGE_YET;
    sent.length = 0;
    CHECK(begin_whole(frame, size, &page, &sent) == CQLP_DONE);
    CHECK((cqlp_page_end(&page) == CQLP_DONE) == (frame->cells == end));
    CHECK(put_cells(frame, end, BATCHES[i / 3], ROOMS[i % 3], &page, &sent) == CQLP_DONE);
    CHECK(cqlp_page_end(&page) == CQLP_DONE);
    CHECK(sent.length == encoded.length && memcmp(sent.bytes, wanted, sent.length) == 0);
    CHECK(cqlp_page_free(&page) == CQLP_DONE && cqlp_page_free(&page) == CQLP_NO_PAGE);
  }
  pages++;
  for (size_t i = frame->cells; i < end; i++) cells += frame->events[i].tag != CQLP_TAG_LEAVE && frame->events[i].level == 0;
}

enum { KEPT = 64 };
static frame *kept[KEPT];
static size_t count_kept;

static int has_tag(const frame *frame, uint8_t tag) {
  for (size_t i = 0; i < frame->count; i++)
    if (frame->events[i].tag == tag) return 1;
  return 0;
}

static void read_stream(const cqlp_limits *limits, const uint8_t *stream, size_t length) {
  static frame frame;
  cqlp_decoder decoder = CQLP_NO_DECODER_YET;
  cqlp_event event;
  cqlp_batch batch = {0};
  size_t used = 0;
  CHECK(cqlp_new(limits, &decoder) == CQLP_DONE);
  do {
    CHECK(cqlp_next(&decoder, stream + used, length - used, &event, 1, &batch) == CQLP_DONE);
    used += batch.used;
    if (!batch.events) continue;
    if (event.tag == CQLP_TAG_FRAME) memset(&frame, 0, sizeof frame);
    note(&frame, &event);
    if (event.tag != CQLP_TAG_END || !frame.cells || has_tag(&frame, CQLP_TAG_PART)) continue;
    if (!limits->types && has_tag(&frame, CQLP_TAG_TYPE_NODE)) continue;
    write_page(&frame);
    if (count_kept == KEPT) continue;
    kept[count_kept] = malloc(sizeof frame);
    CHECK(kept[count_kept]);
    *kept[count_kept++] = frame;
  } while (batch.stop == CQLP_STOP_FULL);
  CHECK(cqlp_free(&decoder) == CQLP_DONE);
}

/* ---- what is refused */

/* The page of give.h. */
static frame *page_of_two_rows(void) {
  static frame frame;
  cqlp_event page[OF_PAGE];
  make_page(page);
  frame.count = OF_PAGE;
  frame.cells = 12;
  frame.from = 4;
  frame.length = strlen(page_contents);
  memcpy(frame.events, page, sizeof page);
  memcpy(frame.contents, page_contents, frame.length);
  return &frame;
}

static void refuse_heads(void) {
  static const struct { const char *what; size_t which; uint64_t size; cqlp_event with; } CASES[] = {
    {"a page", 0, 33, {.tag = CQLP_TAG_FRAME, .opcode = CQLP_OPCODE_RESULT, .extra = 7, .mark = CQLP_MARK_RESPONSE}},
    {"another field than rows", 11, 33, {.tag = CQLP_TAG_COUNT, .field = CQLP_FIELD_COLUMNS, .number = 2}},
    {"no event", 11, 33, {.tag = CQLP_TAG_INT, .field = CQLP_FIELD_ROWS, .number = INT64_MAX}},
    {"a kind of result that is no page", 1, 33, {.tag = CQLP_TAG_INT, .field = CQLP_FIELD_RESULT_KIND, .number = CQLP_RESULT_VOID}},
    {"no header", 0, 33, {.tag = CQLP_TAG_INT, .field = CQLP_FIELD_RESULT_KIND, .number = 2}},
    {"another number of columns", 3, 33, {.tag = CQLP_TAG_COUNT, .field = CQLP_FIELD_COLUMNS, .number = 3}},
    {"many rows", 11, 33, {.tag = CQLP_TAG_COUNT, .field = CQLP_FIELD_ROWS, .number = 4294967295}},
    {"more rows", 11, 33, {.tag = CQLP_TAG_COUNT, .field = CQLP_FIELD_ROWS, .number = 5}},
    {"no rows", 11, 33, {.tag = CQLP_TAG_COUNT, .field = CQLP_FIELD_ROWS, .number = 0}},
    {"too few bytes", 11, 15, {.tag = CQLP_TAG_COUNT, .field = CQLP_FIELD_ROWS, .number = 2}},
    {"too many bytes", 11, UINT64_MAX, {.tag = CQLP_TAG_COUNT, .field = CQLP_FIELD_ROWS, .number = 2}},
    {"an end before", 10, 33, {.tag = CQLP_TAG_END}},
  };
  for (size_t i = 0; i < sizeof CASES / sizeof *CASES; i++) {
    frame frame = *page_of_two_rows();
    cqlp_page page = CQLP_NO_PAGE_YET;
    cqlp_encoded begun;
    uint8_t *bytes;
    frame.events[CASES[i].which] = CASES[i].with;
    uint32_t code = begin(&frame, CASES[i].size, 200, &page, &begun, &bytes);
    printf("head, %s: %s at %zu\n", CASES[i].what, cqlp_name(CQLP_GROUP_CODE, code), begun.event);
    CHECK((cqlp_page_free(&page) == CQLP_DONE) == (code == CQLP_DONE));
  }
}

static void refuse_cells(void) {
  static const struct { const char *what; size_t which, end; uint64_t size; cqlp_event with; } CASES[] = {
    {"all", 17, 19, 33, {.tag = CQLP_TAG_NULL, .row = 1}},
    {"more bytes said", 17, 19, 34, {.tag = CQLP_TAG_NULL, .row = 1}},
    {"fewer bytes said", 17, 19, 32, {.tag = CQLP_TAG_NULL, .row = 1}},
    {"a cell fewer", 17, 18, 33, {.tag = CQLP_TAG_NULL, .row = 1}},
    {"a cell cut", 13, 15, 33, {.tag = CQLP_TAG_ENTER, .column = 1, .kind = CQLP_KIND_LIST, .number = 2}},
    {"another column", 17, 19, 33, {.tag = CQLP_TAG_NULL, .row = 1, .column = 1}},
    {"another row", 17, 19, 33, {.tag = CQLP_TAG_NULL}},
    {"another kind", 14, 19, 33, {.tag = CQLP_TAG_LEAF, .column = 1, .level = 1, .kind = CQLP_KIND_BIGINT, .number = 7}},
    {"another number of items", 16, 19, 33, {.tag = CQLP_TAG_LEAVE, .number = 3}},
    {"no cell", 13, 19, 33, {.tag = CQLP_TAG_COUNT, .field = CQLP_FIELD_ROWS, .number = 2}},
    {"a part", 17, 19, 33, {.tag = CQLP_TAG_PART, .row = 1}},
    {"no event", 17, 19, 33, {.tag = CQLP_TAG_LEAF, .row = 1, .kind = 99}},
    {"a cell more", 19, 20, 33, {.tag = CQLP_TAG_NULL, .row = 2}},
  };
  for (size_t i = 0; i < sizeof CASES / sizeof *CASES; i++) {
    static sent sent;
    frame frame = *page_of_two_rows();
    cqlp_page page = CQLP_NO_PAGE_YET;
    frame.events[CASES[i].which] = CASES[i].with;
    sent.length = 0;
    CHECK(begin_whole(&frame, CASES[i].size, &page, &sent) == CQLP_DONE);
    uint32_t code = put_cells(&frame, CASES[i].end, 64, 4096, &page, &sent);
    printf("cells, %s: %s after %zu bytes, and %s\n", CASES[i].what, cqlp_name(CQLP_GROUP_CODE, code), sent.length,
           cqlp_name(CQLP_GROUP_CODE, cqlp_page_end(&page)));
    CHECK(cqlp_page_free(&page) == CQLP_DONE);
  }
}

static void codes_of_none(void) {
  cqlp_page page = CQLP_NO_PAGE_YET;
  cqlp_put put;
  cqlp_encoded begun;
  cqlp_measured measured = {UINT64_MAX - 3, 0};
  cqlp_event null = {.tag = CQLP_TAG_NULL}, part = {.tag = CQLP_TAG_PART};
  printf("no page: %u %u %u", cqlp_page_put(&page, NULL, 0, NULL, 0, NULL, 0, &put), cqlp_page_end(&page), cqlp_page_free(&page));
  printf(" %u\n", cqlp_page_begin(NULL, 0, NULL, 0, 0, NULL, 0, &page, &begun));
  CHECK(cqlp_page_measure(&null, 1, NULL, 0, &measured) == CQLP_DONE && measured.size == UINT64_MAX);
  CHECK(cqlp_page_measure(&part, 1, NULL, 0, &measured) == CQLP_UNBUILT && measured.size == UINT64_MAX && measured.event == 0);
  CHECK(cqlp_page_measure(NULL, 0, NULL, 0, &measured) == CQLP_DONE && measured.event == 0);
}

/* ---- changes */

static uint64_t state = 0x9E3779B97F4A7C15u;

static size_t below(size_t bound) {
  state ^= state << 13;
  state ^= state >> 7;
  state ^= state << 17;
  return bound ? (size_t)(state % bound) : 0;
}

/* Changes one thing of an event, or of the contents. */
static void change(frame *frame) {
  cqlp_event *event = &frame->events[below(frame->count)], *other = &frame->events[below(frame->count)], was;
  switch (below(12)) {
    case 0: event->tag = (uint8_t)below(22); break;
    case 1: event->field = (uint8_t)below(60); break;
    case 2: event->mark = (uint8_t)below(6); break;
    case 3: event->number = (int64_t)((uint64_t)event->number + below(3) - 1); break;
    case 4: event->length = below(3) ? event->length + below(3) - 1 : (size_t)1 << below(63); break;
    case 5: event->kind = (uint8_t)below(54); break;
    case 6: event->row += (uint32_t)below(3) - 1; break;
    case 7: event->column += (uint32_t)below(3) - 1; break;
    case 8: event->level += (uint32_t)below(3) - 1; break;
    case 9: if (frame->length) frame->contents[below(frame->length)] = (uint8_t)below(256); break;
    case 10: event->opcode = (uint8_t)below(18); break;
    default: was = *event; *event = *other; *other = was;
  }
}

/* What was put is what cqlp_encode writes of the events, also where they were changed. */
static void check_sent(const frame *frame, const sent *sent) {
  static uint8_t wanted[LONG];
  cqlp_encoded encoded;
  size_t length = contents_of(frame->events, frame->count - 1);
  CHECK(length <= frame->length);
  CHECK(cqlp_encode(frame->events, frame->count - 1, frame->contents, length, wanted, LONG, &encoded) == CQLP_DONE);
  CHECK(sent->length == encoded.length && memcmp(sent->bytes, wanted, sent->length) == 0);
}

static size_t codes[64], whole;

static void write_changed(size_t times) {
  static frame frame;
  static sent sent;
  for (size_t i = 0; i < times; i++) {
    cqlp_page page = CQLP_NO_PAGE_YET;
    cqlp_measured measured = {0, 0};
    frame = *kept[below(count_kept)];
    if (frame.count > 128) continue;
    for (size_t n = 1 + below(3); n-- > 0;) change(&frame);
    size_t end = frame.count - 1;
    sent.length = 0;
    if (cqlp_page_measure(frame.events, end, frame.contents, frame.length, &measured) != CQLP_DONE) measured.size = below(200);
    uint32_t code = begin_whole(&frame, measured.size + (below(8) ? 0 : below(9)), &page, &sent);
    codes[code]++;
    if (code != CQLP_DONE) continue;
    code = put_cells(&frame, end, 1 + below(64), 1 + below(100), &page, &sent);
    codes[code]++;
    uint32_t last = cqlp_page_end(&page);
    codes[last]++;
    if (code == CQLP_DONE && last == CQLP_DONE) {
      check_sent(&frame, &sent);
      whole++;
    }
    CHECK(cqlp_page_free(&page) == CQLP_DONE);
  }
  CHECK(whole > 0);
}

static size_t bytes_of(const char *digits, uint8_t *bytes, size_t room) {
  size_t count = 0;
  unsigned byte;
  for (; sscanf(digits, "%2x", &byte) == 1; digits += 2) {
    CHECK(count < room);
    bytes[count++] = (uint8_t)byte;
  }
  return count;
}

static void read_file(const char *name) {
  static uint8_t stream[LONG];
  const cqlp_limits limits = {LONG, LONG, LONG, 64, 1, 0};
  FILE *file = fopen(name, "rb");
  CHECK(file);
  size_t length = fread(stream, 1, sizeof stream, file);
  fclose(file);
  if (length < sizeof stream) read_stream(&limits, stream, length); /* else the page is too large for this test */
}

int main(int count, char **words) {
  static char line[8192], name[256];
  static uint8_t stream[4096];
  cqlp_limits limits = {0};
  while (fgets(line, sizeof line, stdin)) {
    unsigned text, cell, entries, depth, types, parts;
    if (sscanf(line, "stream %255s %u %u %u %u %u %u", name, &text, &cell, &entries, &depth, &types, &parts) == 7)
      limits = (cqlp_limits){text, cell, entries, depth, (uint8_t)types, (uint8_t)parts};
    else if (strncmp(line, "bytes ", 6) == 0)
      read_stream(&limits, stream, bytes_of(line + 6, stream, sizeof stream));
  }
  for (int i = 1; i < count; i++) read_file(words[i]);
  printf("pages: %zu, with %zu cells\n", pages, cells);
  refuse_heads();
  refuse_cells();
  codes_of_none();
  write_changed(20000);
  for (size_t i = 0; i < sizeof codes / sizeof *codes; i++)
    if (codes[i]) printf("changed: %s\n", cqlp_name(CQLP_GROUP_CODE, (int64_t)i));
  for (size_t i = 0; i < count_kept; i++) free(kept[i]);
  return 0;
}
