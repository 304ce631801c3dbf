/* Frames written of their events. bindings/streams.txt comes on standard input. The events of each whole frame there are handed to
 * cqlp_encode: what it writes is read as these events, and is the frame itself, but where the frame has bytes after its last field, a null of
 * another length than -1 or a true of another byte than 1; a page of which a scalar comes in parts, or whose cells were read without their
 * types, is refused. Then prepared statements are made at random, with types of all kinds, and events are changed at random, from a fixed seed:
 * what is written is read as these events, and what is refused has written nothing, and of events that no frame has the one that is named is the
 * first that does not fit. Events, contents and bytes lie at edges. */
#include "give.h"

enum { MOST = 160, LONG = 4096 };

/* The events of a frame, and their contents one after the other. */
typedef struct frame {
  cqlp_event events[MOST];
  uint8_t contents[LONG];
  size_t count, length;
} frame;

static int has_content(const cqlp_event *event) {
  int may_be_null = event->tag == CQLP_TAG_BYTES || event->tag == CQLP_TAG_BOUND;
  if (event->tag == CQLP_TAG_LEAF) {
    switch (event->kind) {
      case CQLP_KIND_CUSTOM: case CQLP_KIND_ASCII: case CQLP_KIND_BLOB: case CQLP_KIND_DECIMAL:
      case CQLP_KIND_VARCHAR: case CQLP_KIND_VARINT: case CQLP_KIND_RAW: return 1;
      default: return 0;
    }
  }
  return event->tag == CQLP_TAG_TEXT || (may_be_null && event->mark == CQLP_MARK_NONE);
}

static void note(frame *frame, const cqlp_event *event) {
  CHECK(frame->count < MOST && event->length <= LONG - frame->length);
  frame->events[frame->count] = *event;
  frame->events[frame->count++].content = NULL;
  if (!has_content(event)) return;
  memcpy(frame->contents + frame->length, event->content, event->length);
  frame->length += event->length;
}

/* Calls cqlp_encode with this much room, and looks at what it leaves after what it says it wrote. */
static uint32_t encode(const frame *frame, size_t room, uint8_t **bytes, cqlp_encoded *encoded) {
  cqlp_event *events = edge(EVENTS, frame->count * sizeof *events);
  uint8_t *contents = edge(PIECE, frame->length);
  *bytes = edge(BYTES, room);
  memcpy(events, frame->events, frame->count * sizeof *events);
  memcpy(contents, frame->contents, frame->length);
  memset(*bytes, 0xA5, room);
  memset(encoded, 0xA5, sizeof *encoded);
  uint32_t code = cqlp_encode(events, frame->count, contents, frame->length, *bytes, room, encoded);
  CHECK(encoded->event <= frame->count);
  for (size_t i = code == CQLP_DONE ? encoded->length : 0; i < room; i++) CHECK((*bytes)[i] == 0xA5);
  if (code == CQLP_DONE || code == CQLP_NO_ROOM) {
    CHECK(encoded->event == frame->count && encoded->length >= 9);
    CHECK((code == CQLP_DONE) == (encoded->length <= room));
  } else {
    CHECK(encoded->length == 0);
  }
  return code;
}

/* The members of the event of a scalar cell that its kind uses. */
static cqlp_event plain_scalar(const cqlp_event *event, cqlp_event of) {
  size_t octets = 0;
  switch (event->kind) {
    case CQLP_KIND_FLOAT: octets = 4; break;
    case CQLP_KIND_DOUBLE: octets = 8; break;
    case CQLP_KIND_UUID: case CQLP_KIND_TIMEUUID: octets = 16; break;
    case CQLP_KIND_INET: of.octets = event->octets; octets = event->octets; break;
    default:
      if (has_content(event)) of.length = event->length;
      else of.number = event->number;
  }
  memcpy(of.bytes, event->bytes, octets);
  if (event->kind == CQLP_KIND_DECIMAL) of.extra = event->extra;
  return of;
}

/* The members of the event of a cell that its tag uses; the end of a value names no cell. */
static cqlp_event plain_cell(const cqlp_event *event, cqlp_event of) {
  of.level = event->level;
  if (event->tag == CQLP_TAG_ENTER || event->tag == CQLP_TAG_LEAVE) of.number = event->number;
  if (event->tag == CQLP_TAG_LEAVE) return of;
  of.row = event->row;
  of.column = event->column;
  if (event->tag == CQLP_TAG_ENTER || event->tag == CQLP_TAG_LEAF) of.kind = event->kind;
  return event->tag == CQLP_TAG_LEAF ? plain_scalar(event, of) : of;
}

/* An event with the members that its tag uses, without offsets and lengths of frames. */
static cqlp_event plain(const cqlp_event *event) {
  cqlp_event of = {0};
  of.tag = event->tag;
  if (event->tag == CQLP_TAG_END) return of;
  if (event->tag == CQLP_TAG_FRAME) {
    of.extra = event->extra;
    of.opcode = event->opcode;
    of.flags = event->flags;
    of.mark = event->mark;
    return of;
  }
  if (event->tag == CQLP_TAG_TYPE_NODE) {
    of.kind = event->kind;
    return of;
  }
  if (event->tag >= CQLP_TAG_LEAF && event->tag <= CQLP_TAG_LEAVE) return plain_cell(event, of);
  of.field = event->field;
  if (event->tag == CQLP_TAG_UUID || event->tag == CQLP_TAG_INET)
    memcpy(of.bytes, event->bytes, event->tag == CQLP_TAG_INET && event->octets == 4 ? 4 : 16);
  if (event->tag == CQLP_TAG_INET) {
    of.extra = event->extra;
    of.octets = event->octets;
  }
  if (has_content(event)) of.length = event->length;
  if (event->tag == CQLP_TAG_BYTES || event->tag == CQLP_TAG_BOUND) of.mark = event->mark;
  if (event->tag <= CQLP_TAG_LONG || event->tag == CQLP_TAG_COUNT) of.number = event->number;
  return of;
}

/* The bytes are a frame, of which just these events are read. */
static void check_read(const frame *frame, const uint8_t *bytes, size_t length) {
  static cqlp_event events[MOST];
  cqlp_limits limits = {LONG, LONG, MOST, 64, 1, 0};
  cqlp_decoder decoder = CQLP_NO_DECODER_YET;
  cqlp_batch batch = {0};
  cqlp_end end = {0};
  size_t used = 0, count = 0, at = 0;
  CHECK(cqlp_new(&limits, &decoder) == CQLP_DONE);
  do {
    CHECK(cqlp_next(&decoder, bytes + used, length - used, events, MOST, &batch) == CQLP_DONE);
    used += batch.used;
    for (size_t i = 0; i < batch.events; i++, count++) {
      if (count == frame->count) {
        CHECK(events[i].tag == CQLP_TAG_END);
        continue;
      }
      CHECK(count < frame->count);
      cqlp_event read = plain(&events[i]), given = plain(&frame->events[count]);
      CHECK(memcmp(&read, &given, offsetof(cqlp_event, octets) + 1) == 0);
      CHECK(given.length == 0 || memcmp(events[i].content, frame->contents + at, given.length) == 0);
      at += given.length;
    }
  } while (batch.stop == CQLP_STOP_FULL);
  CHECK(count == frame->count || (count == frame->count + 1 && frame->events[frame->count - 1].tag != CQLP_TAG_END));
  CHECK(at == frame->length);
  CHECK(cqlp_finish(&decoder, &end) == CQLP_DONE && end.verdict == CQLP_END_WHOLE && end.bytes == length);
  CHECK(cqlp_free(&decoder) == CQLP_DONE);
}

/* Whether an event has this tag. */
static int has_tag(const frame *frame, uint8_t tag) {
  for (size_t i = 0; i < frame->count; i++)
    if (frame->events[i].tag == tag) return 1;
  return 0;
}

static size_t same, others, parts, untyped;

/* A whole frame as it came, and what is written of its events, in all rooms that are too short, and in two that are not. */
static void write_again(const char *name, const cqlp_limits *limits, const frame *frame, const uint8_t *original, size_t length) {
  uint8_t *bytes;
  cqlp_encoded encoded;
  uint32_t code = encode(frame, length, &bytes, &encoded);
  if (has_tag(frame, CQLP_TAG_PART)) {
    CHECK(code == CQLP_UNBUILT && frame->events[encoded.event].tag == CQLP_TAG_PART);
    parts++;
    return;
  }
  if (!limits->types && has_tag(frame, CQLP_TAG_TYPE_NODE)) {
    CHECK(code == CQLP_NO_SUCH_FRAME);
    untyped++;
    return;
  }
  CHECK(code == CQLP_DONE);
  check_read(frame, bytes, encoded.length);
  if (encoded.length == length && memcmp(bytes, original, length) == 0) {
    same++;
  } else {
    printf("%s: %s, %zu bytes of %zu\n", name, cqlp_name(CQLP_GROUP_OPCODE, frame->events[0].opcode), encoded.length, length);
    others++;
  }
  size_t wanted = encoded.length;
  for (size_t room = 0; room < wanted; room++) {
    CHECK(encode(frame, room, &bytes, &encoded) == CQLP_NO_ROOM && encoded.length == wanted);
  }
  CHECK(encode(frame, wanted + 1, &bytes, &encoded) == CQLP_DONE && encoded.length == wanted);
}

/* The whole frames that were written, to be changed. */
enum { FRAMES = 256 };
static frame *frames[FRAMES];
static size_t kept;

static void keep(const frame *whole) {
  CHECK(kept < FRAMES);
  frames[kept] = malloc(sizeof **frames);
  CHECK(frames[kept]);
  *frames[kept++] = *whole;
}

static void write_stream(const char *name, const cqlp_limits *limits, const uint8_t *stream, size_t length) {
  static frame frame;
  cqlp_decoder decoder = CQLP_NO_DECODER_YET;
  cqlp_event event;
  cqlp_batch batch = {0};
  size_t used = 0, from = 0;
  memset(&event, 0, sizeof event);
  CHECK(cqlp_new(limits, &decoder) == CQLP_DONE);
  do {
    CHECK(cqlp_next(&decoder, stream + used, length - used, &event, 1, &batch) == CQLP_DONE);
    used += batch.used;
    if (!batch.events) continue;
    if (event.tag == CQLP_TAG_FRAME) {
      frame.count = frame.length = 0;
      from = (size_t)event.at;
    }
    note(&frame, &event);
    if (event.tag != CQLP_TAG_END) continue;
    write_again(name, limits, &frame, stream + from, (size_t)event.at - from);
    keep(&frame);
  } while (batch.stop == CQLP_STOP_FULL);
  CHECK(cqlp_free(&decoder) == CQLP_DONE);
}

/* Numbers at random, the same at each run. */
static uint64_t state = 0x9E3779B97F4A7C15u;

static size_t below(size_t bound) {
  state ^= state << 13;
  state ^= state >> 7;
  state ^= state << 17;
  return bound ? (size_t)(state % bound) : 0;
}

/* ---- prepared statements */

static void append(frame *frame, cqlp_event event) {
  CHECK(frame->count < MOST);
  frame->events[frame->count++] = event;
}

static void append_number(frame *frame, uint8_t tag, uint8_t field, int64_t number) {
  append(frame, (cqlp_event){.tag = tag, .field = field, .number = number});
}

/* A text of no to three bytes. */
static void append_text(frame *frame, uint8_t field) {
  size_t length = below(4);
  CHECK(length <= LONG - frame->length);
  for (size_t i = 0; i < length; i++) frame->contents[frame->length++] = (uint8_t)('a' + below(26));
  append(frame, (cqlp_event){.tag = CQLP_TAG_TEXT, .field = field, .length = length});
}

static void append_type(frame *frame, unsigned nested);

/* The types of the items of a tuple, or of the fields of a user-defined type, which have names. */
static void append_types(frame *frame, unsigned nested, int named) {
  size_t count = below(4);
  append_number(frame, CQLP_TAG_COUNT, CQLP_FIELD_FIELDS, (int64_t)count);
  for (size_t i = 0; i < count; i++) {
    if (named) append_text(frame, CQLP_FIELD_FIELD_NAME);
    append_type(frame, nested + 1);
  }
}

static void append_kind(frame *frame, uint8_t kind) {
  append(frame, (cqlp_event){.tag = CQLP_TAG_TYPE_NODE, .kind = kind});
}

/* A type of any kind; of those with items only while there are few events. */
static void append_type(frame *frame, unsigned nested) {
  static const uint8_t KINDS[] = {
    CQLP_KIND_CUSTOM, CQLP_KIND_ASCII, CQLP_KIND_BIGINT, CQLP_KIND_BLOB, CQLP_KIND_BOOLEAN, CQLP_KIND_COUNTER, CQLP_KIND_DECIMAL, CQLP_KIND_DOUBLE,
    CQLP_KIND_FLOAT, CQLP_KIND_INT, CQLP_KIND_TIMESTAMP, CQLP_KIND_UUID, CQLP_KIND_VARCHAR, CQLP_KIND_VARINT, CQLP_KIND_TIMEUUID, CQLP_KIND_INET,
    CQLP_KIND_DATE, CQLP_KIND_TIME, CQLP_KIND_SMALLINT, CQLP_KIND_TINYINT, CQLP_KIND_LIST, CQLP_KIND_MAP, CQLP_KIND_SET, CQLP_KIND_UDT, CQLP_KIND_TUPLE,
  };
  size_t scalars = sizeof KINDS - 5;
  int few = nested < 6 && frame->count < 40;
  uint8_t kind = KINDS[!few ? below(scalars) : below(2) ? scalars + below(5) : below(scalars)];
  append_kind(frame, kind);
  if (kind == CQLP_KIND_CUSTOM) append_text(frame, CQLP_FIELD_CLASS);
  if (kind == CQLP_KIND_LIST || kind == CQLP_KIND_MAP || kind == CQLP_KIND_SET) append_type(frame, nested + 1);
  if (kind == CQLP_KIND_MAP) append_type(frame, nested + 1);
  if (kind == CQLP_KIND_UDT) {
    append_text(frame, CQLP_FIELD_KEYSPACE);
    append_text(frame, CQLP_FIELD_TYPE_NAME);
  }
  if (kind == CQLP_KIND_UDT || kind == CQLP_KIND_TUPLE) append_types(frame, nested, kind == CQLP_KIND_UDT);
}

static void append_table(frame *frame) {
  append_text(frame, CQLP_FIELD_KEYSPACE);
  append_text(frame, CQLP_FIELD_TABLE);
}

/* Columns that have a table together, or one each. */
static void append_columns(frame *frame, size_t count, int together) {
  if (together) append_table(frame);
  for (size_t i = 0; i < count; i++) {
    if (!together) append_table(frame);
    append_text(frame, CQLP_FIELD_COLUMN_NAME);
    append_type(frame, 1);
  }
}

static void begin_prepared(frame *frame) {
  frame->count = frame->length = 0;
  append(frame, (cqlp_event){.tag = CQLP_TAG_FRAME, .opcode = CQLP_OPCODE_RESULT, .extra = 7, .mark = CQLP_MARK_RESPONSE});
  append_number(frame, CQLP_TAG_INT, CQLP_FIELD_RESULT_KIND, CQLP_RESULT_PREPARED);
  frame->contents[frame->length++] = 0xAA;
  append(frame, (cqlp_event){.tag = CQLP_TAG_BYTES, .field = CQLP_FIELD_STATEMENT_ID, .length = 1});
}

/* The metadata of parameters, with the places of the partition key among them. */
static void append_parameters(frame *frame, size_t count, int together, size_t keys) {
  append_number(frame, CQLP_TAG_INT, CQLP_FIELD_META_FLAGS, together);
  append_number(frame, CQLP_TAG_COUNT, CQLP_FIELD_COLUMNS, (int64_t)count);
  append_number(frame, CQLP_TAG_COUNT, CQLP_FIELD_KEYS, (int64_t)keys);
  for (size_t i = 0; i < keys; i++) append_number(frame, CQLP_TAG_SHORT, CQLP_FIELD_KEY_INDEX, (int64_t)below(3));
  append_columns(frame, count, together);
}

/* The metadata of a result: none, that of a statement that returns no rows, or columns, also with the state of a page. */
static void append_results(frame *frame) {
  size_t count = below(3);
  int together = (int)below(2), state = (int)below(2), none = (int)below(2);
  append_number(frame, CQLP_TAG_INT, CQLP_FIELD_META_FLAGS, together | state << 1 | none << 2);
  append_number(frame, CQLP_TAG_COUNT, CQLP_FIELD_COLUMNS, (int64_t)count);
  if (state) append(frame, (cqlp_event){.tag = CQLP_TAG_BYTES, .field = CQLP_FIELD_PAGING_STATE, .mark = CQLP_MARK_NULL});
  if (!none) append_columns(frame, count, together);
}

/* What is written of prepared statements that are made at random is read as they were made. */
static void prepare_some(size_t times) {
  static frame frame;
  size_t types = 0;
  for (size_t i = 0; i < times; i++) {
    uint8_t *bytes;
    cqlp_encoded encoded;
    begin_prepared(&frame);
    append_parameters(&frame, below(3), (int)below(2), below(3));
    append_results(&frame);
    for (size_t n = 0; n < frame.count; n++) types += frame.events[n].tag == CQLP_TAG_TYPE_NODE;
    CHECK(encode(&frame, LONG, &bytes, &encoded) == CQLP_DONE);
    check_read(&frame, bytes, encoded.length);
    if (i < 16) keep(&frame);
  }
  printf("prepared statements: %zu, with %s types\n", times, types > times ? "many" : "few");
}

/* A prepared statement whose result has one column, of as many lists in one another. */
static void prepare_deep(unsigned lists) {
  static frame frame;
  uint8_t *bytes;
  cqlp_encoded encoded;
  begin_prepared(&frame);
  append_parameters(&frame, 0, 0, 0);
  append_number(&frame, CQLP_TAG_INT, CQLP_FIELD_META_FLAGS, 1);
  append_number(&frame, CQLP_TAG_COUNT, CQLP_FIELD_COLUMNS, 1);
  append_table(&frame);
  append_text(&frame, CQLP_FIELD_COLUMN_NAME);
  for (unsigned i = 0; i < lists; i++) append_kind(&frame, CQLP_KIND_LIST);
  append_kind(&frame, CQLP_KIND_INT);
  uint32_t code = encode(&frame, LONG, &bytes, &encoded);
  printf("%u lists in one another: %s at %zu of %zu\n", lists, cqlp_name(CQLP_GROUP_CODE, code), encoded.event, frame.count);
  if (code == CQLP_DONE) check_read(&frame, bytes, encoded.length);
}

/* ---- changes */

/* Changes one thing of an event, or of the contents, or how many there are. */
static void change(frame *frame) {
  static const int64_t NUMBERS[] = {0, 1, -1, 2, 3, 4, 5, 255, 256, 65535, 65536, 2147483647, 2147483648, -2147483648, 4294967295, 4294967296, INT64_MAX, INT64_MIN};
  size_t i = below(frame->count), j = below(frame->count);
  cqlp_event *event = &frame->events[i], other = frame->events[j];
  switch (below(20)) {
    case 0: event->tag = (uint8_t)below(22); break;
    case 1: event->field = (uint8_t)below(60); break;
    case 2: event->field = other.field; break;
    case 3: event->mark = (uint8_t)below(6); break;
    case 4: event->number = NUMBERS[below(sizeof NUMBERS / sizeof *NUMBERS)]; break;
    case 5: event->number = (int64_t)((uint64_t)event->number + below(3) - 1); break;
    case 6: event->length = below(3) ? event->length + below(3) - 1 : below(2) ? SIZE_MAX : (size_t)1 << below(63); break;
    case 7: event->opcode = (uint8_t)below(18); break;
    case 8: event->flags = (uint8_t)(1u << below(8)); break;
    case 9: event->extra = (int32_t)NUMBERS[below(sizeof NUMBERS / sizeof *NUMBERS)]; break;
    case 10: event->octets = (uint8_t)below(18); break;
    case 11: if (frame->length) frame->contents[below(frame->length)] = (uint8_t)below(256); break;
    case 12: frame->length = below(2) ? below(frame->length + 1) : frame->length + below(3); break;
    case 13: frame->events[j] = *event; *event = other; break;
    case 14: event->kind = below(8) ? (uint8_t)below(54) : CQLP_KIND_RAW; break;
    case 15: event->row += (uint32_t)below(3) - 1; break;
    case 16: event->column += (uint32_t)below(3) - 1; break;
    case 17: event->level += (uint32_t)below(3) - 1; break;
    case 18: if (frame->count > 1) memmove(event, event + 1, (--frame->count - i) * sizeof *event); break;
    default:
      if (frame->count == MOST) break;
      memmove(event + 1, event, (frame->count++ - i) * sizeof *event);
      *event = other;
  }
  if (frame->length > LONG) frame->length = LONG;
}

/* The first events of a frame, with their contents. */
static void cut(const frame *whole, size_t count, frame *first) {
  *first = *whole;
  first->count = count;
  first->length = 0;
  for (size_t i = 0; i < count; i++) first->length += has_content(&whole->events[i]) ? whole->events[i].length : 0;
}

/* No frame has the events, of which this is the first that does not fit: those before it all fit, and with it they do not. */
static void check_misfit(const frame *whole, size_t event) {
  static frame first;
  uint8_t *bytes;
  cqlp_encoded encoded;
  cut(whole, event, &first);
  uint32_t code = encode(&first, LONG, &bytes, &encoded);
  CHECK(code == CQLP_DONE || (code == (event ? CQLP_NO_SUCH_FRAME : CQLP_MISPLACED) && encoded.event == event));
  if (event == whole->count) return;
  cut(whole, event + 1, &first);
  CHECK(encode(&first, LONG, &bytes, &encoded) == CQLP_NO_SUCH_FRAME && encoded.event == event);
}

/* What becomes of events that were changed, by codes. */
static size_t codes[64];

static void write_changed(size_t times) {
  static frame frame;
  for (size_t i = 0; i < times; i++) {
    uint8_t *bytes;
    cqlp_encoded encoded;
    frame = *frames[below(kept)];
    for (size_t n = below(4); n-- > 0;) change(&frame);
    uint32_t code = encode(&frame, below(2) ? 4096 : below(40), &bytes, &encoded);
    CHECK(code < sizeof codes / sizeof *codes);
    codes[code]++;
    if (code == CQLP_DONE) check_read(&frame, bytes, encoded.length);
    if (code == CQLP_NO_SUCH_FRAME) check_misfit(&frame, encoded.event);
  }
}

/* One event that is refused, of a QUERY with a text. */
static uint32_t refused(size_t which, cqlp_event with, size_t *event) {
  static frame frame;
  uint8_t *bytes;
  cqlp_encoded encoded;
  cqlp_event query[] = {
    {.tag = CQLP_TAG_FRAME, .opcode = CQLP_OPCODE_QUERY, .extra = 7},
    {.tag = CQLP_TAG_TEXT, .field = CQLP_FIELD_QUERY, .length = 3},
    {.tag = CQLP_TAG_SHORT, .field = CQLP_FIELD_CONSISTENCY, .number = CQLP_CONSISTENCY_ONE},
    {.tag = CQLP_TAG_BYTE, .field = CQLP_FIELD_QUERY_FLAGS},
    {.tag = CQLP_TAG_END},
  };
  query[which] = with;
  memcpy(frame.events, query, sizeof query);
  memcpy(frame.contents, "\xC3\xA4!", frame.length = 3);
  frame.count = 5;
  uint32_t code = encode(&frame, 64, &bytes, &encoded);
  *event = encoded.event;
  return code;
}

static void refuse_each(void) {
  static const struct { const char *what; size_t which; cqlp_event with; } CASES[] = {
    {"nothing", 4, {.tag = CQLP_TAG_END, .number = 9}},
    {"no tag", 2, {.tag = 0}},
    {"another tag", 2, {.tag = 20, .field = 1}},
    {"no field", 2, {.tag = CQLP_TAG_SHORT}},
    {"another field", 2, {.tag = CQLP_TAG_SHORT, .field = 57}},
    {"no opcode", 0, {.tag = CQLP_TAG_FRAME, .opcode = 4}},
    {"no stream id", 0, {.tag = CQLP_TAG_FRAME, .opcode = CQLP_OPCODE_QUERY, .extra = 32768}},
    {"no mark of a frame", 0, {.tag = CQLP_TAG_FRAME, .opcode = CQLP_OPCODE_QUERY, .mark = CQLP_MARK_NULL}},
    {"no byte", 3, {.tag = CQLP_TAG_BYTE, .field = CQLP_FIELD_QUERY_FLAGS, .number = 256}},
    {"no short", 2, {.tag = CQLP_TAG_SHORT, .field = CQLP_FIELD_CONSISTENCY, .number = -1}},
    {"no int", 2, {.tag = CQLP_TAG_INT, .field = CQLP_FIELD_PAGE_SIZE, .number = 2147483648}},
    {"no count", 2, {.tag = CQLP_TAG_COUNT, .field = CQLP_FIELD_VALUES, .number = -1}},
    {"no address", 2, {.tag = CQLP_TAG_INET, .field = CQLP_FIELD_ADDRESS, .octets = 8}},
    {"no mark of bytes", 2, {.tag = CQLP_TAG_BYTES, .field = CQLP_FIELD_TOKEN, .mark = CQLP_MARK_UNSET}},
    {"no mark of a value", 2, {.tag = CQLP_TAG_BOUND, .field = CQLP_FIELD_VALUE, .mark = CQLP_MARK_LAST}},
    {"no text", 1, {.tag = CQLP_TAG_TEXT, .field = CQLP_FIELD_QUERY, .length = 1}},
    {"too few bytes", 1, {.tag = CQLP_TAG_TEXT, .field = CQLP_FIELD_QUERY, .length = 4}},
    {"many too few bytes", 1, {.tag = CQLP_TAG_TEXT, .field = CQLP_FIELD_QUERY, .length = SIZE_MAX}},
    {"bytes left over", 1, {.tag = CQLP_TAG_TEXT, .field = CQLP_FIELD_QUERY, .length = 2}},
    {"a second frame", 1, {.tag = CQLP_TAG_FRAME, .opcode = CQLP_OPCODE_OPTIONS}},
    {"no frame", 0, {.tag = CQLP_TAG_BYTE, .field = CQLP_FIELD_QUERY_FLAGS}},
    {"an end before", 3, {.tag = CQLP_TAG_END}},
    {"a type", 2, {.tag = CQLP_TAG_TYPE_NODE, .kind = CQLP_KIND_INT}},
    {"no kind of a type", 2, {.tag = CQLP_TAG_TYPE_NODE, .kind = 99}},
    {"a cell", 2, {.tag = CQLP_TAG_LEAF, .kind = CQLP_KIND_INT}},
    {"no kind of a cell", 2, {.tag = CQLP_TAG_LEAF, .kind = 99}},
    {"no boolean", 2, {.tag = CQLP_TAG_LEAF, .kind = CQLP_KIND_BOOLEAN, .number = 2}},
    {"no smallint", 2, {.tag = CQLP_TAG_LEAF, .kind = CQLP_KIND_SMALLINT, .number = 32768}},
    {"a list as a leaf", 2, {.tag = CQLP_TAG_LEAF, .kind = CQLP_KIND_LIST}},
    {"no number of items", 2, {.tag = CQLP_TAG_ENTER, .kind = CQLP_KIND_LIST, .number = -1}},
    {"too few bytes of a cell", 2, {.tag = CQLP_TAG_LEAF, .kind = CQLP_KIND_BLOB, .length = 1}},
    {"a null", 2, {.tag = CQLP_TAG_NULL}},
    {"a part", 2, {.tag = CQLP_TAG_PART}},
    {"the kind of a page", 2, {.tag = CQLP_TAG_INT, .field = CQLP_FIELD_RESULT_KIND, .number = CQLP_RESULT_ROWS}},
    {"another field than is due", 2, {.tag = CQLP_TAG_SHORT, .field = CQLP_FIELD_SERIAL_CONSISTENCY}},
    {"another direction", 0, {.tag = CQLP_TAG_FRAME, .opcode = CQLP_OPCODE_QUERY, .mark = CQLP_MARK_RESPONSE}},
    {"compression", 0, {.tag = CQLP_TAG_FRAME, .opcode = CQLP_OPCODE_QUERY, .flags = 1}},
    {"a flag of what does not come", 3, {.tag = CQLP_TAG_BYTE, .field = CQLP_FIELD_QUERY_FLAGS, .number = 4}},
  };
  for (size_t i = 0; i < sizeof CASES / sizeof *CASES; i++) {
    size_t event;
    uint32_t code = refused(CASES[i].which, CASES[i].with, &event);
    printf("%s: %s at %zu\n", CASES[i].what, cqlp_name(CQLP_GROUP_CODE, code), event);
  }
  cqlp_encoded encoded = {1, 1};
  CHECK(cqlp_encode(NULL, 0, NULL, 0, NULL, 0, &encoded) == CQLP_MISPLACED && encoded.event == 0 && encoded.length == 0);
}

/* A page of which one event is another: what is refused, and at which event. */
static void refuse_pages(void) {
  static const struct { const char *what; size_t which; cqlp_event with; } CASES[] = {
    {"a page", 19, {.tag = CQLP_TAG_END}},
    {"a scalar in parts", 12, {.tag = CQLP_TAG_PART, .kind = CQLP_KIND_VARCHAR, .length = 1}},
    {"a cell of another row", 17, {.tag = CQLP_TAG_NULL}},
    {"a cell of another column", 18, {.tag = CQLP_TAG_EMPTY, .row = 1}},
    {"an item at another level", 15, {.tag = CQLP_TAG_NULL, .column = 1}},
    {"an item of another kind", 14, {.tag = CQLP_TAG_LEAF, .column = 1, .level = 1, .kind = CQLP_KIND_BIGINT, .number = 7}},
    {"another number of items", 13, {.tag = CQLP_TAG_ENTER, .column = 1, .kind = CQLP_KIND_LIST, .number = 3}},
    {"another number of items at the end", 16, {.tag = CQLP_TAG_LEAVE, .number = 3}},
    {"a row less", 11, {.tag = CQLP_TAG_COUNT, .field = CQLP_FIELD_ROWS, .number = 1}},
    {"a row that is cut", 18, {.tag = CQLP_TAG_END}},
    {"a column less", 3, {.tag = CQLP_TAG_COUNT, .field = CQLP_FIELD_COLUMNS, .number = 1}},
  };
  for (size_t i = 0; i < sizeof CASES / sizeof *CASES; i++) {
    static frame frame;
    uint8_t *bytes;
    cqlp_encoded encoded;
    make_page(frame.events);
    frame.events[CASES[i].which] = CASES[i].with;
    frame.count = CASES[i].with.tag == CQLP_TAG_END ? CASES[i].which + 1 : OF_PAGE;
    memcpy(frame.contents, page_contents, frame.length = strlen(page_contents));
    uint32_t code = encode(&frame, 200, &bytes, &encoded);
    printf("%s: %s at %zu\n", CASES[i].what, cqlp_name(CQLP_GROUP_CODE, code), encoded.event);
    if (code == CQLP_DONE) check_read(&frame, bytes, encoded.length);
  }
}

/* ---- pages whose cells are each one event */

/* A page with a trace, a warning and a payload, of three rows: a value of each kind without inner types, nulls, and empty values. */
static void make_plain(frame *frame) {
  static const cqlp_event VALUES[] = {
    {.kind = CQLP_KIND_CUSTOM, .length = 1}, {.kind = CQLP_KIND_ASCII, .length = 2}, {.kind = CQLP_KIND_BIGINT, .number = -7},
    {.kind = CQLP_KIND_BLOB, .length = 1}, {.kind = CQLP_KIND_BOOLEAN, .number = 1}, {.kind = CQLP_KIND_COUNTER, .number = 7},
    {.kind = CQLP_KIND_DECIMAL, .extra = 3, .length = 2}, {.kind = CQLP_KIND_DOUBLE, .bytes = {0x40}}, {.kind = CQLP_KIND_FLOAT, .bytes = {0x41}},
    {.kind = CQLP_KIND_INT, .number = -1}, {.kind = CQLP_KIND_TIMESTAMP, .number = 5}, {.kind = CQLP_KIND_UUID, .bytes = {0xAB}},
    {.kind = CQLP_KIND_VARCHAR, .length = 3}, {.kind = CQLP_KIND_VARINT, .length = 1}, {.kind = CQLP_KIND_TIMEUUID, .bytes = {[6] = 0x10}},
    {.kind = CQLP_KIND_INET, .octets = 4, .bytes = {127, 0, 0, 1}}, {.kind = CQLP_KIND_DATE, .number = 9}, {.kind = CQLP_KIND_TIME, .number = 9},
    {.kind = CQLP_KIND_SMALLINT, .number = -9}, {.kind = CQLP_KIND_TINYINT, .number = -9},
  };
  enum { KINDS = sizeof VALUES / sizeof *VALUES };
  frame->count = frame->length = 0;
  append(frame, (cqlp_event){.tag = CQLP_TAG_FRAME, .opcode = CQLP_OPCODE_RESULT, .extra = 7, .mark = CQLP_MARK_RESPONSE, .flags = 2 | 4 | 8});
  append(frame, (cqlp_event){.tag = CQLP_TAG_UUID, .field = CQLP_FIELD_TRACE_ID});
  append_number(frame, CQLP_TAG_COUNT, CQLP_FIELD_WARNINGS, 1);
  append_text(frame, CQLP_FIELD_WARNING);
  append_number(frame, CQLP_TAG_COUNT, CQLP_FIELD_PAYLOAD_ITEMS, 1);
  append_text(frame, CQLP_FIELD_PAYLOAD_KEY);
  append(frame, (cqlp_event){.tag = CQLP_TAG_BYTES, .field = CQLP_FIELD_PAYLOAD_VALUE, .mark = CQLP_MARK_NULL});
  append_number(frame, CQLP_TAG_INT, CQLP_FIELD_RESULT_KIND, CQLP_RESULT_ROWS);
  append_number(frame, CQLP_TAG_INT, CQLP_FIELD_META_FLAGS, 1);
  append_number(frame, CQLP_TAG_COUNT, CQLP_FIELD_COLUMNS, KINDS);
  append_table(frame);
  for (size_t i = 0; i < KINDS; i++) {
    append_text(frame, CQLP_FIELD_COLUMN_NAME);
    append_kind(frame, VALUES[i].kind);
    if (VALUES[i].kind == CQLP_KIND_CUSTOM) append_text(frame, CQLP_FIELD_CLASS);
  }
  append_number(frame, CQLP_TAG_COUNT, CQLP_FIELD_ROWS, 3);
  for (uint32_t row = 0; row < 3; row++)
    for (uint32_t i = 0; i < KINDS; i++) {
      cqlp_event cell = VALUES[i];
      if (row > 0) cell = (cqlp_event){0};
      cell.tag = row == 0 ? CQLP_TAG_LEAF : row == 1 ? CQLP_TAG_NULL : CQLP_TAG_EMPTY;
      cell.row = row;
      cell.column = i;
      append(frame, cell);
      for (size_t n = 0; n < cell.length; n++) frame->contents[frame->length++] = (uint8_t)('0' + n);
    }
}

/* What becomes of such a page, and of others that are one step from it; where it is written, with no byte of room to spare, and not with one less. */
static void write_plain(void) {
  static const char *const CASES[] = {
    "a plain page", "a plain page with an end", "a wrong kind at the last value", "a row less", "a cell more", "a cell less", "a byte more", "a byte less",
    "an item at the end", "two ends",
  };
  for (size_t i = 0; i < sizeof CASES / sizeof *CASES; i++) {
    static frame frame;
    uint8_t *bytes;
    cqlp_encoded encoded;
    make_plain(&frame);
    size_t value = frame.count - 41;
    switch (i) {
      case 1: append(&frame, (cqlp_event){.tag = CQLP_TAG_END}); break;
      case 2: frame.events[value].kind = CQLP_KIND_SMALLINT; break;
      case 3: frame.events[value - 20].number = 2; break;
      case 4: append(&frame, (cqlp_event){.tag = CQLP_TAG_NULL, .row = 3}); break;
      case 5: frame.count--; break;
      case 6: frame.length++; break;
      case 7: frame.length--; break;
      case 8: append(&frame, (cqlp_event){.tag = CQLP_TAG_LEAVE}); break;
      case 9:
        append(&frame, (cqlp_event){.tag = CQLP_TAG_END});
        append(&frame, (cqlp_event){.tag = CQLP_TAG_END});
        break;
      default: break;
    }
    uint32_t code = encode(&frame, LONG, &bytes, &encoded);
    printf("%s: %s at %zu of %zu\n", CASES[i], cqlp_name(CQLP_GROUP_CODE, code), encoded.event, frame.count);
    if (code != CQLP_DONE) continue;
    size_t length = encoded.length;
    check_read(&frame, bytes, length);
    CHECK(encode(&frame, length - 1, &bytes, &encoded) == CQLP_NO_ROOM && encoded.length == length);
    CHECK(encode(&frame, length, &bytes, &encoded) == CQLP_DONE && encoded.length == length);
    check_read(&frame, bytes, length);
  }
}

/* Pages of one column of texts, from no row to nine, of which one is null or none: the cells are written in four runs, of which the last may be longer. */
static void write_few(void) {
  static frame frame;
  uint8_t *bytes;
  cqlp_encoded encoded;
  for (uint32_t rows = 0; rows < 10; rows++) {
    for (uint32_t null = 0; null <= rows; null++) {
      frame.count = frame.length = 0;
      append(&frame, (cqlp_event){.tag = CQLP_TAG_FRAME, .opcode = CQLP_OPCODE_RESULT, .mark = CQLP_MARK_RESPONSE});
      append_number(&frame, CQLP_TAG_INT, CQLP_FIELD_RESULT_KIND, CQLP_RESULT_ROWS);
      append_number(&frame, CQLP_TAG_INT, CQLP_FIELD_META_FLAGS, 1);
      append_number(&frame, CQLP_TAG_COUNT, CQLP_FIELD_COLUMNS, 1);
      append_table(&frame);
      append_text(&frame, CQLP_FIELD_COLUMN_NAME);
      append_kind(&frame, CQLP_KIND_VARCHAR);
      append_number(&frame, CQLP_TAG_COUNT, CQLP_FIELD_ROWS, rows);
      for (uint32_t row = 0; row < rows; row++) {
        size_t length = row == null ? 0 : 1 + row % 3;
        append(&frame, (cqlp_event){.tag = row == null ? CQLP_TAG_NULL : CQLP_TAG_LEAF, .kind = CQLP_KIND_VARCHAR, .row = row, .length = length});
        for (size_t n = 0; n < length; n++) frame.contents[frame.length++] = (uint8_t)('a' + row);
      }
      CHECK(encode(&frame, LONG, &bytes, &encoded) == CQLP_DONE && encoded.event == frame.count);
      size_t length = encoded.length;
      check_read(&frame, bytes, length);
      CHECK(encode(&frame, length - 1, &bytes, &encoded) == CQLP_NO_ROOM && encoded.length == length);
    }
  }
}

static size_t bytes_of(const char *digits, uint8_t *bytes, size_t room) {
  size_t count = 0;
  unsigned byte;
  for (; sscanf(digits, "%2x", &byte) == 1; digits += 2) {
    CHECK(count < room);
    bytes[count++] = (uint8_t)byte;
  }
  return count;
}

/* How often events are changed, and from which seed, may be said: `encode-asan 1000000 7 <streams.txt`. */
int main(int count, char **words) {
  static char line[8192], name[256];
  static uint8_t stream[4096];
  cqlp_limits limits = {0};
  while (fgets(line, sizeof line, stdin)) {
    unsigned text, cell, entries, depth, types, parts;
    if (sscanf(line, "stream %255s %u %u %u %u %u %u", name, &text, &cell, &entries, &depth, &types, &parts) == 7)
      limits = (cqlp_limits){text, cell, entries, depth, (uint8_t)types, (uint8_t)parts};
    else if (strncmp(line, "bytes ", 6) == 0)
      write_stream(name, &limits, stream, bytes_of(line + 6, stream, sizeof stream));
  }
  printf("frames: %zu the same, %zu others, %zu in parts, %zu without types\n", same, others, parts, untyped);
  prepare_some(1000);
  prepare_deep(63);
  prepare_deep(64);
  refuse_each();
  refuse_pages();
  write_plain();
  write_few();
  if (count > 2) state = strtoull(words[2], NULL, 10) | 1;
  write_changed(count > 1 ? strtoul(words[1], NULL, 10) : 100000);
  for (size_t i = 0; i < sizeof codes / sizeof *codes; i++)
    if (codes[i]) printf("changed: %s\n", cqlp_name(CQLP_GROUP_CODE, (int64_t)i));
  for (size_t i = 0; i < kept; i++) free(frames[i]);
  return 0;
}
