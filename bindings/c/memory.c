/* Memory that is refused: each call that asks for memory, as a table. With memory to spare none answers CQLP_NO_MEMORY. Then the n-th
 * request is refused, for each n in turn: the answer is CQLP_NO_MEMORY, what the caller gave is as it was, nothing stays taken, and the
 * next try is one as any other. cqlp_encode has two ways to write a page: where a request of the first is refused, the second is tried,
 * so there all requests after the n-th are refused too. The calls on a handle that is made ask for none. It is linked with --wrap for
 * malloc, realloc and free, so these here count and refuse. It prints how many requests each call makes, and expected-memory is what it
 * must print. */
#include "give.h"

void *__real_malloc(size_t size);
void *__real_realloc(void *block, size_t size);
void __real_free(void *block);
void *__wrap_malloc(size_t size);
void *__wrap_realloc(void *block, size_t size);
void __wrap_free(void *block);

static size_t requests; /* since the last count began */
static size_t refused;  /* the number of the one that is refused, from 1 on; 0: none */
static int onward;      /* whether all after it are refused too */
static long taken;      /* blocks that are not freed */

static int refuses(void) {
  requests++;
  return requests == refused || (onward && refused && requests > refused);
}

void *__wrap_malloc(size_t size) {
  void *block = refuses() ? NULL : __real_malloc(size);
  if (block) taken++;
  return block;
}

void *__wrap_realloc(void *block, size_t size) {
  void *moved = refuses() ? NULL : __real_realloc(block, size);
  if (moved && !block) taken++;
  return moved;
}

void __wrap_free(void *block) {
  if (block) taken--;
  __real_free(block);
}

/* A QUERY, whole, and one whose text is cut. */
static const uint8_t query[] = {4, 0, 0, 7, 7, 0, 0, 0, 13, 0, 0, 0, 6, 'a', 'b', 'c', 'd', 'e', 'f', 0, 1, 0};

/* The same with a text that is no UTF-8. */
static const uint8_t bad[] = {4, 0, 0, 7, 7, 0, 0, 0, 13, 0, 0, 0, 6, 'a', 0xC3, 'c', 'd', 'e', 'f', 0, 1, 0};

/* A call that asks for memory, with what it is given. */
enum { NEW, CHECK_ALL, CLIENT, SERVER, TYPES_OF, TAKE_GIVEN, ENCODE, ENCODE_PAGE, PAGE };

typedef struct row {
  const char *name;
  cqlp_limits limits;
  uint32_t slots;
  int call;
} row;

static const row ROWS[] = {
    {"cqlp_new, default limits", CQLP_DEFAULT_LIMITS, 0, NEW},
    {"cqlp_new, least limits", {32, 32, 1, 1, 0, 0}, 0, NEW},
    {"cqlp_new, greatest limits", {16777216, 16777216, 65536, 64, 1, 1}, 0, NEW},
    {"cqlp_check, default limits", CQLP_DEFAULT_LIMITS, 0, CHECK_ALL},
    {"cqlp_check, least limits", {32, 32, 1, 1, 0, 0}, 0, CHECK_ALL},
    {"cqlp_client_new, 1 slot", CQLP_DEFAULT_LIMITS, 1, CLIENT},
    {"cqlp_client_new, 32768 slots", CQLP_DEFAULT_LIMITS, 32768, CLIENT},
    {"cqlp_server_new, 1 slot", CQLP_DEFAULT_LIMITS, 1, SERVER},
    {"cqlp_server_new, 32768 slots", CQLP_DEFAULT_LIMITS, 32768, SERVER},
    {"cqlp_types_of, into a new handle", CQLP_DEFAULT_LIMITS, 0, TYPES_OF},
    {"cqlp_take_given, into a new handle", CQLP_DEFAULT_LIMITS, 0, TAKE_GIVEN},
    {"cqlp_encode, one text", CQLP_DEFAULT_LIMITS, 0, ENCODE},
    {"cqlp_encode, a page", CQLP_DEFAULT_LIMITS, 0, ENCODE_PAGE},
    {"cqlp_page_begin and cqlp_page_put, the same page", CQLP_DEFAULT_LIMITS, 0, PAGE},
};

/* What the caller gives to be written: the handles, an end, and room for bytes. */
typedef struct given {
  cqlp_decoder decoder;
  cqlp_client client;
  cqlp_server server;
  cqlp_types types;
  cqlp_end end;
  uint8_t bytes[128];
} given;

/* A PREPARE of a text of six bytes, of its events. */
static uint32_t encode_text(uint8_t *bytes, size_t room) {
  const cqlp_event events[] = {{.tag = CQLP_TAG_FRAME, .opcode = CQLP_OPCODE_PREPARE},
                               {.tag = CQLP_TAG_TEXT, .field = CQLP_FIELD_QUERY, .length = 6}};
  cqlp_encoded encoded = {0, 0};
  uint32_t code = cqlp_encode(events, 2, (const uint8_t *)"abcdef", 6, bytes, room, &encoded);
  CHECK(code == CQLP_DONE ? encoded.length == 19 && encoded.event == 2 : encoded.length == 0 && encoded.event <= 2);
  return code;
}

/* A page, of its events. */
static uint32_t encode_page(uint8_t *bytes, size_t room) {
  cqlp_event events[OF_PAGE];
  cqlp_encoded encoded = {0, 0};
  make_page(events);
  uint32_t code = cqlp_encode(events, OF_PAGE, (const uint8_t *)page_contents, strlen(page_contents), bytes, room, &encoded);
  CHECK(code == CQLP_DONE ? encoded.length == 76 && encoded.event == OF_PAGE : encoded.length == 0 && encoded.event <= OF_PAGE);
  return code;
}

/* The same in two calls, of its head and of its cells. Where memory is refused to the second, what it has put is taken back here. */
static uint32_t put_page(uint8_t *bytes, size_t room) {
  cqlp_event events[OF_PAGE];
  cqlp_page page = CQLP_NO_PAGE_YET;
  cqlp_encoded begun = {0, 0};
  cqlp_put put = {0, 0, 0, 0, 0};
  const uint8_t *contents = (const uint8_t *)page_contents;
  make_page(events);
  uint32_t code = cqlp_page_begin(events, 12, contents, 4, 33, bytes, room, &page, &begun);
  if (code == CQLP_DONE) {
    code = cqlp_page_put(&page, events + 12, 7, contents + 4, 1, bytes + begun.length, room - begun.length, &put);
    CHECK(code == CQLP_DONE ? put.events == 7 && put.length == 33 : put.event < 7 && put.length < 33);
    CHECK(cqlp_page_end(&page) == (code == CQLP_DONE ? CQLP_DONE : CQLP_CELLS_MISSING) && cqlp_page_free(&page) == CQLP_DONE);
  }
  CHECK(cqlp_page_free(&page) == CQLP_NO_PAGE);
  if (code != CQLP_DONE) memset(bytes, 0, room);
  return code;
}

/* A decoder for the calls on tables of types, and how many blocks it has; to one a table was given. */
static cqlp_decoder typed = CQLP_NO_DECODER_YET;
static long base;

static void make_typed(const row *row) {
  cqlp_types types = CQLP_NO_TYPES_YET;
  base = 0;
  if (row->call != TYPES_OF && row->call != TAKE_GIVEN) return;
  CHECK(cqlp_new(&row->limits, &typed) == CQLP_DONE);
  if (row->call == TAKE_GIVEN) {
    CHECK(cqlp_types_of(&typed, &types) == CQLP_DONE && cqlp_give(&typed, &types) == CQLP_DONE);
    CHECK(cqlp_types_free(&types) == CQLP_DONE);
  }
  base = taken;
}

static void free_typed(const row *row) {
  if (row->call == TYPES_OF || row->call == TAKE_GIVEN) CHECK(cqlp_free(&typed) == CQLP_DONE);
}

/* Makes the call, and refuses this request. */
static uint32_t call(const row *row, given *given, size_t refuse) {
  uint32_t code;
  requests = 0;
  refused = refuse;
  switch (row->call) {
    case CHECK_ALL: code = cqlp_check(&row->limits, query, sizeof query, &given->end); break;
    case CLIENT: code = cqlp_client_new(row->slots, &given->client); break;
    case SERVER: code = cqlp_server_new(row->slots, &given->server); break;
    case TYPES_OF: code = cqlp_types_of(&typed, &given->types); break;
    case TAKE_GIVEN: code = cqlp_take_given(&typed, &given->types); break;
    case ENCODE: code = encode_text(given->bytes, sizeof given->bytes); break;
    case ENCODE_PAGE: code = encode_page(given->bytes, sizeof given->bytes); break;
    case PAGE: code = put_page(given->bytes, sizeof given->bytes); break;
    default: code = cqlp_new(&row->limits, &given->decoder);
  }
  refused = 0;
  return code;
}

/* A request of this opcode under the stream id 0, as a core sees it. */
static cqlp_event asking(uint8_t opcode) {
  cqlp_event event;
  memset(&event, 0, sizeof event);
  event.tag = CQLP_TAG_FRAME;
  event.opcode = opcode;
  return event;
}

/* What was made serves, and asks for no more memory; then it is freed. */
static void serve_and_free(const row *row, given *given) {
  cqlp_event events[ROOM];
  cqlp_batch batch;
  cqlp_skipped skipped;
  cqlp_holding held;
  cqlp_ticket ticket = {0, 0};
  cqlp_answered answered = {0, 0};
  memset(events, 0, sizeof events);
  memset(&batch, 0, sizeof batch);
  memset(&skipped, 0, sizeof skipped);
  memset(&held, 0, sizeof held);
  requests = 0;
  if (row->call == SERVER) {
    cqlp_event frame = asking(CQLP_OPCODE_STARTUP);
    CHECK(cqlp_server_accept(&given->server, &frame, 7) == CQLP_DONE);
    CHECK(cqlp_server_answer(&given->server, 0, CQLP_OPCODE_READY, &answered) == CQLP_DONE && answered.carried == 7);
    CHECK(requests == 0 && taken > 0);
    CHECK(cqlp_server_free(&given->server) == CQLP_DONE);
  } else if (row->call == CLIENT) {
    CHECK(cqlp_client_begin(&given->client, CQLP_OPCODE_STARTUP, 7, &ticket) == CQLP_DONE && ticket.number == 1);
    CHECK(requests == 0 && taken > 0);
    CHECK(cqlp_client_free(&given->client) == CQLP_DONE);
  } else if (row->call == TYPES_OF || row->call == TAKE_GIVEN) {
    CHECK(cqlp_give(&typed, &given->types) == CQLP_DONE && requests == 0 && taken > 0);
    CHECK(cqlp_types_free(&given->types) == CQLP_DONE);
  } else if (row->call == ENCODE) {
    CHECK(memcmp(given->bytes, "\x04\0\0\0\x09\0\0\0\x0a\0\0\0\x06" "abcdef", 19) == 0);
  } else if (row->call == ENCODE_PAGE || row->call == PAGE) {
    CHECK(memcmp(given->bytes, "\x84\0\0\x07\x08\0\0\0\x43\0\0\0\x02", 13) == 0);
  } else if (row->call == CHECK_ALL) {
    CHECK(given->end.verdict == CQLP_END_WHOLE && given->end.bytes == sizeof query);
  } else {
    for (size_t i = 0; i < sizeof query; i++)
      CHECK(cqlp_next(&given->decoder, query + i, 1, events, ROOM, &batch) == CQLP_DONE && batch.stop != CQLP_STOP_REFUSED);
    CHECK(cqlp_held(&given->decoder, &held) == CQLP_DONE);
    CHECK(cqlp_finish(&given->decoder, &given->end) == CQLP_DONE && given->end.bytes == sizeof query);
    CHECK(cqlp_next(&given->decoder, bad, sizeof bad, events, ROOM, &batch) == CQLP_DONE && batch.stop == CQLP_STOP_REFUSED);
    CHECK(cqlp_skip(&given->decoder, &skipped) == CQLP_DONE && skipped.rest == sizeof bad - batch.used);
    CHECK(cqlp_next(&given->decoder, bad + batch.used, skipped.rest, events, ROOM, &batch) == CQLP_DONE);
    CHECK(cqlp_next(&given->decoder, query, sizeof query, events, ROOM, &batch) == CQLP_DONE && batch.used == sizeof query);
    CHECK(requests == 0 && taken > 0);
    CHECK(cqlp_free(&given->decoder) == CQLP_DONE);
  }
  free_typed(row);
  CHECK(taken == 0);
}

/* Where one request for a page is refused, and none after it, the page is written all the same, or nothing is. */
static void refuse_one(const row *row, size_t all) {
  given given, before;
  for (size_t n = 1; n <= all; n++) {
    memset(&given, 0, sizeof given);
    before = given;
    if (call(row, &given, n) == CQLP_DONE)
      serve_and_free(row, &given);
    else
      CHECK(requests == n && taken == base && memcmp(&given, &before, sizeof given) == 0);
  }
}

static void refuse_each(const row *row) {
  given given, before;
  memset(&given, 0, sizeof given);
  before = given;
  make_typed(row);
  CHECK(call(row, &given, 0) == CQLP_DONE);
  size_t all = requests;
  serve_and_free(row, &given);
  if (row->call == ENCODE_PAGE) refuse_one(row, all);
  onward = row->call == ENCODE_PAGE;
  for (size_t n = 1; n <= all; n++) {
    memset(&given, 0, sizeof given);
    make_typed(row);
    CHECK(call(row, &given, n) == CQLP_NO_MEMORY);
    CHECK((onward ? requests >= n : requests == n) && taken == base);
    CHECK(memcmp(&given, &before, sizeof given) == 0);
    CHECK(call(row, &given, all + 1) == CQLP_DONE && requests == all);
    serve_and_free(row, &given);
  }
  onward = 0;
  printf("%s: %zu requests\n", row->name, all);
}

/* ---- cells of one event, for which no memory is asked */

#define LEAF(of, ...) {.tag = CQLP_TAG_LEAF, .kind = (of), __VA_ARGS__}

/* A cell of a column of this kind, its content, and the bytes that sections 4.2.5.2 and 6 of the standard give it, or why it has none. */
typedef struct scalar {
  const char *what;
  uint8_t kind;
  cqlp_event cell;
  const char *content;
  const char *bytes;
  size_t length;
  uint32_t code;
} scalar;

static const scalar SCALARS[] = {
    {"custom", CQLP_KIND_CUSTOM, LEAF(CQLP_KIND_CUSTOM, .length = 2), "ab", "\0\0\0\2ab", 6, 0},
    {"ascii", CQLP_KIND_ASCII, LEAF(CQLP_KIND_ASCII, .length = 2), "a\x7F", "\0\0\0\2a\x7F", 6, 0},
    {"bigint", CQLP_KIND_BIGINT, LEAF(CQLP_KIND_BIGINT, .number = -2), "", "\0\0\0\x8\xFF\xFF\xFF\xFF\xFF\xFF\xFF\xFE", 12, 0},
    {"blob", CQLP_KIND_BLOB, LEAF(CQLP_KIND_BLOB, .length = 2), "\0\xFF", "\0\0\0\2\0\xFF", 6, 0},
    {"boolean", CQLP_KIND_BOOLEAN, LEAF(CQLP_KIND_BOOLEAN, .number = 1), "", "\0\0\0\1\1", 5, 0},
    {"counter", CQLP_KIND_COUNTER, LEAF(CQLP_KIND_COUNTER, .number = 258), "", "\0\0\0\x8\0\0\0\0\0\0\1\2", 12, 0},
    {"decimal", CQLP_KIND_DECIMAL, LEAF(CQLP_KIND_DECIMAL, .extra = -1, .length = 2), "\1\2", "\0\0\0\6\xFF\xFF\xFF\xFF\1\2", 10, 0},
    {"double", CQLP_KIND_DOUBLE, LEAF(CQLP_KIND_DOUBLE, .bytes = {0x3F, 0xF0, 0, 0, 0, 0, 0, 9}), "", "\0\0\0\x8\x3F\xF0\0\0\0\0\0\x9", 12, 0},
    {"float", CQLP_KIND_FLOAT, LEAF(CQLP_KIND_FLOAT, .bytes = {0x3F, 0x80, 0, 9}), "", "\0\0\0\4\x3F\x80\0\x9", 8, 0},
    {"int", CQLP_KIND_INT, LEAF(CQLP_KIND_INT, .number = -2147483648), "", "\0\0\0\4\x80\0\0\0", 8, 0},
    {"timestamp", CQLP_KIND_TIMESTAMP, LEAF(CQLP_KIND_TIMESTAMP, .number = 1), "", "\0\0\0\x8\0\0\0\0\0\0\0\1", 12, 0},
    {"uuid", CQLP_KIND_UUID, LEAF(CQLP_KIND_UUID, .bytes = "abcdefghijklmnop"), "", "\0\0\0\x10" "abcdefghijklmnop", 20, 0},
    {"varchar", CQLP_KIND_VARCHAR, LEAF(CQLP_KIND_VARCHAR, .length = 3), "a\xC3\xA9", "\0\0\0\3a\xC3\xA9", 7, 0},
    {"varint", CQLP_KIND_VARINT, LEAF(CQLP_KIND_VARINT, .length = 1), "\x80", "\0\0\0\1\x80", 5, 0},
    {"timeuuid", CQLP_KIND_TIMEUUID, LEAF(CQLP_KIND_TIMEUUID, .bytes = "abcdef\x10hijklmnop"), "", "\0\0\0\x10" "abcdef\x10hijklmnop", 20, 0},
    {"inet of 4", CQLP_KIND_INET, LEAF(CQLP_KIND_INET, .octets = 4, .bytes = {127, 0, 0, 1}), "", "\0\0\0\4\x7F\0\0\1", 8, 0},
    {"inet of 16", CQLP_KIND_INET, LEAF(CQLP_KIND_INET, .octets = 16, .bytes = "abcdefghijklmnop"), "", "\0\0\0\x10" "abcdefghijklmnop", 20, 0},
    {"date", CQLP_KIND_DATE, LEAF(CQLP_KIND_DATE, .number = 2147483648), "", "\0\0\0\4\x80\0\0\0", 8, 0},
    {"time", CQLP_KIND_TIME, LEAF(CQLP_KIND_TIME, .number = 86399999999999), "", "\0\0\0\x8\0\0\x4E\x94\x91\x4E\xFF\xFF", 12, 0},
    {"smallint", CQLP_KIND_SMALLINT, LEAF(CQLP_KIND_SMALLINT, .number = -2), "", "\0\0\0\2\xFF\xFE", 6, 0},
    {"tinyint", CQLP_KIND_TINYINT, LEAF(CQLP_KIND_TINYINT, .number = -128), "", "\0\0\0\1\x80", 5, 0},
    {"raw", CQLP_KIND_RAW, LEAF(CQLP_KIND_RAW, .length = 1), "r", "\0\0\0\1r", 5, 0},
    {"null", CQLP_KIND_INT, {.tag = CQLP_TAG_NULL}, "", "\xFF\xFF\xFF\xFF", 4, 0},
    {"null, raw", CQLP_KIND_RAW, {.tag = CQLP_TAG_NULL}, "", "\xFF\xFF\xFF\xFF", 4, 0},
    {"null, custom", CQLP_KIND_CUSTOM, {.tag = CQLP_TAG_NULL}, "", "\xFF\xFF\xFF\xFF", 4, 0},
    {"empty", CQLP_KIND_VARCHAR, {.tag = CQLP_TAG_EMPTY}, "", "\0\0\0\0", 4, 0},
    {"empty int", CQLP_KIND_INT, {.tag = CQLP_TAG_EMPTY}, "", "\0\0\0\0", 4, 0},
    {"another kind", CQLP_KIND_INT, LEAF(CQLP_KIND_DATE, .number = 7), "", "", 0, CQLP_NO_VALUE},
    {"raw, typed", CQLP_KIND_BLOB, LEAF(CQLP_KIND_RAW, .length = 1), "r", "", 0, CQLP_NO_VALUE},
    {"typed, raw", CQLP_KIND_RAW, LEAF(CQLP_KIND_INT, .number = 7), "", "", 0, CQLP_NO_VALUE},
    {"text of no bytes", CQLP_KIND_VARCHAR, LEAF(CQLP_KIND_VARCHAR, .length = 0), "", "", 0, CQLP_NO_VALUE},
    {"blob of no bytes", CQLP_KIND_BLOB, LEAF(CQLP_KIND_BLOB, .length = 0), "", "", 0, CQLP_NO_VALUE},
    {"decimal of no bytes", CQLP_KIND_DECIMAL, LEAF(CQLP_KIND_DECIMAL, .length = 0), "", "", 0, CQLP_NO_VALUE},
    {"ascii past 7F", CQLP_KIND_ASCII, LEAF(CQLP_KIND_ASCII, .length = 2), "\xC3\xA9", "", 0, CQLP_NO_VALUE},
    {"timeuuid of version 4", CQLP_KIND_TIMEUUID, LEAF(CQLP_KIND_TIMEUUID, .bytes = "abcdef\x40hijklmnop"), "", "", 0, CQLP_NO_VALUE},
    {"time of 24 hours", CQLP_KIND_TIME, LEAF(CQLP_KIND_TIME, .number = 86400000000000), "", "", 0, CQLP_NO_VALUE},
    {"time before midnight", CQLP_KIND_TIME, LEAF(CQLP_KIND_TIME, .number = -1), "", "", 0, CQLP_NO_VALUE},
    {"inside", CQLP_KIND_INT, LEAF(CQLP_KIND_INT, .number = 7, .level = 1), "", "", 0, CQLP_NOT_ENDED},
    {"another row", CQLP_KIND_INT, LEAF(CQLP_KIND_INT, .number = 7, .row = 1), "", "", 0, CQLP_MISPLACED},
    {"another column", CQLP_KIND_INT, LEAF(CQLP_KIND_INT, .number = 7, .column = 1), "", "", 0, CQLP_MISPLACED},
    {"no UTF-8", CQLP_KIND_VARCHAR, LEAF(CQLP_KIND_VARCHAR, .length = 1), "\xC3", "", 0, CQLP_NO_EVENT},
    {"no boolean", CQLP_KIND_BOOLEAN, LEAF(CQLP_KIND_BOOLEAN, .number = 2), "", "", 0, CQLP_NO_EVENT},
};

/* Begins a page of one cell of this kind, of this many bytes; raw where its column is not described. */
static void begin_one(uint8_t kind, uint64_t size, cqlp_page *page) {
  int raw = kind == CQLP_KIND_RAW, custom = kind == CQLP_KIND_CUSTOM;
  uint8_t bytes[64];
  cqlp_encoded begun = {0, 0};
  cqlp_event events[10] = {
    {.tag = CQLP_TAG_FRAME, .opcode = CQLP_OPCODE_RESULT, .mark = CQLP_MARK_RESPONSE},
    {.tag = CQLP_TAG_INT, .field = CQLP_FIELD_RESULT_KIND, .number = CQLP_RESULT_ROWS},
    {.tag = CQLP_TAG_INT, .field = CQLP_FIELD_META_FLAGS, .number = raw ? 4 : 1},
    {.tag = CQLP_TAG_COUNT, .field = CQLP_FIELD_COLUMNS, .number = 1},
    {.tag = CQLP_TAG_TEXT, .field = CQLP_FIELD_KEYSPACE, .length = 1},
    {.tag = CQLP_TAG_TEXT, .field = CQLP_FIELD_TABLE, .length = 1},
    {.tag = CQLP_TAG_TEXT, .field = CQLP_FIELD_COLUMN_NAME, .length = 1},
    {.tag = CQLP_TAG_TYPE_NODE, .kind = kind},
    {.tag = CQLP_TAG_TEXT, .field = CQLP_FIELD_CLASS, .length = 1},
  };
  size_t count = raw ? 4 : custom ? 9 : 8, length = raw ? 0 : custom ? 4 : 3;
  events[count++] = (cqlp_event){.tag = CQLP_TAG_COUNT, .field = CQLP_FIELD_ROWS, .number = 1};
  CHECK(cqlp_page_begin(events, count, (const uint8_t *)"ktcx", length, size, bytes, sizeof bytes, page, &begun) == CQLP_DONE);
}

/* Puts the cell, as the first of a page whose cells have this many bytes, into a room of this size, where each request for memory is refused or none is. */
static uint32_t put_one(const scalar *scalar, uint64_t size, size_t room, int refuse, cqlp_put *put) {
  cqlp_page page = CQLP_NO_PAGE_YET;
  size_t length = scalar->cell.tag == CQLP_TAG_LEAF ? scalar->cell.length : 0;
  uint8_t *bytes = memset(edge(BYTES, room), 0xA5, room), *contents = memcpy(edge(PIECE, length), scalar->content, length);
  refused = 0;
  begin_one(scalar->kind, size, &page);
  requests = 0;
  refused = refuse;
  uint32_t code = cqlp_page_put(&page, &scalar->cell, 1, contents, length, bytes, room, put);
  refused = 0;
  size_t done = code == CQLP_DONE ? scalar->length : 0;
  CHECK(put->length == done && memcmp(bytes, scalar->bytes, done) == 0 && put->events == (done > 0) && put->used == (done ? length : 0));
  for (size_t i = done; i < room; i++) CHECK(bytes[i] == 0xA5);
  CHECK(cqlp_page_end(&page) == (done == 0 ? CQLP_CELLS_MISSING : done == size ? CQLP_DONE : CQLP_BYTES_MISSING));
  CHECK(cqlp_page_free(&page) == CQLP_DONE && taken == 0);
  return code;
}

/* A cell of one event is put with no request for memory, and so is refused for want of room or bytes; one that is no value is refused, or lacks memory. */
static void put_scalars(void) {
  size_t put_ones = 0;
  for (size_t i = 0; i < sizeof SCALARS / sizeof *SCALARS; i++) {
    const scalar *scalar = &SCALARS[i];
    size_t n = scalar->length;
    cqlp_put put = {0, 0, 0, 0, 0};
    uint32_t code = put_one(scalar, n + 20, 40, 0, &put);
    if (code != scalar->code) fprintf(stderr, "%s: %s\n", scalar->what, cqlp_name(CQLP_GROUP_CODE, code));
    CHECK(code == scalar->code);
    if (code != CQLP_DONE) {
      code = put_one(scalar, n + 20, 40, 1, &put);
      CHECK(code == scalar->code || code == CQLP_NO_MEMORY);
      continue;
    }
    CHECK(put_one(scalar, n, n, 1, &put) == CQLP_DONE && requests == 0);
    CHECK(put_one(scalar, n, n - 1, 1, &put) == CQLP_NO_ROOM && put.wanted == n && requests == 0);
    CHECK(put_one(scalar, n, 0, 1, &put) == CQLP_NO_ROOM && put.wanted == n && requests == 0);
    CHECK(put_one(scalar, n - 1, 40, 1, &put) == CQLP_PAST_SIZE && requests == 0);
    put_ones++;
  }
  printf("cqlp_page_put, a cell of one event: 0 requests, %zu of %zu put\n", put_ones, sizeof SCALARS / sizeof *SCALARS);
}

int main(void) {
  for (size_t i = 0; i < sizeof ROWS / sizeof ROWS[0]; i++) refuse_each(&ROWS[i]);
  put_scalars();
  return 0;
}
