/* A server with one table, for one connection: it reads requests on standard input, and writes the replies to standard output. */
#include <cqlp.h>
#include <stdio.h>
#include <stdlib.h>
#include <string.h>
#include <unistd.h>

/* A column, and its cell in the only row. */
typedef struct {
  const char *name;
  uint8_t kind;
  const char *cell;
} column;

static const column ORDERS[] = {{"id", CQLP_KIND_VARCHAR, "1"}, {"item", CQLP_KIND_VARCHAR, "tea"}};
/* What drivers ask for first. The other tables of the system are empty. */
static const column LOCAL[] = {{"cluster_name", CQLP_KIND_VARCHAR, "one"}, {"data_center", CQLP_KIND_VARCHAR, "dc1"},
    {"rack", CQLP_KIND_VARCHAR, "r1"}, {"release_version", CQLP_KIND_VARCHAR, "3.11.4"},
    {"partitioner", CQLP_KIND_VARCHAR, "org.apache.cassandra.dht.Murmur3Partitioner"},
    {"host_id", CQLP_KIND_UUID, "one host's 16 b."}, {"schema_version", CQLP_KIND_UUID, "a schema's 16 b."}};

/* The events of the reply, and their contents one after the other. */
static cqlp_event events[64];
static char contents[8192];
static size_t count, length;

static void add(cqlp_event event, const char *content) {
  event.length = strlen(content);
  memcpy(contents + length, content, event.length);
  length += event.length;
  events[count++] = event;
}

static void add_text(uint8_t field, const char *text) { add((cqlp_event){.tag = CQLP_TAG_TEXT, .field = field}, text); }

static void add_number(uint8_t tag, uint8_t field, int64_t number) {
  add((cqlp_event){.tag = tag, .field = field, .number = number}, "");
}

static void add_metadata(const column *columns, int64_t width) {
  add_number(CQLP_TAG_INT, CQLP_FIELD_META_FLAGS, 1); /* one table for all columns */
  add_number(CQLP_TAG_COUNT, CQLP_FIELD_COLUMNS, width);
  add_text(CQLP_FIELD_KEYSPACE, "shop");
  add_text(CQLP_FIELD_TABLE, "orders");
  for (int64_t i = 0; i < width; i++) {
    add_text(CQLP_FIELD_COLUMN_NAME, columns[i].name);
    add((cqlp_event){.tag = CQLP_TAG_TYPE_NODE, .kind = columns[i].kind}, "");
  }
}

static void add_row(const column *columns, uint32_t width) {
  for (uint32_t i = 0; i < width; i++) {
    cqlp_event leaf = {.tag = CQLP_TAG_LEAF, .kind = columns[i].kind, .column = i};
    if (leaf.kind == CQLP_KIND_UUID) memcpy(leaf.bytes, columns[i].cell, sizeof leaf.bytes);
    add(leaf, leaf.kind == CQLP_KIND_UUID ? "" : columns[i].cell);
  }
}

/* Adds a page, or that the statement is prepared: its text is its id then. Returns the opcode of the reply. */
static uint8_t add_result(const char *statement, int prepares) {
  int is_system = strstr(statement, "system") != NULL, has_row = !is_system || strstr(statement, "system.local");
  const column *columns = is_system ? LOCAL : ORDERS;
  uint32_t width = is_system ? sizeof LOCAL / sizeof *LOCAL : sizeof ORDERS / sizeof *ORDERS;
  if (!is_system && !strstr(statement, "shop.orders")) {
    add_number(CQLP_TAG_INT, CQLP_FIELD_ERROR_CODE, CQLP_ERROR_INVALID);
    add_text(CQLP_FIELD_MESSAGE, "no such table");
    return CQLP_OPCODE_ERROR;
  }
  add_number(CQLP_TAG_INT, CQLP_FIELD_RESULT_KIND, prepares ? CQLP_RESULT_PREPARED : CQLP_RESULT_ROWS);
  if (prepares) {
    add((cqlp_event){.tag = CQLP_TAG_BYTES, .field = CQLP_FIELD_STATEMENT_ID}, statement);
    add_number(CQLP_TAG_INT, CQLP_FIELD_META_FLAGS, 0);
    add_number(CQLP_TAG_COUNT, CQLP_FIELD_COLUMNS, 0);
    add_number(CQLP_TAG_COUNT, CQLP_FIELD_KEYS, 0);
  }
  add_metadata(columns, width);
  if (!prepares) add_number(CQLP_TAG_COUNT, CQLP_FIELD_ROWS, has_row);
  if (!prepares && has_row) add_row(columns, width);
  return CQLP_OPCODE_RESULT;
}

static uint8_t add_reply(uint8_t opcode, const char *statement) {
  switch (opcode) {
    case CQLP_OPCODE_OPTIONS:
      add_number(CQLP_TAG_COUNT, CQLP_FIELD_OPTIONS, 2);
      add_text(CQLP_FIELD_OPTION_KEY, "COMPRESSION");
      add_number(CQLP_TAG_COUNT, CQLP_FIELD_OPTION_VALUES, 0);
      add_text(CQLP_FIELD_OPTION_KEY, "CQL_VERSION");
      add_number(CQLP_TAG_COUNT, CQLP_FIELD_OPTION_VALUES, 1);
      add_text(CQLP_FIELD_OPTION_VALUE, "3.4.4");
      return CQLP_OPCODE_SUPPORTED;
    case CQLP_OPCODE_STARTUP: case CQLP_OPCODE_REGISTER: return CQLP_OPCODE_READY;
    default: return add_result(statement, opcode == CQLP_OPCODE_PREPARE);
  }
}

static void answer(cqlp_server *server, const cqlp_event *request, const char *statement) {
  static uint8_t bytes[16384];
  cqlp_encoded encoded = {0};
  cqlp_answered answered = {0};
  count = length = 0;
  add((cqlp_event){.tag = CQLP_TAG_FRAME, .mark = CQLP_MARK_RESPONSE, .extra = request->extra}, "");
  events[0].opcode = add_reply(request->opcode, statement);
  if (cqlp_server_answer(server, (int16_t)request->extra, events[0].opcode, &answered) != CQLP_DONE) abort();
  if (cqlp_encode(events, count, (const uint8_t *)contents, length, bytes, sizeof bytes, &encoded) != CQLP_DONE) abort();
  fwrite(bytes, 1, encoded.length, stdout);
}

/* Handles an event of a request, and answers the request at its end. Returns CQLP_DONE, or why the request may not come now. */
static uint32_t take(cqlp_server *server, const cqlp_event *event) {
  static cqlp_event request;
  static char statement[1024];
  if (event->tag == CQLP_TAG_FRAME) {
    request = *event;
    statement[0] = 0;
    return cqlp_server_accept(server, event, 0);
  }
  if (event->field == CQLP_FIELD_QUERY || event->field == CQLP_FIELD_STATEMENT_ID)
    snprintf(statement, sizeof statement, "%.*s", (int)event->length, (const char *)event->content);
  if (event->tag == CQLP_TAG_END) answer(server, &request, statement);
  return CQLP_DONE;
}

int main(void) {
  static uint8_t piece[4096], first[9], error[128];
  static cqlp_event taken[64];
  cqlp_limits limits = CQLP_DEFAULT_LIMITS;
  cqlp_decoder decoder = CQLP_NO_DECODER_YET;
  cqlp_server server = CQLP_NO_SERVER_YET;
  cqlp_batch batch = {0};
  uint32_t code = CQLP_DONE;
  size_t seen = 0, put = 0;
  if (cqlp_new(&limits, &decoder) != CQLP_DONE || cqlp_server_new(32768, &server) != CQLP_DONE) return 2;
  for (ssize_t got; code == CQLP_DONE && batch.stop != CQLP_STOP_REFUSED && (got = read(STDIN_FILENO, piece, sizeof piece)) > 0;) {
    size_t used = 0;
    for (ssize_t i = 0; i < got && seen < sizeof first; i++) first[seen++] = piece[i];
    do {
      cqlp_next(&decoder, piece + used, (size_t)got - used, taken, 64, &batch);
      used += batch.used;
      for (size_t i = 0; code == CQLP_DONE && i < batch.events; i++) code = take(&server, &taken[i]);
    } while (code == CQLP_DONE && batch.stop == CQLP_STOP_FULL);
    fflush(stdout);
  }
  if (code != CQLP_DONE) fprintf(stderr, "%s\n", cqlp_name(CQLP_GROUP_CODE, code));
  /* drivers try greater versions first, and after this reply version 4 */
  if (batch.stop == CQLP_STOP_REFUSED && batch.reason == CQLP_REASON_BAD_VERSION &&
      cqlp_version_error(first, error, sizeof error, &put) == CQLP_DONE)
    fwrite(error, 1, put, stdout);
  cqlp_server_free(&server);
  cqlp_free(&decoder);
  return code != CQLP_DONE || batch.stop == CQLP_STOP_REFUSED;
}
