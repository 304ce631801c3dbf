/* A client: it sends STARTUP and then all statements at once to standard output, reads the replies on standard input, and prints them to standard
 * error: ask STATEMENT.. */
#include <cqlp.h>
#include <stdio.h>
#include <stdlib.h>
#include <string.h>
#include <unistd.h>

static cqlp_client client = CQLP_NO_CLIENT_YET;

/* Sends a request with three fields, whose contents are in `text`. The core returns `number` with the reply. */
static void ask(uint8_t opcode, uint64_t number, const cqlp_event *fields, const char *text) {
  static uint8_t bytes[65536];
  cqlp_event events[] = {{.tag = CQLP_TAG_FRAME, .opcode = opcode}, fields[0], fields[1], fields[2]};
  cqlp_ticket ticket = {0};
  cqlp_encoded encoded = {0};
  if (cqlp_client_begin(&client, opcode, number, &ticket) != CQLP_DONE) abort();
  events[0].extra = ticket.id; /* the stream id */
  if (cqlp_encode(events, 4, (const uint8_t *)text, strlen(text), bytes, sizeof bytes, &encoded) != CQLP_DONE) abort();
  fwrite(bytes, 1, encoded.length, stdout);
  fflush(stdout);
}

static void start(void) {
  const cqlp_event fields[] = {{.tag = CQLP_TAG_COUNT, .field = CQLP_FIELD_OPTIONS, .number = 1},
      {.tag = CQLP_TAG_TEXT, .field = CQLP_FIELD_OPTION_KEY, .length = strlen("CQL_VERSION")},
      {.tag = CQLP_TAG_TEXT, .field = CQLP_FIELD_OPTION_VALUE, .length = strlen("3.0.0")}};
  ask(CQLP_OPCODE_STARTUP, 0, fields, "CQL_VERSION3.0.0");
}

static void query(uint64_t number, const char *statement) {
  const cqlp_event fields[] = {{.tag = CQLP_TAG_TEXT, .field = CQLP_FIELD_QUERY, .length = strlen(statement)},
      {.tag = CQLP_TAG_SHORT, .field = CQLP_FIELD_CONSISTENCY, .number = CQLP_CONSISTENCY_ONE},
      {.tag = CQLP_TAG_BYTE, .field = CQLP_FIELD_QUERY_FLAGS}};
  ask(CQLP_OPCODE_QUERY, number, fields, statement);
}

/* Prints an event of a reply. Returns the opcode of the request if its reply ends here, otherwise 0. */
static uint8_t take(const cqlp_event *event) {
  static cqlp_reply reply;
  if (event->tag == CQLP_TAG_FRAME) {
    if (cqlp_client_reply(&client, event, &reply) != CQLP_DONE) exit(1);
    fprintf(stderr, "request %d: %s", (int)reply.carried, cqlp_name(CQLP_GROUP_OPCODE, event->opcode));
  }
  if (event->tag == CQLP_TAG_LEAF || event->field == CQLP_FIELD_MESSAGE)
    fprintf(stderr, " %.*s", (int)event->length, (const char *)event->content);
  if (event->tag != CQLP_TAG_END) return 0;
  fprintf(stderr, "\n");
  return reply.request;
}

int main(int count, char **words) {
  static uint8_t piece[4096];
  static cqlp_event events[64];
  cqlp_limits limits = CQLP_DEFAULT_LIMITS;
  cqlp_decoder decoder = CQLP_NO_DECODER_YET;
  cqlp_batch batch = {0};
  int open = count - 1;
  if (cqlp_new(&limits, &decoder) != CQLP_DONE || cqlp_client_new(1024, &client) != CQLP_DONE) return 2;
  start();
  for (ssize_t got; open > 0 && batch.stop != CQLP_STOP_REFUSED && (got = read(STDIN_FILENO, piece, sizeof piece)) > 0;) {
    size_t used = 0;
    do {
      cqlp_next(&decoder, piece + used, (size_t)got - used, events, 64, &batch);
      used += batch.used;
      for (size_t i = 0; i < batch.events; i++) {
        uint8_t answered = take(&events[i]);
        for (int word = 1; answered == CQLP_OPCODE_STARTUP && word < count; word++) query((uint64_t)word, words[word]);
        open -= answered == CQLP_OPCODE_QUERY;
      }
    } while (batch.stop == CQLP_STOP_FULL);
  }
  cqlp_client_free(&client);
  cqlp_free(&decoder);
  return open > 0;
}
