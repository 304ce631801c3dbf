/* What a caller in C sees of a client's core and of headers: a session of two slots whose frames are written by cqlp_write_header
 * and read by the decoder, each refusal, the header of each opcode, and a million handles. It prints what it sees of the session,
 * and expected-client is what it must print. */
#include "give.h"

static_assert(sizeof(cqlp_ticket) == 16 && offsetof(cqlp_ticket, id) == 8, "as in crates/cqlp_c/src/talked.rt");
static_assert(sizeof(cqlp_reply) == 24 && offsetof(cqlp_reply, request) == 19, "as in crates/cqlp_c/src/talked.rt");
static_assert(sizeof(cqlp_header) == 12 && offsetof(cqlp_header, response) == 8, "as in crates/cqlp_c/src/header.rt");

/* Puts the event of a frame: the header is written, and a decoder reads it. */
static cqlp_event frame_of(cqlp_header fields) {
  cqlp_limits limits = CQLP_DEFAULT_LIMITS;
  cqlp_decoder decoder = CQLP_NO_DECODER_YET;
  cqlp_event event;
  cqlp_batch batch;
  uint8_t bytes[9] = {0};
  memset(&event, 0, sizeof event);
  memset(&batch, 0, sizeof batch);
  CHECK(cqlp_write_header(&fields, bytes) == CQLP_DONE);
  CHECK(cqlp_new(&limits, &decoder) == CQLP_DONE);
  CHECK(cqlp_next(&decoder, bytes, sizeof bytes, &event, 1, &batch) == CQLP_DONE);
  CHECK(batch.used == 9 && batch.events == 1 && batch.stop == CQLP_STOP_FULL);
  CHECK(cqlp_free(&decoder) == CQLP_DONE);
  return event;
}

static cqlp_event response(int16_t stream, uint8_t opcode) {
  return frame_of((cqlp_header){0, stream, opcode, 0, 1});
}

static void print_phase(cqlp_client *client) {
  uint8_t phase = 0;
  CHECK(cqlp_client_phase(client, &phase) == CQLP_DONE);
  printf("phase %u\n", phase);
}

/* Each request carries ten times its opcode. */
static cqlp_ticket begin(cqlp_client *client, uint8_t opcode) {
  cqlp_ticket ticket = {99, 99};
  uint64_t carried = 10 * opcode;
  printf("begin %u:", opcode);
  printf(" code %u", cqlp_client_begin(client, opcode, carried, &ticket));
  printf(" number %llu id %d\n", (unsigned long long)ticket.number, ticket.id);
  return ticket;
}

static void hear(cqlp_client *client, cqlp_event event) {
  cqlp_reply reply = {99, 99, 99, 99, 99};
  printf("reply %d %u:", event.extra, event.opcode);
  printf(" code %u", cqlp_client_reply(client, &event, &reply));
  printf(" number %llu id %d what %u request %u", (unsigned long long)reply.number, reply.id, reply.what, reply.request);
  printf(" carried %llu\n", (unsigned long long)reply.carried);
}

static void print_session(void) {
  cqlp_client client = CQLP_NO_CLIENT_YET;
  printf("new: %u", cqlp_client_new(2, &client));
  printf(", over a live handle: %u\n", cqlp_client_new(2, &client));
  print_phase(&client);
  begin(&client, CQLP_OPCODE_QUERY);
  begin(&client, CQLP_OPCODE_RESULT);
  begin(&client, 4);
  cqlp_ticket startup = begin(&client, CQLP_OPCODE_STARTUP);
  print_phase(&client);
  begin(&client, CQLP_OPCODE_OPTIONS);
  printf("cancel a STARTUP: %u\n", cqlp_client_cancel(&client, &startup));
  hear(&client, response(0, CQLP_OPCODE_AUTHENTICATE));
  print_phase(&client);
  begin(&client, CQLP_OPCODE_AUTH_RESPONSE);
  hear(&client, response(0, CQLP_OPCODE_AUTH_SUCCESS));
  print_phase(&client);
  cqlp_ticket first = begin(&client, CQLP_OPCODE_QUERY);
  cqlp_ticket second = begin(&client, CQLP_OPCODE_PREPARE);
  begin(&client, CQLP_OPCODE_QUERY);
  hear(&client, response(1, CQLP_OPCODE_RESULT));
  hear(&client, response(1, CQLP_OPCODE_RESULT));
  hear(&client, response(0, CQLP_OPCODE_SUPPORTED));
  hear(&client, frame_of((cqlp_header){0, 0, CQLP_OPCODE_QUERY, 0, 0}));
  hear(&client, response(-1, CQLP_OPCODE_EVENT));
  hear(&client, response(1, CQLP_OPCODE_EVENT));
  hear(&client, response(2, CQLP_OPCODE_RESULT));
  hear(&client, response(-1, CQLP_OPCODE_ERROR));
  printf("cancel what was answered: %u\n", cqlp_client_cancel(&client, &second));
  printf("cancel: %u", cqlp_client_cancel(&client, &first));
  printf(", again: %u\n", cqlp_client_cancel(&client, &first));
  begin(&client, CQLP_OPCODE_EXECUTE);
  begin(&client, CQLP_OPCODE_BATCH);
  hear(&client, response(0, CQLP_OPCODE_ERROR));
  begin(&client, CQLP_OPCODE_REGISTER);
  hear(&client, response(0, CQLP_OPCODE_READY));
  print_phase(&client);
  cqlp_event event = response(1, CQLP_OPCODE_RESULT);
  event.tag = CQLP_TAG_END;
  hear(&client, event);
  event.tag = CQLP_TAG_FRAME;
  event.extra = 65537;
  hear(&client, event);
  event.extra = 1;
  event.opcode = 0x11;
  hear(&client, event);
  printf("free: %u", cqlp_client_free(&client));
  printf(", again: %u\n", cqlp_client_free(&client));
}

static void print_no_client(void) {
  cqlp_client client = CQLP_NO_CLIENT_YET;
  cqlp_ticket ticket = {0, 0};
  cqlp_reply reply = {0, 0, 0, 0, 0};
  cqlp_event event = response(0, CQLP_OPCODE_READY);
  uint8_t phase = 7;
  printf("no core: %u %u %u %u %u\n", cqlp_client_begin(&client, CQLP_OPCODE_OPTIONS, 1, &ticket),
         cqlp_client_reply(&client, &event, &reply), cqlp_client_cancel(&client, &ticket),
         cqlp_client_phase(&client, &phase), cqlp_client_free(&client));
  CHECK(phase == 7);
  printf("slots out of range: %u %u %u %u\n", cqlp_client_new(0, &client), cqlp_client_new(32769, &client),
         cqlp_client_new(65537, &client), cqlp_client_new(UINT32_MAX, &client));
}

/* What a header of these fields is refused for, by section 2. */
static uint32_t code_of(const cqlp_header *h) {
  int request = h->opcode == 1 || h->opcode == 5 || h->opcode == 7 || (h->opcode >= 9 && h->opcode <= 11) || h->opcode == 13 ||
                h->opcode == 15;
  if (h->flags & 1) return CQLP_COMPRESSED;
  if (h->opcode > 16 || h->opcode == 4) return CQLP_BAD_OPCODE;
  if (request == (h->response != 0)) return CQLP_BAD_DIRECTION;
  return h->length > 268435456 ? CQLP_BAD_LENGTH : CQLP_DONE;
}

static void check_header(cqlp_header h) {
  static const uint8_t before[9] = {1, 2, 3, 4, 5, 6, 7, 8, 9};
  uint8_t bytes[9];
  memcpy(bytes, before, 9);
  uint32_t code = cqlp_write_header(&h, bytes);
  CHECK(code == code_of(&h));
  if (code != CQLP_DONE) {
    CHECK(memcmp(bytes, before, 9) == 0);
    return;
  }
  uint16_t stream = (uint16_t)h.stream;
  uint8_t wanted[9] = {h.response ? 0x84 : 0x04, h.flags, (uint8_t)(stream >> 8), (uint8_t)stream, h.opcode,
                       (uint8_t)(h.length >> 24), (uint8_t)(h.length >> 16), (uint8_t)(h.length >> 8), (uint8_t)h.length};
  CHECK(memcmp(bytes, wanted, 9) == 0);
  cqlp_event event = frame_of(h);
  CHECK(event.tag == CQLP_TAG_FRAME && event.at == 0 && event.number == h.length && event.extra == h.stream);
  CHECK(event.opcode == h.opcode && event.flags == h.flags);
  CHECK(event.mark == (h.response ? CQLP_MARK_RESPONSE : CQLP_MARK_NONE));
}

static void check_headers(void) {
  static const int16_t streams[] = {-32768, -1, 0, 1, 258, 32767};
  static const uint8_t flags[] = {0, 1, 2, 14, 0xFE, 0xFF}, directions[] = {0, 1, 255};
  static const uint32_t lengths[] = {0, 1, 0x01020304, 268435456, 268435457, UINT32_MAX};
  for (unsigned opcode = 0; opcode < 256; opcode++)
    for (size_t s = 0; s < 6; s++)
      for (size_t f = 0; f < 6; f++)
        for (size_t d = 0; d < 3; d++)
          for (size_t l = 0; l < 6; l++)
            check_header((cqlp_header){lengths[l], streams[s], (uint8_t)opcode, flags[f], directions[d]});
  printf("each header is its nine bytes\n");
}

static void make_a_million(void) {
  cqlp_limits limits = {32, 32, 1, 1, 1, 0};
  for (int i = 0; i < 1000000; i++) {
    cqlp_decoder decoder = CQLP_NO_DECODER_YET;
    cqlp_client client = CQLP_NO_CLIENT_YET;
    cqlp_server server = CQLP_NO_SERVER_YET;
    cqlp_ticket ticket = {0, 0};
    CHECK(cqlp_new(&limits, &decoder) == CQLP_DONE && cqlp_new(&limits, &decoder) == CQLP_IN_USE);
    CHECK(cqlp_client_new(2, &client) == CQLP_DONE && cqlp_client_new(2, &client) == CQLP_IN_USE);
    CHECK(cqlp_client_begin(&client, CQLP_OPCODE_OPTIONS, 1, &ticket) == CQLP_DONE);
    CHECK(cqlp_server_new(2, &server) == CQLP_DONE && cqlp_server_new(2, &server) == CQLP_IN_USE);
    CHECK(cqlp_client_free(&client) == CQLP_DONE && cqlp_free(&decoder) == CQLP_DONE && cqlp_server_free(&server) == CQLP_DONE);
  }
  printf("a million decoders and cores of each kind\n");
}

/* Each slot of the most that there are, then its reply, in the other order. */
static void fill_all_slots(void) {
  cqlp_client client = CQLP_NO_CLIENT_YET;
  cqlp_ticket ticket = {0, 0};
  cqlp_reply reply = {0, 0, 0, 0, 0};
  CHECK(cqlp_client_new(32768, &client) == CQLP_DONE);
  for (int i = 0; i < 32768; i++) {
    CHECK(cqlp_client_begin(&client, CQLP_OPCODE_OPTIONS, UINT64_MAX - (uint64_t)i, &ticket) == CQLP_DONE);
    CHECK(ticket.id == i && ticket.number == (uint64_t)i + 1);
  }
  CHECK(cqlp_client_begin(&client, CQLP_OPCODE_OPTIONS, 1, &ticket) == CQLP_FULL);
  cqlp_event event = response(0, CQLP_OPCODE_SUPPORTED);
  for (int i = 32767; i >= 0; i--) {
    event.extra = i;
    CHECK(cqlp_client_reply(&client, &event, &reply) == CQLP_DONE);
    CHECK(reply.what == CQLP_REPLY_ANSWER && reply.id == i && reply.number == (uint64_t)i + 1);
    CHECK(reply.request == CQLP_OPCODE_OPTIONS && reply.carried == UINT64_MAX - (uint64_t)i);
  }
  CHECK(cqlp_client_free(&client) == CQLP_DONE);
  printf("32768 requests, answered from the last to the first\n");
}

int main(void) {
  print_session();
  print_no_client();
  check_headers();
  fill_all_slots();
  make_a_million();
  return 0;
}
