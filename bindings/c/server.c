/* What a caller in C sees of a server's core, alone and against a client's core: frames go over two wires, are read by a decoder on each
 * side in pieces, and are answered in any order. It prints what it sees of a session, and expected-server is what it must print. */
#include "give.h"

static_assert(sizeof(cqlp_answered) == 16 && offsetof(cqlp_answered, request) == 8, "as in crates/cqlp_c/src/talked.rt");

/* The least body of each message, section 4. */
typedef struct body {
  uint32_t length;
  const char *bytes;
} body;

static const body BODIES[] = {
    [CQLP_OPCODE_ERROR] = {6, "\0\0\0\12\0\0"},          [CQLP_OPCODE_STARTUP] = {2, "\0\0"},
    [CQLP_OPCODE_READY] = {0, ""},                       [CQLP_OPCODE_AUTHENTICATE] = {3, "\0\1a"},
    [CQLP_OPCODE_OPTIONS] = {0, ""},                     [CQLP_OPCODE_SUPPORTED] = {2, "\0\0"},
    [CQLP_OPCODE_QUERY] = {8, "\0\0\0\1q\0\1\0"},        [CQLP_OPCODE_RESULT] = {4, "\0\0\0\1"},
    [CQLP_OPCODE_PREPARE] = {5, "\0\0\0\1p"},            [CQLP_OPCODE_EXECUTE] = {6, "\0\1e\0\1\0"},
    [CQLP_OPCODE_REGISTER] = {2, "\0\0"},                [CQLP_OPCODE_EVENT] = {7, "\0\5OTHER"},
    [CQLP_OPCODE_BATCH] = {6, "\0\0\0\0\1\0"},           [CQLP_OPCODE_AUTH_CHALLENGE] = {4, "\377\377\377\377"},
    [CQLP_OPCODE_AUTH_RESPONSE] = {4, "\377\377\377\377"}, [CQLP_OPCODE_AUTH_SUCCESS] = {4, "\377\377\377\377"},
};

/* ---- one side of a connection: what was written for the other side, and the decoder of what comes from there */

enum { WIRE = 1 << 16 };

typedef struct side {
  cqlp_decoder decoder;
  uint8_t bytes[WIRE];
  size_t length;
} side;

static side *new_side(void) {
  static const side EMPTY = {CQLP_NO_DECODER_YET, {0}, 0};
  cqlp_limits limits = CQLP_DEFAULT_LIMITS;
  side *made = malloc(sizeof *made);
  CHECK(made);
  *made = EMPTY;
  CHECK(cqlp_new(&limits, &made->decoder) == CQLP_DONE);
  return made;
}

static void free_side(side *side) {
  CHECK(cqlp_free(&side->decoder) == CQLP_DONE);
  free(side);
}

static void send_body(side *side, uint8_t opcode) {
  CHECK(side->length + 9 + BODIES[opcode].length <= WIRE);
  memcpy(side->bytes + side->length + 9, BODIES[opcode].bytes, BODIES[opcode].length);
  side->length += 9 + BODIES[opcode].length;
}

static void send_frame(side *side, int16_t stream, uint8_t opcode, int response) {
  cqlp_header fields = {BODIES[opcode].length, stream, opcode, 0, (uint8_t)response};
  CHECK(cqlp_write_header(&fields, side->bytes + side->length) == CQLP_DONE);
  send_body(side, opcode);
}

static void push_event(side *side) {
  CHECK(cqlp_server_event(BODIES[CQLP_OPCODE_EVENT].length, 0, side->bytes + side->length) == CQLP_DONE);
  send_body(side, CQLP_OPCODE_EVENT);
}

/* Takes this many bytes from the wire of the other side, and puts the events of frames that begin in them. */
static size_t receive(side *to, side *from, size_t length, cqlp_event *frames, size_t most) {
  cqlp_event events[ROOM];
  cqlp_batch batch;
  size_t used = 0, count = 0;
  memset(events, 0, sizeof events);
  memset(&batch, 0, sizeof batch);
  do {
    CHECK(cqlp_next(&to->decoder, from->bytes + used, length - used, events, ROOM, &batch) == CQLP_DONE);
    CHECK(batch.stop != CQLP_STOP_REFUSED);
    used += batch.used;
    for (size_t i = 0; i < batch.events; i++)
      if (events[i].tag == CQLP_TAG_FRAME) {
        CHECK(count < most);
        frames[count++] = events[i];
      }
  } while (batch.stop == CQLP_STOP_FULL);
  CHECK(used == length);
  memmove(from->bytes, from->bytes + length, from->length - length);
  from->length -= length;
  return count;
}

/* ---- a session that is printed */

static cqlp_event frame_of(int16_t stream, uint8_t opcode, int response) {
  side *from = new_side(), *to = new_side();
  cqlp_event event;
  send_frame(from, stream, opcode, response);
  CHECK(receive(to, from, from->length, &event, 1) == 1);
  free_side(from);
  free_side(to);
  return event;
}

static void print_phase(cqlp_server *server) {
  uint8_t phase = 0;
  CHECK(cqlp_server_phase(server, &phase) == CQLP_DONE);
  printf("phase %u\n", phase);
}

static void accept_event(cqlp_server *server, cqlp_event event, uint64_t carried) {
  printf("accept %d %u: code %u\n", event.extra, event.opcode, cqlp_server_accept(server, &event, carried));
}

static void accept(cqlp_server *server, int16_t stream, uint8_t opcode, uint64_t carried) {
  accept_event(server, frame_of(stream, opcode, 0), carried);
}

static void answer(cqlp_server *server, int16_t stream, uint8_t opcode) {
  cqlp_answered answered = {99, 99};
  printf("answer %d %u:", stream, opcode);
  printf(" code %u", cqlp_server_answer(server, stream, opcode, &answered));
  printf(" carried %llu request %u\n", (unsigned long long)answered.carried, answered.request);
}

static void print_session(void) {
  cqlp_server server = CQLP_NO_SERVER_YET;
  printf("new: %u", cqlp_server_new(2, &server));
  printf(", over a live handle: %u\n", cqlp_server_new(2, &server));
  print_phase(&server);
  accept(&server, 0, CQLP_OPCODE_QUERY, 1);
  accept(&server, 0, CQLP_OPCODE_OPTIONS, 2);
  accept(&server, 0, CQLP_OPCODE_STARTUP, 3);
  accept(&server, 2, CQLP_OPCODE_OPTIONS, 4);
  accept(&server, -1, CQLP_OPCODE_OPTIONS, 5);
  accept_event(&server, frame_of(1, CQLP_OPCODE_READY, 1), 6);
  answer(&server, 1, CQLP_OPCODE_SUPPORTED);
  answer(&server, 0, CQLP_OPCODE_READY);
  answer(&server, 0, 0x04);
  answer(&server, 0, CQLP_OPCODE_OPTIONS);
  answer(&server, 0, CQLP_OPCODE_SUPPORTED);
  answer(&server, 0, CQLP_OPCODE_SUPPORTED);
  accept(&server, 1, CQLP_OPCODE_STARTUP, UINT64_MAX);
  print_phase(&server);
  accept(&server, 0, CQLP_OPCODE_OPTIONS, 7);
  answer(&server, 1, CQLP_OPCODE_AUTHENTICATE);
  print_phase(&server);
  accept(&server, 0, CQLP_OPCODE_AUTH_RESPONSE, 8);
  answer(&server, 0, CQLP_OPCODE_AUTH_SUCCESS);
  print_phase(&server);
  accept(&server, 1, CQLP_OPCODE_QUERY, 9);
  accept(&server, 0, CQLP_OPCODE_REGISTER, 10);
  answer(&server, 1, CQLP_OPCODE_ERROR);
  answer(&server, 0, CQLP_OPCODE_READY);
  answer(&server, -1, CQLP_OPCODE_EVENT);
  print_phase(&server);
  cqlp_event event = frame_of(1, CQLP_OPCODE_QUERY, 0);
  event.tag = CQLP_TAG_END;
  accept_event(&server, event, 11);
  event.tag = CQLP_TAG_FRAME;
  event.extra = 65537;
  accept_event(&server, event, 12);
  event.extra = 1;
  event.opcode = 0x11;
  accept_event(&server, event, 13);
  printf("free: %u", cqlp_server_free(&server));
  printf(", again: %u\n", cqlp_server_free(&server));
}

static void print_no_server(void) {
  cqlp_server server = CQLP_NO_SERVER_YET;
  cqlp_answered answered = {99, 99};
  cqlp_event event = frame_of(0, CQLP_OPCODE_OPTIONS, 0);
  uint8_t phase = 7;
  printf("no core: %u %u %u %u\n", cqlp_server_accept(&server, &event, 1), cqlp_server_answer(&server, 0, 99, &answered),
         cqlp_server_phase(&server, &phase), cqlp_server_free(&server));
  CHECK(phase == 7 && answered.carried == 99 && answered.request == 99);
  printf("slots out of range: %u %u %u %u\n", cqlp_server_new(0, &server), cqlp_server_new(32769, &server),
         cqlp_server_new(65537, &server), cqlp_server_new(UINT32_MAX, &server));
}

/* The header of an EVENT is that of these fields, or is refused as they are. */
static void check_event_headers(void) {
  static const uint32_t lengths[] = {0, 7, 268435456, 268435457, UINT32_MAX};
  for (unsigned flags = 0; flags < 256; flags++)
    for (size_t i = 0; i < 5; i++) {
      uint8_t bytes[9] = {1, 2, 3}, same[9] = {1, 2, 3};
      cqlp_header fields = {lengths[i], -1, CQLP_OPCODE_EVENT, (uint8_t)flags, 1};
      uint32_t code = cqlp_server_event(lengths[i], (uint8_t)flags, bytes);
      CHECK(code == (flags & 1 ? CQLP_COMPRESSED : lengths[i] > 268435456 ? CQLP_BAD_LENGTH : CQLP_DONE));
      CHECK(code == cqlp_write_header(&fields, same) && memcmp(bytes, same, 9) == 0);
    }
  printf("each header of an EVENT is its nine bytes\n");
}

/* The answer to each first byte of a header, with each version's form of a stream id, into each room. */
static void check_versions(void) {
  for (unsigned first = 0; first < 256; first++) {
    uint8_t header[9] = {(uint8_t)first, 0, 0x81, 0x02, 7, 0, 0, 0, 0}, bytes[128];
    unsigned version = first & 0x7F;
    uint16_t stream = version == 1 || version == 2 ? 0xFF81 : 0x8102;
    char text[128];
    int most = snprintf(text, sizeof text, "Invalid or unsupported protocol version (%u); the lowest supported version is 4 and "
                                           "the greatest is 4", version);
    uint8_t head[15] = {0x84, 0, (uint8_t)(stream >> 8), (uint8_t)stream, 0, 0, 0, 0, (uint8_t)(6 + most), 0, 0, 0, 10, 0, (uint8_t)most};
    size_t wanted = 15 + (size_t)most, length = 0;
    for (size_t room = 0; room <= 128; room++) {
      uint8_t *at = room ? edge(PIECE, room) : NULL;
      memset(bytes, 0x55, sizeof bytes);
      if (room) memcpy(at, bytes, room);
      uint32_t code = cqlp_version_error(header, at, room, &length);
      CHECK(length == wanted && code == (uint32_t)(room < wanted ? CQLP_NO_ROOM : CQLP_DONE));
      if (code == CQLP_DONE) memcpy(bytes, head, 15), memcpy(bytes + 15, text, (size_t)most);
      CHECK(!room || memcmp(at, bytes, room) == 0);
    }
  }
  printf("each version has its answer\n");
}

/* ---- both cores against each other */

static uint64_t random_state = 1;

static uint32_t random_below(uint32_t bound) {
  random_state = random_state * 6364136223846793005u + 1442695040888963407u;
  return (uint32_t)(random_state >> 33) % bound;
}

/* An answer to what was asked for. None fails that sets up the connection, so it goes on. */
static uint8_t answer_to(uint8_t request) {
  switch (request) {
    case CQLP_OPCODE_STARTUP: return random_below(2) ? CQLP_OPCODE_READY : CQLP_OPCODE_AUTHENTICATE;
    case CQLP_OPCODE_AUTH_RESPONSE: return random_below(2) ? CQLP_OPCODE_AUTH_CHALLENGE : CQLP_OPCODE_AUTH_SUCCESS;
    case CQLP_OPCODE_OPTIONS: return CQLP_OPCODE_SUPPORTED;
    case CQLP_OPCODE_REGISTER: return CQLP_OPCODE_READY;
    default: return random_below(4) ? CQLP_OPCODE_RESULT : CQLP_OPCODE_ERROR;
  }
}

enum { SLOTS = 5 };

typedef struct talk {
  cqlp_client client;
  cqlp_server server;
  side *near, *far;
  uint64_t at_client[SLOTS], at_server[SLOTS]; /* what each core carries under each stream id */
  uint8_t asked[SLOTS];                        /* what is open at the server, or 0xFF */
  uint64_t numbers, pushed, replies, dropped, begun;
} talk;

static void begin_one(talk *talk) {
  static const uint8_t REQUESTS[] = {CQLP_OPCODE_STARTUP, CQLP_OPCODE_OPTIONS, CQLP_OPCODE_QUERY, CQLP_OPCODE_PREPARE,
                                     CQLP_OPCODE_EXECUTE, CQLP_OPCODE_BATCH, CQLP_OPCODE_REGISTER, CQLP_OPCODE_AUTH_RESPONSE};
  uint8_t opcode = REQUESTS[random_below(8)];
  cqlp_ticket ticket = {0, 0};
  uint64_t carried = ++talk->numbers * 0x9E3779B97F4A7C15u;
  uint32_t code = cqlp_client_begin(&talk->client, opcode, carried, &ticket);
  CHECK(code == CQLP_DONE || code == CQLP_BAD_PHASE || code == CQLP_FULL);
  if (code != CQLP_DONE) return;
  CHECK(ticket.number == ++talk->begun && ticket.id < SLOTS);
  talk->at_client[ticket.id] = carried;
  send_frame(talk->near, ticket.id, opcode, 0);
  int sets_up = opcode == CQLP_OPCODE_STARTUP || opcode == CQLP_OPCODE_AUTH_RESPONSE;
  if (random_below(4) == 0)
    CHECK(cqlp_client_cancel(&talk->client, &ticket) == (uint32_t)(sets_up ? CQLP_NOT_CANCELLED : CQLP_DONE));
}

static void serve_some(talk *talk) {
  cqlp_event frames[WIRE / 9];
  size_t count = receive(talk->far, talk->near, random_below((uint32_t)talk->near->length + 1), frames, WIRE / 9);
  for (size_t i = 0; i < count; i++) {
    uint64_t carried = ~(++talk->numbers);
    CHECK(cqlp_server_accept(&talk->server, &frames[i], carried) == CQLP_DONE);
    CHECK(cqlp_server_accept(&talk->server, &frames[i], 0) == CQLP_ID_TAKEN);
    talk->at_server[frames[i].extra] = carried;
    talk->asked[frames[i].extra] = frames[i].opcode;
  }
}

static void answer_one(talk *talk) {
  int16_t stream = (int16_t)random_below(SLOTS);
  uint8_t opcode = answer_to(talk->asked[stream]);
  cqlp_answered answered = {0, 0};
  uint32_t code = cqlp_server_answer(&talk->server, stream, opcode, &answered);
  CHECK(code == (uint32_t)(talk->asked[stream] == 0xFF ? CQLP_NO_SUCH_STREAM : CQLP_DONE));
  if (code != CQLP_DONE) return;
  CHECK(answered.carried == talk->at_server[stream] && answered.request == talk->asked[stream]);
  talk->asked[stream] = 0xFF;
  send_frame(talk->far, stream, opcode, 1);
}

static void hear_some(talk *talk) {
  cqlp_event frames[WIRE / 9];
  size_t count = receive(talk->near, talk->far, random_below((uint32_t)talk->far->length + 1), frames, WIRE / 9);
  for (size_t i = 0; i < count; i++) {
    cqlp_reply reply = {0, 0, 0, 0, 0};
    CHECK(cqlp_client_reply(&talk->client, &frames[i], &reply) == CQLP_DONE);
    if (frames[i].opcode == CQLP_OPCODE_EVENT) {
      CHECK(reply.what == CQLP_REPLY_EVENT && reply.carried == 0);
      talk->pushed--;
      continue;
    }
    CHECK(reply.what == CQLP_REPLY_ANSWER || reply.what == CQLP_REPLY_DROPPED);
    CHECK(reply.carried == talk->at_client[reply.id] && reply.id == frames[i].extra);
    talk->replies++;
    talk->dropped += reply.what == CQLP_REPLY_DROPPED;
  }
}

/* Steps of a connection, in any order, until this many; then all that is open is answered, and both cores say one phase. */
static void let_them_talk(int steps) {
  talk talk = {CQLP_NO_CLIENT_YET, CQLP_NO_SERVER_YET, new_side(), new_side(), {0}, {0}, {0}, 0, 0, 0, 0, 0};
  uint8_t near_phase = 0, far_phase = 1;
  memset(talk.asked, 0xFF, sizeof talk.asked);
  CHECK(cqlp_client_new(SLOTS, &talk.client) == CQLP_DONE && cqlp_server_new(SLOTS, &talk.server) == CQLP_DONE);
  for (int i = 0; i < steps || talk.near->length || talk.far->length || talk.begun > talk.replies; i++) {
    if (i < steps) begin_one(&talk);
    serve_some(&talk);
    answer_one(&talk);
    if (random_below(8) == 0 && i < steps) push_event(talk.far), talk.pushed++;
    hear_some(&talk);
  }
  CHECK(talk.pushed == 0 && talk.dropped > 0 && talk.replies == talk.begun);
  CHECK(cqlp_client_phase(&talk.client, &near_phase) == CQLP_DONE && cqlp_server_phase(&talk.server, &far_phase) == CQLP_DONE);
  CHECK(near_phase == far_phase);
  CHECK(cqlp_client_free(&talk.client) == CQLP_DONE && cqlp_server_free(&talk.server) == CQLP_DONE);
  free_side(talk.near);
  free_side(talk.far);
}

int main(void) {
  print_session();
  print_no_server();
  check_event_headers();
  check_versions();
  for (int i = 0; i < 50; i++) let_them_talk(2000);
  printf("a client's core and a server's talked, and each reply had its request's number\n");
  return 0;
}
