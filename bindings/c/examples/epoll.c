/* An event loop with epoll, for either side of connections whose reads and writes never wait.
 * epoll node COUNT: a node on a port of 127.0.0.1, which it prints. It answers a QUERY with the query's text, and ends after COUNT connections.
 * epoll client PORT STATEMENT..: asks it each statement, and prints what it answers. */
#define _GNU_SOURCE
#include <arpa/inet.h>
#include <cqlp.h>
#include <errno.h>
#include <stdio.h>
#include <stdlib.h>
#include <string.h>
#include <sys/epoll.h>
#include <sys/socket.h>
#include <unistd.h>

enum { PIECE = 4096, EVENTS = 64, LONGEST = 1024, WAITING = 65536 };

typedef struct connection {
  int fd;
  cqlp_decoder decoder;
  cqlp_server server;     /* a node's side has this core, */
  cqlp_client client;     /* a client's this one */
  cqlp_event frame;       /* the frame that is read, */
  char text[LONGEST];     /* and its statement */
  size_t length;
  uint8_t waiting[WAITING]; /* bytes that the socket has not taken, from `sent` to `end` */
  size_t sent, end;
} connection;

static char **statements;
static long long open_requests;

static void fail(const char *what) {
  perror(what);
  exit(2);
}

/* Puts a frame behind the bytes that wait. Returns whether there is room for it. */
static int put(connection *c, const cqlp_event *events, size_t count, const char *contents, size_t length) {
  cqlp_encoded encoded = {0, 0};
  memmove(c->waiting, c->waiting + c->sent, c->end - c->sent);
  c->end -= c->sent;
  c->sent = 0;
  if (cqlp_encode(events, count, (const uint8_t *)contents, length, c->waiting + c->end, WAITING - c->end, &encoded) != CQLP_DONE) return 0;
  c->end += encoded.length;
  return 1;
}

/* A node answers the request that was read. */
static int answer(connection *c) {
  char text[8 + LONGEST] = "shoptea?";
  cqlp_answered answered = {0, 0};
  cqlp_event result[] = {{.tag = CQLP_TAG_FRAME, .mark = CQLP_MARK_RESPONSE, .extra = c->frame.extra, .opcode = CQLP_OPCODE_RESULT},
      {.tag = CQLP_TAG_INT, .field = CQLP_FIELD_RESULT_KIND, .number = CQLP_RESULT_ROWS},
      {.tag = CQLP_TAG_INT, .field = CQLP_FIELD_META_FLAGS, .number = 1}, {.tag = CQLP_TAG_COUNT, .field = CQLP_FIELD_COLUMNS, .number = 1},
      {.tag = CQLP_TAG_TEXT, .field = CQLP_FIELD_KEYSPACE, .length = 4}, {.tag = CQLP_TAG_TEXT, .field = CQLP_FIELD_TABLE, .length = 3},
      {.tag = CQLP_TAG_TEXT, .field = CQLP_FIELD_COLUMN_NAME, .length = 1}, {.tag = CQLP_TAG_TYPE_NODE, .kind = CQLP_KIND_VARCHAR},
      {.tag = CQLP_TAG_COUNT, .field = CQLP_FIELD_ROWS, .number = 1},
      {.tag = CQLP_TAG_LEAF, .kind = CQLP_KIND_VARCHAR, .length = c->length}};
  cqlp_event none = {.tag = CQLP_TAG_COUNT, .field = CQLP_FIELD_OPTIONS};
  memcpy(text + 8, c->text, c->length);
  switch (c->frame.opcode) {
    case CQLP_OPCODE_OPTIONS:
      result[0].opcode = CQLP_OPCODE_SUPPORTED;
      result[1] = none;
      break;
    case CQLP_OPCODE_STARTUP: case CQLP_OPCODE_REGISTER: result[0].opcode = CQLP_OPCODE_READY; break;
    case CQLP_OPCODE_QUERY: break;
    default: return 0;
  }
  if (cqlp_server_answer(&c->server, (int16_t)c->frame.extra, result[0].opcode, &answered) != CQLP_DONE) return 0;
  if (result[0].opcode == CQLP_OPCODE_RESULT) return put(c, result, sizeof result / sizeof *result, text, 8 + c->length);
  return put(c, result, result[0].opcode == CQLP_OPCODE_READY ? 1 : 2, "", 0);
}

/* A client asks. */
static int ask(connection *c, uint8_t opcode, const cqlp_event *fields, const char *text) {
  cqlp_event events[4] = {{.tag = CQLP_TAG_FRAME, .opcode = opcode}};
  cqlp_ticket ticket = {0, 0};
  if (cqlp_client_begin(&c->client, opcode, 0, &ticket) != CQLP_DONE) return 0;
  events[0].extra = ticket.id;
  memcpy(events + 1, fields, 3 * sizeof *fields);
  return put(c, events, 4, text, strlen(text));
}

static int start(connection *c) {
  const cqlp_event fields[] = {{.tag = CQLP_TAG_COUNT, .field = CQLP_FIELD_OPTIONS, .number = 1},
      {.tag = CQLP_TAG_TEXT, .field = CQLP_FIELD_OPTION_KEY, .length = strlen("CQL_VERSION")},
      {.tag = CQLP_TAG_TEXT, .field = CQLP_FIELD_OPTION_VALUE, .length = strlen("3.0.0")}};
  return ask(c, CQLP_OPCODE_STARTUP, fields, "CQL_VERSION3.0.0");
}

static int query(connection *c, const char *statement) {
  const cqlp_event fields[] = {{.tag = CQLP_TAG_TEXT, .field = CQLP_FIELD_QUERY, .length = strlen(statement)},
      {.tag = CQLP_TAG_SHORT, .field = CQLP_FIELD_CONSISTENCY, .number = CQLP_CONSISTENCY_ONE},
      {.tag = CQLP_TAG_BYTE, .field = CQLP_FIELD_QUERY_FLAGS}};
  open_requests++;
  return ask(c, CQLP_OPCODE_QUERY, fields, statement);
}

/* Takes an event of the other side. Returns whether the connection goes on. */
static int take(connection *c, const cqlp_event *event, int is_node) {
  cqlp_reply reply = {0, 0, 0, 0, 0};
  int goes_on = 1;
  if (event->tag == CQLP_TAG_FRAME) {
    c->frame = *event;
    c->length = 0;
    return is_node ? cqlp_server_accept(&c->server, event, 0) == CQLP_DONE : cqlp_client_reply(&c->client, event, &reply) == CQLP_DONE;
  }
  if (is_node && event->field == CQLP_FIELD_QUERY) {
    c->length = event->length < LONGEST ? event->length : LONGEST;
    memcpy(c->text, event->content, c->length);
  }
  if (!is_node && event->tag == CQLP_TAG_LEAF) printf("%.*s\n", (int)event->length, (const char *)event->content);
  if (event->tag != CQLP_TAG_END) return 1;
  if (is_node) return answer(c);
  if (c->frame.opcode == CQLP_OPCODE_READY)
    for (char **statement = statements; goes_on && *statement; statement++) goes_on = query(c, *statement);
  else
    open_requests--;
  return goes_on && open_requests > 0;
}

/* Reads what is there, once, and takes its events. */
static int read_some(connection *c, int is_node) {
  static uint8_t piece[PIECE];
  static cqlp_event events[EVENTS];
  cqlp_batch batch = {0, 0, 0, 0, 0};
  ssize_t got = read(c->fd, piece, sizeof piece);
  size_t used = 0;
  if (got < 0) return errno == EAGAIN;
  if (got == 0) return 0;
  do {
    cqlp_next(&c->decoder, piece + used, (size_t)got - used, events, EVENTS, &batch);
    used += batch.used;
    for (size_t i = 0; i < batch.events; i++)
      if (!take(c, &events[i], is_node)) return 0;
  } while (batch.stop == CQLP_STOP_FULL);
  return batch.stop != CQLP_STOP_REFUSED;
}

/* Writes what waits, as far as the socket takes it. */
static int write_some(connection *c) {
  while (c->sent < c->end) {
    ssize_t written = send(c->fd, c->waiting + c->sent, c->end - c->sent, MSG_NOSIGNAL);
    if (written < 0) return errno == EAGAIN;
    c->sent += (size_t)written;
  }
  return 1;
}

/* Asks epoll for what the connection can do: while much waits to be written, nothing more is read. */
static void watch(int loop, int how, connection *c) {
  size_t waits = c->end - c->sent;
  struct epoll_event wanted = {.events = (waits < WAITING / 2 ? EPOLLIN : 0u) | (waits ? EPOLLOUT : 0u), .data.ptr = c};
  if (epoll_ctl(loop, how, c->fd, &wanted)) fail("epoll_ctl");
}

static connection *begin(int loop, int fd, int is_node) {
  cqlp_limits limits = CQLP_DEFAULT_LIMITS;
  connection *c = calloc(1, sizeof *c);
  if (!c || cqlp_new(&limits, &c->decoder) != CQLP_DONE) fail("memory");
  if ((is_node ? cqlp_server_new(1024, &c->server) : cqlp_client_new(1024, &c->client)) != CQLP_DONE) fail("memory");
  c->fd = fd;
  if (!is_node && !start(c)) fail("start");
  watch(loop, EPOLL_CTL_ADD, c);
  return c;
}

static void end(connection *c) {
  close(c->fd);
  cqlp_server_free(&c->server);
  cqlp_client_free(&c->client);
  cqlp_free(&c->decoder);
  free(c);
}

/* Runs until `count` connections have ended. New ones come to `listener`, if there is one. */
static void run(int loop, int listener, long count) {
  struct epoll_event ready[16];
  while (count > 0) {
    int many = epoll_wait(loop, ready, 16, -1);
    for (int i = 0; i < many; i++) {
      connection *c = ready[i].data.ptr;
      if (!c) {
        int fd = accept4(listener, NULL, NULL, SOCK_NONBLOCK);
        if (fd >= 0) begin(loop, fd, 1);
        continue;
      }
      int is_node = listener >= 0, goes_on = !(ready[i].events & EPOLLIN) || read_some(c, is_node);
      if (write_some(c) && goes_on && !(ready[i].events & (EPOLLERR | EPOLLHUP))) {
        watch(loop, EPOLL_CTL_MOD, c);
      } else {
        end(c);
        count--;
      }
    }
  }
}

int main(int count, char **words) {
  struct sockaddr_in address = {.sin_family = AF_INET, .sin_addr.s_addr = htonl(INADDR_LOOPBACK)};
  socklen_t size = sizeof address;
  int loop = epoll_create1(0), fd = socket(AF_INET, SOCK_STREAM | SOCK_NONBLOCK, 0);
  if (loop < 0 || fd < 0) fail("socket");
  if (count == 3 && strcmp(words[1], "node") == 0) {
    struct epoll_event wanted = {.events = EPOLLIN, .data.ptr = NULL};
    if (bind(fd, (struct sockaddr *)&address, size) || listen(fd, 16) || getsockname(fd, (struct sockaddr *)&address, &size)) fail("listen");
    if (epoll_ctl(loop, EPOLL_CTL_ADD, fd, &wanted)) fail("epoll_ctl");
    printf("%d\n", ntohs(address.sin_port));
    fflush(stdout);
    run(loop, fd, strtol(words[2], NULL, 10));
    close(fd);
  } else if (count > 3 && strcmp(words[1], "client") == 0) {
    address.sin_port = htons((uint16_t)strtoul(words[2], NULL, 10));
    statements = words + 3;
    if (connect(fd, (struct sockaddr *)&address, size) && errno != EINPROGRESS) fail("connect");
    begin(loop, fd, 0);
    run(loop, -1, 1);
  } else {
    fprintf(stderr, "epoll node COUNT | epoll client PORT STATEMENT..\n");
    return 2;
  }
  close(loop);
  return open_requests > 0;
}
