/* What a caller in C sees of tables of types: those of a PREPARED's result, given for pages without metadata, in every cut; each code;
 * and handles that are made and freed. It prints what it sees, and expected-types is what it must print. */
#include "give.h"

/* A RESULT of the kind PREPARED, whose result has the columns a int and b list<varchar>; and a page of it with one row, 7 and ["x"]. */
static const uint8_t prepared[] = {
    0x84, 0, 0, 1, 8, 0, 0, 0, 45, 0, 0, 0, 4, 0, 1, 'p', 0, 0, 0, 0, 0, 0, 0, 0, 0, 0, 0, 0, 0, 0, 0, 1, 0, 0, 0, 2, 0, 1, 'k',
    0, 1, 't', 0, 1, 'a', 0, 9, 0, 1, 'b', 0, 0x20, 0, 0x0D};
static const uint8_t page[] = {
    0x84, 0, 0, 2, 8, 0, 0, 0, 37, 0, 0, 0, 2, 0, 0, 0, 4, 0, 0, 0, 2, 0, 0, 0, 1, 0, 0, 0, 4, 0, 0, 0, 7,
    0, 0, 0, 9, 0, 0, 0, 1, 0, 0, 0, 1, 'x'};

static cqlp_decoder decoder_with(cqlp_limits limits) {
  cqlp_decoder decoder = CQLP_NO_DECODER_YET;
  CHECK(cqlp_new(&limits, &decoder) == CQLP_DONE);
  return decoder;
}

static const cqlp_limits LIMITS = CQLP_DEFAULT_LIMITS;

/* Gives bytes, and writes the kinds of the cells that came. */
static void read_bytes(cqlp_decoder *decoder, const uint8_t *bytes, size_t length, char *kinds) {
  cqlp_event events[ROOM];
  cqlp_batch batch;
  size_t used = 0;
  memset(events, 0, sizeof events);
  memset(&batch, 0, sizeof batch);
  do {
    CHECK(cqlp_next(decoder, bytes + used, length - used, events, ROOM, &batch) == CQLP_DONE);
    used += batch.used;
    for (size_t i = 0; i < batch.events; i++)
      if (events[i].tag == CQLP_TAG_LEAF || events[i].tag == CQLP_TAG_ENTER)
        kinds += sprintf(kinds, " %s", cqlp_name(CQLP_GROUP_KIND, events[i].kind));
  } while (batch.stop == CQLP_STOP_FULL);
}

static void print_cells(const char *what, cqlp_decoder *decoder) {
  char kinds[256] = "";
  read_bytes(decoder, page, sizeof page, kinds);
  printf("%s:%s\n", what, kinds);
}

static cqlp_types types_of_prepared(void) {
  cqlp_decoder decoder = decoder_with(LIMITS);
  cqlp_types types = CQLP_NO_TYPES_YET;
  char kinds[16] = "";
  read_bytes(&decoder, prepared, sizeof prepared, kinds);
  CHECK(kinds[0] == 0 && cqlp_types_of(&decoder, &types) == CQLP_DONE && cqlp_types_of(&decoder, &types) == CQLP_IN_USE);
  CHECK(cqlp_free(&decoder) == CQLP_DONE);
  return types;
}

static void print_session(void) {
  cqlp_types types = types_of_prepared(), none = CQLP_NO_TYPES_YET;
  cqlp_decoder decoder = decoder_with(LIMITS);
  cqlp_holding held;
  memset(&held, 0, sizeof held);
  print_cells("nothing given", &decoder);
  printf("give: %u", cqlp_give(&decoder, &types));
  printf(", what is gone: %u\n", cqlp_give(&decoder, &types));
  CHECK(cqlp_held(&decoder, &held) == CQLP_DONE && held.entries == 3);
  print_cells("given", &decoder);
  print_cells("used", &decoder);
  printf("take back: %u", cqlp_take_given(&decoder, &types));
  printf(", into what has one: %u", cqlp_take_given(&decoder, &types));
  printf(", what is gone: %u\n", cqlp_take_given(&decoder, &none));
  CHECK(none.live == 0);
  printf("give again: %u\n", cqlp_give(&decoder, &types));
  print_cells("given again", &decoder);
  printf("take back into a new handle: %u\n", cqlp_take_given(&decoder, &none));
  cqlp_types other = types_of_prepared();
  printf("give one, and another: %u", cqlp_give(&decoder, &none));
  printf(" %u, the first comes back", cqlp_give(&decoder, &other));
  printf(" and is given: %u\n", cqlp_give(&decoder, &other));
  printf("free: %u %u %u", cqlp_types_free(&types), cqlp_types_free(&other), cqlp_types_free(&none));
  printf(", again: %u %u\n", cqlp_types_free(&types), cqlp_types_free(&none));
  CHECK(cqlp_free(&decoder) == CQLP_DONE);
}

/* Gives a table to a decoder after this many bytes of a stream, and says the code; the table stays in the handle where it is refused. */
static void print_refused(const char *what, cqlp_limits limits, const uint8_t *bytes, size_t length, size_t before) {
  cqlp_decoder decoder = decoder_with(limits);
  cqlp_types types = types_of_prepared(), more = types_of_prepared();
  char kinds[256];
  if (before) CHECK(cqlp_give(&decoder, &types) == CQLP_DONE);
  read_bytes(&decoder, bytes, length, kinds);
  printf("%s: %u", what, cqlp_give(&decoder, &more));
  printf(", still there: %u\n", cqlp_types_of(&decoder, &more));
  CHECK(cqlp_types_free(&types) == CQLP_DONE && cqlp_types_free(&more) == CQLP_DONE && cqlp_free(&decoder) == CQLP_DONE);
}

static void print_codes(void) {
  static const uint8_t bad[9] = {3, 0, 0, 0, 5};
  cqlp_decoder decoder = CQLP_NO_DECODER_YET;
  cqlp_types types = types_of_prepared(), none = CQLP_NO_TYPES_YET;
  printf("no decoder: %u %u %u\n", cqlp_types_of(&decoder, &none), cqlp_give(&decoder, &types), cqlp_take_given(&decoder, &none));
  decoder = decoder_with(LIMITS);
  printf("no table: %u %u\n", cqlp_give(&decoder, &none), cqlp_take_given(&decoder, &none));
  CHECK(cqlp_types_free(&types) == CQLP_DONE && cqlp_free(&decoder) == CQLP_DONE);
  print_refused("after a refusal", LIMITS, bad, 9, 0);
  print_refused("without types", (cqlp_limits){32, 32, 64, 16, 0, 0}, bad, 0, 0);
  print_refused("within the page", LIMITS, page, 30, 1);
  print_refused("too many", (cqlp_limits){32, 32, 2, 16, 1, 0}, bad, 0, 0);
  print_refused("too deep", (cqlp_limits){32, 32, 64, 1, 1, 0}, bad, 0, 0);
  decoder = decoder_with(LIMITS);
  char kinds[16];
  read_bytes(&decoder, prepared, sizeof prepared - 2, kinds);
  printf("a type under way: %u", cqlp_types_of(&decoder, &none));
  printf(" %u\n", cqlp_give(&decoder, &none));
  CHECK(cqlp_types_free(&none) == CQLP_DONE && cqlp_free(&decoder) == CQLP_DONE);
}

/* A page that is given in two pieces, cut at each place, has the same cells. */
static void cut_everywhere(void) {
  cqlp_types types = types_of_prepared();
  for (size_t cut = 0; cut <= sizeof page; cut++) {
    cqlp_decoder decoder = decoder_with(LIMITS);
    seen whole = {0, 0}, cuts = {0, 0};
    CHECK(cqlp_give(&decoder, &types) == CQLP_DONE);
    give(&decoder, page, sizeof page, ROOM, &whole);
    CHECK(cqlp_take_given(&decoder, &types) == CQLP_DONE && cqlp_free(&decoder) == CQLP_DONE);
    decoder = decoder_with(LIMITS);
    CHECK(cqlp_give(&decoder, &types) == CQLP_DONE);
    give(&decoder, page, cut, 2, &cuts);
    give(&decoder, page + cut, sizeof page - cut, 1, &cuts);
    CHECK(whole.events == 10 && cuts.events == whole.events && cuts.sum == whole.sum);
    CHECK(cqlp_take_given(&decoder, &types) == CQLP_DONE && cqlp_free(&decoder) == CQLP_DONE);
  }
  CHECK(cqlp_types_free(&types) == CQLP_DONE);
  printf("a page has the same cells in each cut\n");
}

int main(void) {
  print_session();
  print_codes();
  cut_everywhere();
  return 0;
}
