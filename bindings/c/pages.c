/* Pages as data: each file that is named is read whole, and in pieces of 4,096 and of 1,000 bytes, with room for one event and for
 * many, and each reading has to give the same events and verdict. Of each page its name, the number of its events and its verdict
 * are printed. */
#include "give.h"

static uint8_t *bytes_of(const char *name, size_t *length) {
  FILE *file = fopen(name, "rb");
  CHECK(file && fseek(file, 0, SEEK_END) == 0);
  *length = (size_t)ftell(file);
  uint8_t *bytes = malloc(*length);
  rewind(file);
  CHECK(bytes && fread(bytes, 1, *length, file) == *length);
  fclose(file);
  return bytes;
}

/* What pieces of a page give, each this long but for the last, with this much room. */
static seen seen_in_pieces(const uint8_t *page, size_t length, size_t size, size_t room, cqlp_end *end) {
  cqlp_limits limits = CQLP_DEFAULT_LIMITS;
  cqlp_decoder decoder = CQLP_NO_DECODER_YET;
  seen seen = {0, 0};
  memset(end, 0, sizeof *end);
  CHECK(cqlp_new(&limits, &decoder) == CQLP_DONE);
  for (size_t at = 0; at < length; at += size)
    give(&decoder, page + at, length - at < size ? length - at : size, room, &seen);
  CHECK(cqlp_finish(&decoder, end) == CQLP_DONE);
  CHECK(cqlp_free(&decoder) == CQLP_DONE);
  return seen;
}

static void read_page(const char *name) {
  static const size_t SIZES[] = {4096, 1000};
  size_t length;
  uint8_t *page = bytes_of(name, &length);
  cqlp_end whole, end;
  seen wanted = seen_in_pieces(page, length, length, ROOM, &whole);
  CHECK(whole.verdict == CQLP_END_WHOLE);
  for (size_t i = 0; i < sizeof SIZES / sizeof SIZES[0]; i++)
    for (size_t room = 1; room <= ROOM; room += ROOM - 1) {
      seen found = seen_in_pieces(page, length, SIZES[i], room, &end);
      CHECK(found.sum == wanted.sum && found.events == wanted.events && same_end(&end, &whole));
    }
  printf("%s %zu whole %llu\n", name, wanted.events, (unsigned long long)whole.bytes);
  free(page);
}

int main(int count, char **names) {
  for (int i = 1; i < count; i++) read_page(names[i]);
  return 0;
}
