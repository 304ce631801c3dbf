/* What programs see whose structs lie otherwise than the library's: of each call that makes a handle, or is given none, CQLP_OTHER_LAYOUT, and memory that
 * stays as it was. The first was compiled with a header without CQLP_LAYOUT, in which a decoder has 16 bytes; the second passes another number. It
 * does not read cqlp.h, and declares the calls as their names are linked. */
#include <stdint.h>
#include <stdio.h>
#include <stdlib.h>
#include <string.h>

uint32_t cqlp_next(void *decoder, const uint8_t *input, size_t length, void *events, size_t room, void *batch);
uint32_t cqlp_free(void *decoder);
const char *cqlp_name(uint32_t group, int64_t number);

#define CHECK(is) \
  if (!(is)) printf("line %d: %s\n", __LINE__, #is), exit(1)

/* Each of these calls, with what it is given. */
#define ALL(CALL)                                                                                           \
  CALL(cqlp_new, limits, &frame.decoder)                                                                    \
  CALL(cqlp_new_lenient, limits, &frame.decoder)                                                            \
  CALL(cqlp_check, limits, bytes, sizeof bytes, batch)                                                      \
  CALL(cqlp_types_of, &frame.decoder, batch)                                                                \
  CALL(cqlp_take_given, &frame.decoder, batch)                                                              \
  CALL(cqlp_columns_new, limits, bytes, sizeof bytes, &frame.decoder)                                       \
  CALL(cqlp_client_new, 8, &frame.decoder)                                                                  \
  CALL(cqlp_server_new, 8, &frame.decoder)                                                                  \
  CALL(cqlp_write_header, limits, bytes)                                                                    \
  CALL(cqlp_encode, event, (size_t)1, bytes, sizeof bytes, bytes, sizeof bytes, batch)                      \
  CALL(cqlp_page_measure, event, (size_t)1, bytes, sizeof bytes, batch)                                     \
  CALL(cqlp_page_begin, event, (size_t)1, bytes, sizeof bytes, (uint64_t)0, bytes, sizeof bytes, &frame.decoder, batch)

#define DECLARE(name, ...) uint32_t name(), name##_by_layout();
ALL(DECLARE)

/* Makes all calls, with this number of a layout, or without one. Answers what the first answers, as each has to. */
static uint32_t call_all(int has_number, uint32_t layout) {
  static const uint64_t eight[] = {1, 2, 3, 4, 5, 6, 7, 8};
  struct {
    uint64_t before[8];
    struct {
      uint64_t live;
      void *place;
    } decoder;
    uint64_t after[8];
  } frame = {{0}, {0, NULL}, {0}}, was;
  uint32_t limits[5] = {1048576, 1048576, 4096, 16, 1};
  uint8_t event[72] = {0}, batch[32] = {0}, bytes[9] = {0}, zeros[72] = {0};
  memcpy(frame.before, eight, sizeof eight);
  memcpy(frame.after, eight, sizeof eight);
  was = frame;
  uint32_t first = has_number ? cqlp_new_by_layout(layout, limits, &frame.decoder) : cqlp_new(limits, &frame.decoder);
#define SEE(name, ...) CHECK((has_number ? name##_by_layout(layout, __VA_ARGS__) : name(__VA_ARGS__)) == first);
  ALL(SEE)
  /* and what goes on with the handle finds nothing in it */
  CHECK(cqlp_next(&frame.decoder, bytes, sizeof bytes, event, 1, batch) == 6 && cqlp_free(&frame.decoder) == 6);
  CHECK(memcmp(&frame, &was, sizeof frame) == 0 && memcmp(event, zeros, sizeof event) == 0);
  CHECK(memcmp(batch, zeros, sizeof batch) == 0 && memcmp(bytes, zeros, sizeof bytes) == 0);
  return first;
}

int main(void) {
  printf("an older header: %s\n", cqlp_name(1, call_all(0, 0)));
  printf("another layout: %s\n", cqlp_name(1, call_all(1, 1)));
  return 0;
}
