/* What C calls where a call of the proved library fills or reads structs of the caller's, and no handle was made before: it goes on only where the caller's
 * structs lie as the library's do. Plain C, which is part of both libraries and not proved. */
#include <assert.h>
#include "cqlp.h"

/* How the structs of the header lie is how those of the library do. */
#define SIZE(type, bytes) static_assert(sizeof(type) == bytes, #type " has another size in the library");
#define MEMBER(type, member, offset, bytes) \
  static_assert(offsetof(type, member) == offset && sizeof(((type *)0)->member) == bytes, #type "." #member " lies elsewhere in the library");
#define NUMBER(number) static_assert(CQLP_LAYOUT == number, "a layout has changed, and CQLP_LAYOUT is to be " #number);
#include "layouts.h"

/* What is not checked has this name in the library alone, and is not exported. */
#define CALL(name, given, ...)                                                          \
  __attribute__((visibility("hidden"))) uint32_t name##_unchecked(__VA_ARGS__);         \
  uint32_t name##_by_layout(uint32_t layout, __VA_ARGS__) {                             \
    return layout == CQLP_LAYOUT ? name##_unchecked given : CQLP_OTHER_LAYOUT;          \
  }

CALL(cqlp_new, (limits, decoder), const cqlp_limits *limits, cqlp_decoder *decoder)
CALL(cqlp_new_lenient, (limits, decoder), const cqlp_limits *limits, cqlp_decoder *decoder)
CALL(cqlp_check, (limits, stream, length, end), const cqlp_limits *limits, const uint8_t *stream, size_t length, cqlp_end *end)
CALL(cqlp_types_of, (decoder, types), cqlp_decoder *decoder, cqlp_types *types)
CALL(cqlp_take_given, (decoder, types), cqlp_decoder *decoder, cqlp_types *types)
CALL(cqlp_columns_new, (limits, kinds, count, columns), const cqlp_batch_limits *limits, const uint8_t *kinds, size_t count, cqlp_columns *columns)
CALL(cqlp_client_new, (slots, client), uint32_t slots, cqlp_client *client)
CALL(cqlp_server_new, (slots, server), uint32_t slots, cqlp_server *server)
CALL(cqlp_write_header, (fields, bytes), const cqlp_header *fields, uint8_t bytes[9])
CALL(cqlp_encode, (events, count, contents, length, bytes, room, encoded), const cqlp_event *events, size_t count, const uint8_t *contents,
     size_t length, uint8_t *bytes, size_t room, cqlp_encoded *encoded)
CALL(cqlp_page_measure, (events, count, contents, length, measured), const cqlp_event *events, size_t count, const uint8_t *contents, size_t length,
     cqlp_measured *measured)
CALL(cqlp_page_begin, (events, count, contents, length, size, bytes, room, page, begun), const cqlp_event *events, size_t count,
     const uint8_t *contents, size_t length, uint64_t size, uint8_t *bytes, size_t room, cqlp_page *page, cqlp_encoded *begun)
