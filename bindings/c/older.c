/* What a program calls that was compiled with a cqlp.h without CQLP_LAYOUT, whose structs may be smaller: each call answers CQLP_OTHER_LAYOUT, and
 * touches nothing. So cqlp.h, which has inline functions of these names, is not read here. */
#include <stdint.h>

#define OLDER(name)    \
  uint32_t name(void); \
  uint32_t name(void) { return 65; }

OLDER(cqlp_new)
OLDER(cqlp_new_lenient)
OLDER(cqlp_check)
OLDER(cqlp_types_of)
OLDER(cqlp_take_given)
OLDER(cqlp_columns_new)
OLDER(cqlp_client_new)
OLDER(cqlp_server_new)
OLDER(cqlp_write_header)
OLDER(cqlp_encode)
OLDER(cqlp_page_measure)
OLDER(cqlp_page_begin)
