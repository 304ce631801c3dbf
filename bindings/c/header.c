/* include/cqlp.h is read as C99 and as C++ too, with its initializers: this program calls the library, and prints a verdict. */
#include <cqlp.h>
#include <stdio.h>

int main(void) {
  static const uint8_t options[9] = {4, 0, 0, 0, 5, 0, 0, 0, 0};
  cqlp_limits limits = CQLP_DEFAULT_LIMITS;
  cqlp_decoder decoder = CQLP_NO_DECODER_YET;
  cqlp_types types = CQLP_NO_TYPES_YET;
  cqlp_columns columns = CQLP_NO_COLUMNS_YET;
  cqlp_page page = CQLP_NO_PAGE_YET;
  cqlp_client client = CQLP_NO_CLIENT_YET;
  cqlp_server server = CQLP_NO_SERVER_YET;
  cqlp_event events[4];
  cqlp_batch batch;
  cqlp_end end;
  if (cqlp_new(&limits, &decoder) != CQLP_DONE) return 2;
  cqlp_next(&decoder, options, sizeof options, events, 4, &batch);
  cqlp_finish(&decoder, &end);
  printf("%u events, %s\n", (unsigned)batch.events, cqlp_name(CQLP_GROUP_END, end.verdict));
  cqlp_free(&decoder);
  cqlp_types_free(&types);
  cqlp_columns_free(&columns);
  cqlp_page_free(&page);
  cqlp_client_free(&client);
  cqlp_server_free(&server);
  return 0;
}
