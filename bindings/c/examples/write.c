/* Writes a QUERY with a value that is bound to standard output: write STATEMENT VALUE */
#include <cqlp.h>
#include <stdio.h>
#include <string.h>

int main(int count, char **words) {
  static uint8_t bytes[65536];
  static char contents[65536];
  cqlp_encoded encoded = {0};
  if (count != 3 || strlen(words[1]) + strlen(words[2]) >= sizeof contents) return 2;
  snprintf(contents, sizeof contents, "%s%s", words[1], words[2]);
  const cqlp_event events[] = {
      {.tag = CQLP_TAG_FRAME, .opcode = CQLP_OPCODE_QUERY, .extra = 7}, /* under the stream id 7 */
      {.tag = CQLP_TAG_TEXT, .field = CQLP_FIELD_QUERY, .length = strlen(words[1])},
      {.tag = CQLP_TAG_SHORT, .field = CQLP_FIELD_CONSISTENCY, .number = CQLP_CONSISTENCY_LOCAL_QUORUM},
      {.tag = CQLP_TAG_BYTE, .field = CQLP_FIELD_QUERY_FLAGS, .number = 0x01}, /* values come */
      {.tag = CQLP_TAG_COUNT, .field = CQLP_FIELD_VALUES, .number = 1},
      {.tag = CQLP_TAG_BOUND, .field = CQLP_FIELD_VALUE, .length = strlen(words[2])},
      {.tag = CQLP_TAG_END},
  };
  uint32_t code = cqlp_encode(events, sizeof events / sizeof *events, (const uint8_t *)contents, strlen(contents), bytes,
                              sizeof bytes, &encoded);
  if (code != CQLP_DONE) {
    fprintf(stderr, "%s at event %zu\n", cqlp_name(CQLP_GROUP_CODE, code), encoded.event);
    return 1;
  }
  return fwrite(bytes, 1, encoded.length, stdout) != encoded.length;
}
