/* Adds up the second column, of ints, of the pages in a file whose columns are a varchar and an int: columns FILE */
#include <cqlp.h>
#include <inttypes.h>
#include <stdio.h>
#include <string.h>

/* The sum of the numbers that the columns have, which are taken out of them. */
static int64_t taken_sum(cqlp_columns *columns) {
  int64_t sum = 0;
  cqlp_column column;
  cqlp_columns_get(columns, 1, &column);
  for (size_t i = 0; i < column.cells; i++) {
    int32_t value;
    memcpy(&value, column.values + 4 * i, 4); /* on a machine that has the lowest byte first */
    if (column.validity[i / 8] >> i % 8 & 1) sum += value;
  }
  cqlp_columns_clear(columns);
  return sum;
}

int main(int count, char **words) {
  static const uint8_t kinds[] = {CQLP_KIND_VARCHAR, CQLP_KIND_INT};
  static uint8_t piece[4096];
  cqlp_batch_limits most = {2, 1024, 1 << 20, 1 << 16};
  cqlp_limits limits = CQLP_DEFAULT_LIMITS;
  cqlp_decoder decoder = CQLP_NO_DECODER_YET;
  cqlp_columns columns = CQLP_NO_COLUMNS_YET;
  cqlp_event event = {0};
  cqlp_batch batch = {0};
  cqlp_end end = {0};
  int64_t sum = 0;
  FILE *file = count == 2 ? fopen(words[1], "rb") : NULL;
  if (!file || cqlp_new(&limits, &decoder) != CQLP_DONE || cqlp_columns_new(&most, kinds, 2, &columns) != CQLP_DONE) return 2;
  for (size_t length; (length = fread(piece, 1, sizeof piece, file)) > 0;) {
    for (size_t used = 0;; used += batch.used) {
      cqlp_columns_next(&decoder, &columns, piece + used, length - used, &event, &batch);
      if (batch.stop != CQLP_STOP_FULL) break;
      if (batch.events == 0) sum += taken_sum(&columns); /* else a header, a field or an end is in `event` */
    }
  }
  sum += taken_sum(&columns);
  cqlp_finish(&decoder, &end);
  cqlp_columns_free(&columns);
  cqlp_free(&decoder);
  fclose(file);
  printf("%" PRId64 ", %s\n", sum, cqlp_name(CQLP_GROUP_END, end.verdict));
  return end.verdict != CQLP_END_WHOLE;
}
