/* Prints the frames in a file, and why bad ones are passed over: frames FILE */
#include <cqlp.h>
#include <inttypes.h>
#include <stdio.h>

static void take(const cqlp_event *event) {
  if (event->tag == CQLP_TAG_FRAME) printf("%" PRIu64 ": %s\n", event->at, cqlp_name(CQLP_GROUP_OPCODE, event->opcode));
  if (event->field == CQLP_FIELD_QUERY) printf("  %.*s\n", (int)event->length, (const char *)event->content);
}

/* Passes over the refused frame. Returns whether the decoder goes on: not after a refused header. */
static int pass_over(cqlp_decoder *decoder) {
  cqlp_skipped skipped = {0};
  if (cqlp_skip(decoder, &skipped) != CQLP_DONE) return 0;
  printf("  passed over: %s at %" PRIu64 ", under the stream id %" PRId32 "\n", cqlp_name(CQLP_GROUP_REASON, skipped.reason),
         skipped.at, skipped.frame.extra);
  return 1;
}

int main(int count, char **words) {
  static uint8_t piece[4096];
  static cqlp_event events[256];
  cqlp_limits limits = CQLP_DEFAULT_LIMITS;
  cqlp_decoder decoder = CQLP_NO_DECODER_YET;
  cqlp_batch batch = {0};
  cqlp_end end = {0};
  int goes_on = 1;
  FILE *file = count == 2 ? fopen(words[1], "rb") : NULL;
  if (!file || cqlp_new(&limits, &decoder) != CQLP_DONE) return 2;
  for (size_t length; goes_on && (length = fread(piece, 1, sizeof piece, file)) > 0;) {
    size_t used = 0;
    do {
      cqlp_next(&decoder, piece + used, length - used, events, 256, &batch);
      used += batch.used;
      for (size_t i = 0; i < batch.events; i++) take(&events[i]);
      if (batch.stop == CQLP_STOP_REFUSED) goes_on = pass_over(&decoder);
    } while (goes_on && batch.stop != CQLP_STOP_MORE);
  }
  cqlp_finish(&decoder, &end);
  cqlp_free(&decoder);
  fclose(file);
  printf("%s", cqlp_name(CQLP_GROUP_END, end.verdict));
  if (end.verdict == CQLP_END_REFUSED) printf(" at %" PRIu64 ": %s", end.at, cqlp_name(CQLP_GROUP_REASON, end.reason));
  printf("\n");
  return end.verdict != CQLP_END_WHOLE;
}
