/* Passes requests on from standard input to standard output, with LOCAL_QUORUM in place of the consistency ONE. */
#include <cqlp.h>
#include <stdio.h>

/* The last byte of a piece waits for the next piece: it may be the first of the two bytes of a consistency. */
static uint8_t buffer[1 + 4096];
static size_t kept;

/* Decodes a piece, which lies after the kept byte, and alters its consistencies. Returns whether the stream goes on. */
static int read_piece(cqlp_decoder *decoder, size_t length, uint64_t base) {
  static cqlp_event events[64];
  cqlp_batch batch = {0};
  size_t used = 0;
  do {
    cqlp_next(decoder, buffer + kept + used, length - used, events, 64, &batch);
    used += batch.used;
    for (size_t i = 0; i < batch.events; i++)
      if (events[i].field == CQLP_FIELD_CONSISTENCY && events[i].number == CQLP_CONSISTENCY_ONE)
        buffer[events[i].at - base + 1] = CQLP_CONSISTENCY_LOCAL_QUORUM;
  } while (batch.stop == CQLP_STOP_FULL);
  return batch.stop != CQLP_STOP_REFUSED;
}

int main(void) {
  cqlp_limits limits = CQLP_DEFAULT_LIMITS;
  cqlp_decoder decoder = CQLP_NO_DECODER_YET;
  cqlp_end end = {0};
  uint64_t base = 0; /* the offset in the stream of the buffer's first byte */
  size_t length;
  if (cqlp_new(&limits, &decoder) != CQLP_DONE) return 2;
  while ((length = fread(buffer + kept, 1, sizeof buffer - kept, stdin)) > 0 && read_piece(&decoder, length, base)) {
    size_t all = kept + length;
    fwrite(buffer, 1, all - 1, stdout);
    base += all - 1;
    buffer[0] = buffer[all - 1];
    kept = 1;
  }
  cqlp_finish(&decoder, &end);
  cqlp_free(&decoder);
  if (end.verdict == CQLP_END_REFUSED)
    fprintf(stderr, "%s\n", cqlp_name(CQLP_GROUP_REASON, end.reason)); /* nothing of its piece is passed on */
  else
    fwrite(buffer, 1, kept, stdout);
  return end.verdict != CQLP_END_WHOLE;
}
