/* Counts the events of a stream on standard input, which it reads in pieces: speed ROOM [PIECE]. ROOM is how many events a call may
 * put, and 0 asks for the verdict alone, of the whole stream by cqlp_check. */
#include "cqlp.h"

#include <stdio.h>
#include <stdlib.h>
#include <unistd.h>

enum { MOST = 4096, LONGEST = 1 << 28 };

static void check_whole(const cqlp_limits *limits) {
  uint8_t *stream = malloc(LONGEST);
  size_t length = 0;
  ssize_t more;
  cqlp_end end = {0, 0, 0, 0};
  if (!stream) return;
  while ((more = read(0, stream + length, LONGEST - length)) > 0) length += (size_t)more;
  cqlp_check(limits, stream, length, &end);
  printf("verdict %u bytes %llu\n", end.verdict, (unsigned long long)end.bytes);
  free(stream);
}

int main(int argc, char **argv) {
  static cqlp_event events[MOST];
  static uint8_t input[1 << 20];
  cqlp_limits limits = CQLP_DEFAULT_LIMITS;
  cqlp_decoder decoder = CQLP_NO_DECODER_YET;
  cqlp_batch batch = {0, 0, 0, 0, 0};
  unsigned long long count = 0, content = 0;
  size_t room = argc > 1 ? strtoul(argv[1], NULL, 10) : 64, piece = argc > 2 ? strtoul(argv[2], NULL, 10) : 4096;
  ssize_t length;
  if (room == 0) {
    check_whole(&limits);
    return 0;
  }
  if (room > MOST || piece > sizeof input || cqlp_new(&limits, &decoder) != CQLP_DONE) return 1;
  while ((length = read(0, input, piece)) > 0) {
    size_t used = 0;
    do {
      cqlp_next(&decoder, input + used, (size_t)length - used, events, room, &batch);
      used += batch.used;
      count += batch.events;
      for (size_t i = 0; i < batch.events; i++) content += events[i].length;
    } while (batch.stop == CQLP_STOP_FULL);
    if (batch.stop == CQLP_STOP_REFUSED) break;
  }
  printf("%llu events, %llu bytes of contents\n", count, content);
  return cqlp_free(&decoder) != CQLP_DONE;
}
