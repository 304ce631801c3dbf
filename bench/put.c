/* Writes the page on standard input again, of its events: put TIMES. It decodes the page once, and then times cqlp_page_measure, cqlp_page_put in
 * batches of 4096 events, and cqlp_encode, each TIMES times over the same events, and sees that both write the bytes of the page. For each it
 * prints the least time, in milliseconds of the processor. */
#include "cqlp.h"

#include <stdio.h>
#include <stdlib.h>
#include <string.h>
#include <time.h>

enum { BATCH = 4096, LONGEST = 1 << 28 };

static uint8_t *input, *output;
static cqlp_event *events;
static size_t count, head, head_used, used_by_all, length;
static uint8_t *contents;

static double spent(void) {
  struct timespec now;
  clock_gettime(CLOCK_PROCESS_CPUTIME_ID, &now);
  return (double)now.tv_sec * 1e3 + (double)now.tv_nsec / 1e6;
}

/* Reads all events of the page, and gathers their contents one after the other. */
static void read_events(void) {
  cqlp_limits limits = CQLP_DEFAULT_LIMITS;
  cqlp_decoder decoder = CQLP_NO_DECODER_YET;
  cqlp_batch batch = {0, 0, 0, 0, 0};
  size_t room = length / 4 + 64, used = 0;
  events = calloc(room, sizeof *events);
  contents = malloc(length);
  if (cqlp_new(&limits, &decoder) != CQLP_DONE) abort();
  do {
    cqlp_next(&decoder, input + used, length - used, events + count, room - count, &batch);
    used += batch.used;
    for (size_t i = count; i < count + batch.events; i++) {
      if (events[i].content && events[i].length) memcpy(contents + used_by_all, events[i].content, events[i].length);
      if (events[i].content) used_by_all += events[i].length;
      if (events[i].tag == CQLP_TAG_COUNT && events[i].field == CQLP_FIELD_ROWS) head = i + 1, head_used = used_by_all;
    }
    count += batch.events;
  } while (batch.stop == CQLP_STOP_FULL || (batch.events > 0 && events[count - 1].tag != CQLP_TAG_END));
  cqlp_free(&decoder);
}

static double measured(uint64_t *size) {
  cqlp_measured sum = {0, 0};
  double start = spent();
  if (cqlp_page_measure(events + head, count - 1 - head, contents + head_used, used_by_all - head_used, &sum) != CQLP_DONE) abort();
  *size = sum.size;
  return spent() - start;
}

static double put(uint64_t size) {
  cqlp_page page = CQLP_NO_PAGE_YET;
  cqlp_encoded begun = {0, 0};
  double start = spent();
  if (cqlp_page_begin(events, head, contents, head_used, size, output, LONGEST, &page, &begun) != CQLP_DONE) abort();
  size_t at = begun.length, next = head, content = head_used;
  while (next < count - 1) {
    size_t more = count - 1 - next < BATCH ? count - 1 - next : BATCH;
    cqlp_put done = {0, 0, 0, 0, 0};
    uint32_t code = cqlp_page_put(&page, events + next, more, contents + content, used_by_all - content, output + at, LONGEST - at, &done);
    if (code != CQLP_DONE && code != CQLP_NOT_ENDED) abort();
    next += done.events, content += done.used, at += done.length;
  }
  if (cqlp_page_end(&page) != CQLP_DONE) abort();
  double end = spent();
  cqlp_page_free(&page);
  if (at != length || memcmp(input, output, length)) abort();
  return end - start;
}

static double encoded(void) {
  cqlp_encoded all = {0, 0};
  double start = spent();
  if (cqlp_encode(events, count, contents, used_by_all, output, LONGEST, &all) != CQLP_DONE) abort();
  double end = spent();
  if (all.length != length || memcmp(input, output, length)) abort();
  return end - start;
}

int main(int argc, char **argv) {
  double least[3] = {1e9, 1e9, 1e9}, one;
  uint64_t size = 0;
  int times = argc > 1 ? atoi(argv[1]) : 5;
  const char *only = argc > 2 ? argv[2] : "";
  input = malloc(LONGEST), output = malloc(LONGEST);
  memset(output, 1, LONGEST);
  length = fread(input, 1, LONGEST, stdin);
  read_events();
  for (int i = 0; i < times; i++) {
    if ((one = measured(&size)) < least[0]) least[0] = one;
    if ((one = put(size)) < least[1]) least[1] = one;
    if (!*only && (one = encoded()) < least[2]) least[2] = one;
  }
  printf("%zu bytes, %zu events: cqlp_page_measure %.1f ms, cqlp_page_put %.1f ms, cqlp_encode %.1f ms\n", length, count, least[0], least[1], least[2]);
  return 0;
}
