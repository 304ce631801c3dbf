/* Prints the rows of the pages in a file: page FILE */
#include <cqlp.h>
#include <inttypes.h>
#include <stdio.h>

static void print_scalar(const cqlp_event *event) {
  switch (event->kind) {
    case CQLP_KIND_INT: case CQLP_KIND_BIGINT: printf("%" PRId64, event->number); break;
    case CQLP_KIND_BOOLEAN: printf(event->number ? "true" : "false"); break;
    case CQLP_KIND_VARCHAR: printf("%.*s", (int)event->length, (const char *)event->content); break;
    default: printf("(%s)", cqlp_name(CQLP_GROUP_KIND, event->kind));
  }
}

/* Prints an event of a page. */
static void take(const cqlp_event *event) {
  int is_cell = CQLP_TAG_LEAF <= event->tag && event->tag <= CQLP_TAG_ENTER;
  if (is_cell && event->level == 0) printf(event->column ? " | " : "\n");
  if (is_cell && event->level > 0) printf(" ");
  switch (event->tag) {
    case CQLP_TAG_TEXT:
      if (event->field == CQLP_FIELD_COLUMN_NAME) printf("%.*s ", (int)event->length, (const char *)event->content);
      break;
    case CQLP_TAG_TYPE_NODE: printf("%s ", cqlp_name(CQLP_GROUP_KIND, event->kind)); break;
    case CQLP_TAG_LEAF: print_scalar(event); break;
    case CQLP_TAG_NULL: printf("null"); break;
    case CQLP_TAG_EMPTY: printf("empty"); break;
    case CQLP_TAG_ENTER: printf("["); break;
    case CQLP_TAG_LEAVE: printf(" ]"); break;
    case CQLP_TAG_END: printf("\n"); break;
  }
}

int main(int count, char **words) {
  static uint8_t piece[4096];
  static cqlp_event events[256];
  cqlp_limits limits = CQLP_DEFAULT_LIMITS;
  cqlp_decoder decoder = CQLP_NO_DECODER_YET;
  cqlp_batch batch = {0};
  cqlp_end end = {0};
  FILE *file = count == 2 ? fopen(words[1], "rb") : NULL;
  if (!file || cqlp_new(&limits, &decoder) != CQLP_DONE) return 2;
  for (size_t length; batch.stop != CQLP_STOP_REFUSED && (length = fread(piece, 1, sizeof piece, file)) > 0;) {
    size_t used = 0;
    do {
      cqlp_next(&decoder, piece + used, length - used, events, 256, &batch);
      used += batch.used;
      for (size_t i = 0; i < batch.events; i++) take(&events[i]);
    } while (batch.stop == CQLP_STOP_FULL);
  }
  cqlp_finish(&decoder, &end);
  cqlp_free(&decoder);
  fclose(file);
  if (end.verdict == CQLP_END_CUT) fprintf(stderr, "cut within the frame at %" PRIu64 "\n", end.at);
  if (end.verdict == CQLP_END_REFUSED)
    fprintf(stderr, "refused at %" PRIu64 ": %s\n", end.at, cqlp_name(CQLP_GROUP_REASON, end.reason));
  return end.verdict != CQLP_END_WHOLE;
}
