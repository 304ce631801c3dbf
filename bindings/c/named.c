/* The words of numbers: for each group each number that has one is printed, and bindings/names.txt is what must be printed. Numbers at the
 * ends of their range, and groups that there are not, have none. */
#include "give.h"

typedef struct group {
  uint32_t number;
  const char *word;
} group;

#define GROUP(word) {CQLP_GROUP_##word, #word}

static const group GROUPS[] = {GROUP(CODE), GROUP(STOP), GROUP(END), GROUP(TAG), GROUP(MARK), GROUP(OPCODE), GROUP(FIELD), GROUP(KIND),
                               GROUP(REASON), GROUP(PHASE), GROUP(REPLY), GROUP(LIMIT), GROUP(ERROR), GROUP(RESULT),
                               GROUP(CONSISTENCY), GROUP(BATCH)};

enum { COUNT = sizeof GROUPS / sizeof *GROUPS };

static void print_group(const group *of) {
  static const int64_t ENDS[] = {INT64_MIN, INT32_MIN, -1, INT32_MAX, UINT32_MAX, INT64_MAX};
  for (size_t i = 0; i < sizeof ENDS / sizeof *ENDS; i++) CHECK(cqlp_name(of->number, ENDS[i]) == NULL);
  for (int64_t number = -70000; number <= 70000; number++) {
    const char *word = cqlp_name(of->number, number);
    if (word) printf("%s %lld %s\n", of->word, (long long)number, word);
    CHECK(word == cqlp_name(of->number, number));
  }
}

/* Groups that there are not: those next to the ones that there are, and at the ends of their range. */
static void check_other_groups(void) {
  static const uint32_t OTHERS[] = {0, COUNT + 1, COUNT + 2, 255, 65536, UINT32_MAX};
  for (size_t i = 0; i < sizeof OTHERS / sizeof *OTHERS; i++)
    for (int64_t number = -300; number <= 300; number++) CHECK(cqlp_name(OTHERS[i], number) == NULL);
}

/* The number of a version, from its text. */
static uint32_t version_number(const char *text) {
  unsigned first, second, third;
  CHECK(sscanf(text, "%u.%u.%u", &first, &second, &third) == 3 && second < 1000 && third < 1000);
  return first * 1000000 + second * 1000 + third;
}

int main(void) {
  CHECK(strcmp(cqlp_version(), CQLP_VERSION) == 0 && cqlp_version_number() == CQLP_VERSION_NUMBER);
  CHECK(version_number(cqlp_version()) == cqlp_version_number());
  check_other_groups();
  for (size_t i = 0; i < COUNT; i++) print_group(&GROUPS[i]);
  return 0;
}
