/* memory FILE: each request for memory that a decoder makes of a row's bytes is refused in turn. Then the status is that of OutOfMemory,
 * and no block is left. With none refused no block is left either. A validator makes no request.
 *
 * Linked with --wrap of malloc, realloc and free. */
#include "rows.h"

void *__real_malloc(size_t size);
void *__real_realloc(void *block, size_t size);
void __real_free(void *block);

static int is_watched, requests, refused;
static long blocks;

/* Whether this request is the one to be refused. */
static int is_refused(void) { return is_watched && ++requests == refused; }

void *__wrap_malloc(size_t size) {
  void *block = is_refused() ? NULL : __real_malloc(size);
  if (is_watched && block) blocks++;
  return block;
}

void *__wrap_realloc(void *old, size_t size) {
  if (is_refused()) return NULL;
  void *block = __real_realloc(old, size);
  if (is_watched && !old && block) blocks++;
  return block;
}

void __wrap_free(void *block) {
  if (is_watched && block) blocks--;
  __real_free(block);
}

/* The status, with one request refused, or none if it is 0; 99 if a block is left. */
static uint32_t with_refused(const struct message *it, const uint8_t *bytes, size_t length, int number) {
  requests = 0, blocks = 0, refused = number, is_watched = 1;
  tls_codec_outcome outcome = it->decode_check_prefix(bytes, length);
  is_watched = 0;
  return blocks ? 99 : outcome.status;
}

/* The number of requests that were refused one by one, or -1. */
static int refuse_each(const struct message *it, const uint8_t *bytes, size_t length) {
  uint32_t plain = with_refused(it, bytes, length, 0);
  int all = requests;
  if (plain == 99) return -1;
  for (int number = 1; number <= all; number++)
    if (with_refused(it, bytes, length, number) != TLS_CODEC_OUT_OF_MEMORY) return -1;
  return all;
}

/* The validator makes no request. */
static int asks_nothing(const struct message *it, const uint8_t *bytes, size_t length) {
  requests = 0, refused = 0, is_watched = 1;
  it->validate_prefix(bytes, length);
  is_watched = 0;
  return requests == 0;
}

int main(int count, char **words) {
  static char line[1 << 17];
  FILE *file = count > 1 ? fopen(words[1], "r") : NULL;
  if (!file) return 2;
  int rows = 0, all = 0, failed = 0;
  while (fgets(line, sizeof line, file)) {
    char *name = strtok(line, "\t"), *digits = strtok(NULL, "\t\n");
    const struct message *it = digits ? message_of(name) : NULL;
    if (!it) {
      printf("no such row: %s\n", line);
      return 2;
    }
    size_t length;
    uint8_t *bytes = bytes_of(digits, &length);
    int found = refuse_each(it, bytes, length), is_well = found >= 0 && asks_nothing(it, bytes, length);
    free(bytes);
    rows++;
    all += found > 0 ? found : 0;
    if (is_well) continue;
    failed++;
    printf("%s %s: refused memory isn't reported, a block is left, or the validator asks for memory\n", name, digits);
  }
  fclose(file);
  printf("%d rows, %d requests refused, %d failed\n", rows, all, failed);
  return failed || !all;
}
