/* figures FILE: how much stack the calls of each row's message touch, in bytes: a line `NAME VALIDATOR DECODER`. Each is called once, in a
 * thread on a painted stack. What a thread touches that calls nothing isn't counted. */
#define _POSIX_C_SOURCE 200809L
#include <pthread.h>
#include "rows.h"

static uint8_t stack[1 << 20] __attribute__((aligned(4096)));
static uint8_t *bytes;
static size_t length;
static message_call *called;

static void *run(void *unused) {
  if (called) called(bytes, length);
  return unused;
}

/* The bytes of stack that a thread touches, which makes this call, or none. */
static size_t touched(message_call *it) {
  pthread_attr_t attributes;
  pthread_t thread;
  called = it;
  memset(stack, MARK, sizeof stack);
  pthread_attr_init(&attributes);
  if (pthread_attr_setstack(&attributes, stack, sizeof stack) || pthread_create(&thread, &attributes, run, NULL) ||
      pthread_join(thread, NULL))
    exit(2);
  size_t at = 0;
  while (at < sizeof stack && stack[at] == MARK) at++;
  return sizeof stack - at;
}

int main(int count, char **words) {
  static char line[1 << 17];
  FILE *file = count > 1 ? fopen(words[1], "r") : NULL;
  if (!file) return 2;
  size_t none = touched(NULL);
  while (fgets(line, sizeof line, file)) {
    const char *name = strtok(line, "\t"), *digits = strtok(NULL, "\t\n");
    const struct message *it = digits ? message_of(name) : NULL;
    if (!it) return 2;
    bytes = bytes_of(digits, &length);
    printf("%s %zu %zu\n", name, touched(it->validate_prefix) - none, touched(it->decode_check_prefix) - none);
    free(bytes);
  }
  fclose(file);
  return 0;
}
