/* stream: the lengths of the TLS records that standard input begins with, a line each as soon as it is whole, and how many bytes are left
 * of what was read.
 *
 * A record that isn't whole is moved to the front of the buffer, and the rest of it is read. No record has more bytes than the buffer. */
#define _POSIX_C_SOURCE 200809L
#include <errno.h>
#include <stdio.h>
#include <string.h>
#include <tls_codec/tls13.h>
#include <unistd.h>

/* Waits for a byte, and reads what is there: 0 bytes at the end, -1 if the read failed. */
static ssize_t read_more(uint8_t *bytes, size_t size) {
  ssize_t count;
  do count = read(STDIN_FILENO, bytes, size);
  while (count < 0 && errno == EINTR);
  return count;
}

int main(void) {
  static uint8_t bytes[1 << 17];
  size_t left = 0;
  ssize_t more;
  tls_codec_outcome outcome;
  do {
    more = read_more(bytes + left, sizeof bytes - left);
    if (more > 0) left += (size_t)more;
    size_t from = 0;
    while ((outcome = tls13_tls_plaintext_validate_prefix(bytes + from, left - from)).status == TLS_CODEC_ACCEPTED) {
      printf("%zu\n", outcome.taken);
      from += outcome.taken;
    }
    fflush(stdout);
    left -= from;
    memmove(bytes, bytes + from, left);
  } while (more > 0 && outcome.status == TLS_CODEC_END_OF_STREAM);
  if (more < 0) fprintf(stderr, "the read failed\n");
  printf("%zu left\n", left);
  return left || more < 0;
}
