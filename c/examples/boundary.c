/* boundary: copies standard input to standard output, if it is one MLSMessage; otherwise prints why not.
 *
 * Put such a check before your existing parser: what comes through is the canonical encoding of a message. */
#include <inttypes.h>
#include <stdio.h>
#include <tls_codec/mls.h>

int main(void) {
  static uint8_t bytes[1 << 20];
  size_t length = fread(bytes, 1, sizeof bytes, stdin);
  if (length == sizeof bytes || ferror(stdin)) {
    fprintf(stderr, "%zu bytes or more, or the read failed\n", sizeof bytes);
    return 1;
  }
  tls_codec_outcome outcome = mls_message_validate(bytes, length);
  if (outcome.status != TLS_CODEC_ACCEPTED) {
    fputs(tls_codec_status_name(outcome.status), stderr);
    if (outcome.status == TLS_CODEC_UNKNOWN_VALUE) fprintf(stderr, " (%" PRIu64 ")", outcome.detail);
    fprintf(stderr, " at byte %zu of %zu: %s\n", outcome.at, length, tls_codec_status_sentence(outcome.status));
    return 1;
  }
  return fwrite(bytes, 1, length, stdout) != length || fflush(stdout) != 0;
}
