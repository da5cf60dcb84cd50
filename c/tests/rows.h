/* What the tests in C share: a row's bytes, marked bytes, the text of an outcome, how two compare, and the messages with their calls. */
#ifndef ROWS_H
#define ROWS_H

#include <inttypes.h>
#include <stdio.h>
#include <stdlib.h>
#include <string.h>
#include <tls_codec/mls_decode.h>
#include <tls_codec/tls13_decode.h>
#include <tls_codec/all.h>

typedef tls_codec_outcome message_call(const uint8_t *bytes, size_t length);

struct message {
  const char *name;
  message_call *validate_prefix, *validate, *decode_check_prefix, *decode_check;
};

static const struct message messages[] = {
#define MESSAGE(name) {#name, name##_validate_prefix, name##_validate, name##_decode_check_prefix, name##_decode_check},
#include "exports.inc"
#undef MESSAGE
};

/* The message of this name, or NULL. */
static inline const struct message *message_of(const char *name) {
  for (size_t i = 0; i < sizeof messages / sizeof *messages; i++)
    if (strcmp(messages[i].name, name) == 0) return &messages[i];
  return NULL;
}

/* The bytes of hex digits, or none of `-`. They are in a block of their own size, so that a tool that watches memory sees a read past them.
 * The program ends if the digits are no hex, or there is no memory. */
static inline uint8_t *bytes_of(const char *digits, size_t *length) {
  size_t count = strcmp(digits, "-") == 0 ? 0 : strlen(digits);
  uint8_t *bytes = malloc(count / 2 + !count);
  int is_hex = count % 2 == 0 && strspn(digits, "0123456789abcdef") >= count;
  for (size_t i = 0; bytes && is_hex && i < count / 2; i++) is_hex = sscanf(digits + 2 * i, "%2" SCNx8, &bytes[i]) == 1;
  if (!bytes || !is_hex) {
    printf("no memory, or no hex: %s\n", digits);
    exit(2);
  }
  *length = count / 2;
  return bytes;
}

/* Turns a bit of some bytes, or turns it back. */
static inline void turn(uint8_t *bytes, size_t bit) { bytes[bit / 8] ^= (uint8_t)(1u << bit % 8); }

/* What each byte that a call may fill is before the call. */
enum { MARK = 0xa5 };

/* Whether a call has left them all as they were. */
static inline int are_marks(const void *marked, size_t size) {
  const unsigned char *byte = marked;
  for (size_t i = 0; i < size; i++)
    if (byte[i] != MARK) return 0;
  return 1;
}

/* An outcome as a row has it, `STATUS TAKEN AT DETAIL`. The next call overwrites the text. */
static inline const char *text_of(tls_codec_outcome it) {
  static char text[100];
  snprintf(text, sizeof text, "%" PRIu32 " %zu %zu %" PRIu64, it.status, it.taken, it.at, it.detail);
  return text;
}

static inline int is_same(tls_codec_outcome one, tls_codec_outcome other) {
  return one.status == other.status && one.taken == other.taken && one.at == other.at && one.detail == other.detail;
}

/* Whether the call that needs all of the bytes says the same as the one of a prefix, or that some are left. */
static inline int is_whole_alike(tls_codec_outcome whole, tls_codec_outcome outcome, size_t length) {
  if (outcome.status != TLS_CODEC_ACCEPTED || outcome.taken == length) return is_same(whole, outcome);
  return whole.status == TLS_CODEC_TRAILING_DATA && !whole.taken && whole.at == outcome.taken && !whole.detail;
}

#endif
