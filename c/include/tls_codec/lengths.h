/* Written by tools/check_exports.py from crates/tls_codec_c/src. Don't edit. */
#ifndef TLS_CODEC_LENGTHS_H
#define TLS_CODEC_LENGTHS_H

/* Checks without allocation whether bytes begin with a variable-length integer, or with bytes after
   a length. What holds for each call is in outcome.h. */

#include "outcome.h"

#ifdef __cplusplus
extern "C" {
#endif

/* A variable-length integer (RFC 9000, section 16) in its least width: whether the bytes begin with
   one. */
tls_codec_outcome tls_codec_varint_validate_prefix(const uint8_t *bytes, size_t length);

/* A variable-length integer (RFC 9000, section 16) in its least width: whether the bytes are one,
   with nothing after it. */
static inline tls_codec_outcome tls_codec_varint_validate(const uint8_t *bytes, size_t length) {
  return tls_codec_whole(tls_codec_varint_validate_prefix(bytes, length), length);
}

/* `opaque content<V>` (RFC 9420, section 2.1.2), and where its content is, if the bytes begin with
   one. A list `<V>` has its elements there. */
tls_codec_outcome tls_codec_opaque_v_locate_prefix(const uint8_t *bytes, size_t length, tls_codec_span *content);

/* `opaque content<V>` (RFC 9420, section 2.1.2), and where its content is, if the bytes are one,
   with nothing after it. A list `<V>` has its elements there. */
static inline tls_codec_outcome tls_codec_opaque_v_locate(const uint8_t *bytes, size_t length, tls_codec_span *content) {
  tls_codec_span found;
  tls_codec_outcome outcome = tls_codec_whole(tls_codec_opaque_v_locate_prefix(bytes, length, &found), length);
  if (outcome.status == TLS_CODEC_ACCEPTED) *content = found;
  return outcome;
}

/* `opaque content<0..2^8-1>` (RFC 8446, section 3.4), and where its content is, if the bytes begin
   with one. */
tls_codec_outcome tls_codec_opaque_u8_locate_prefix(const uint8_t *bytes, size_t length, tls_codec_span *content);

/* `opaque content<0..2^8-1>` (RFC 8446, section 3.4), and where its content is, if the bytes are
   one, with nothing after it. */
static inline tls_codec_outcome tls_codec_opaque_u8_locate(const uint8_t *bytes, size_t length, tls_codec_span *content) {
  tls_codec_span found;
  tls_codec_outcome outcome = tls_codec_whole(tls_codec_opaque_u8_locate_prefix(bytes, length, &found), length);
  if (outcome.status == TLS_CODEC_ACCEPTED) *content = found;
  return outcome;
}

/* `opaque content<0..2^16-1>`, and where its content is, if the bytes begin with one. */
tls_codec_outcome tls_codec_opaque_u16_locate_prefix(const uint8_t *bytes, size_t length, tls_codec_span *content);

/* `opaque content<0..2^16-1>`, and where its content is, if the bytes are one, with nothing after
   it. */
static inline tls_codec_outcome tls_codec_opaque_u16_locate(const uint8_t *bytes, size_t length, tls_codec_span *content) {
  tls_codec_span found;
  tls_codec_outcome outcome = tls_codec_whole(tls_codec_opaque_u16_locate_prefix(bytes, length, &found), length);
  if (outcome.status == TLS_CODEC_ACCEPTED) *content = found;
  return outcome;
}

/* `opaque content<0..2^24-1>`, and where its content is, if the bytes begin with one. */
tls_codec_outcome tls_codec_opaque_u24_locate_prefix(const uint8_t *bytes, size_t length, tls_codec_span *content);

/* `opaque content<0..2^24-1>`, and where its content is, if the bytes are one, with nothing after
   it. */
static inline tls_codec_outcome tls_codec_opaque_u24_locate(const uint8_t *bytes, size_t length, tls_codec_span *content) {
  tls_codec_span found;
  tls_codec_outcome outcome = tls_codec_whole(tls_codec_opaque_u24_locate_prefix(bytes, length, &found), length);
  if (outcome.status == TLS_CODEC_ACCEPTED) *content = found;
  return outcome;
}

#ifdef __cplusplus
}
#endif

/* The number that a field of 2 bytes has, a `uint16`. The bytes have to be there. */
static inline uint16_t tls_codec_u16(const uint8_t *bytes) {
  return (uint16_t)(bytes[0] << 8 | bytes[1]);
}

/* Of 3 bytes, a `uint24`. */
static inline uint32_t tls_codec_u24(const uint8_t *bytes) {
  return (uint32_t)bytes[0] << 16 | tls_codec_u16(bytes + 1);
}

/* Of 4 bytes, a `uint32`, such as `leaf_index`. */
static inline uint32_t tls_codec_u32(const uint8_t *bytes) {
  return (uint32_t)tls_codec_u16(bytes) << 16 | tls_codec_u16(bytes + 2);
}

/* Of 8 bytes, a `uint64`, such as `epoch`. */
static inline uint64_t tls_codec_u64(const uint8_t *bytes) {
  return (uint64_t)tls_codec_u32(bytes) << 32 | tls_codec_u32(bytes + 4);
}

/* The value of a variable-length integer that `tls_codec_varint_validate_prefix` accepts: 1, 2, 4 or
   8 bytes. */
static inline uint64_t tls_codec_varint_value(const uint8_t *bytes) {
  switch (bytes[0] >> 6) {
  case 0: return bytes[0];
  case 1: return tls_codec_u16(bytes) & 0x3fff;
  case 2: return tls_codec_u32(bytes) & 0x3fffffff;
  default: return tls_codec_u64(bytes) & 0x3fffffffffffffff;
  }
}

#endif
