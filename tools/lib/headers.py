"""What the headers of C have beside the declarations. exports_c.py puts it into them."""
from __future__ import annotations

# At the top of outcome.h.
CONTRACT = """\
/* What holds for each call of these headers (docs/CALLERS.md says what of it is proved):

   - `bytes` has `length` bytes, below 2^63, and may be NULL if `length` is 0. The same holds for each
     other pointer to `const uint8_t` and its length. Nothing changes the bytes during the call.
   - A pointer that is to be filled must not be NULL. What it points to must not overlap the bytes,
     nor anything else that the call is given.
   - If the status isn't 0, nothing is filled. The exception is `NAME_encode`, which writes its buffer
     even if it then rejects what it wrote; a buffer that is too small is unchanged.
   - No call keeps a pointer, leaves anything to free, or has state: calls may run in any thread.
     Only `NAME_decode_check` and `NAME_decode_check_prefix` allocate.
   - A call with `_prefix` in its name accepts bytes that come after the message, and `taken` says
     where they begin. The call of the same name without `_prefix` needs all of the bytes. */
""".split("\n")

# Of an outcome.
WHOLE_OUTCOME = """\
/* The outcome if all of the bytes are to be used: if the encoding is accepted and bytes come after
   it, the status is `TLS_CODEC_TRAILING_DATA`, `taken` is 0, and `at` is where they begin, from
   where the call's own `at` counts. `length` is what the call was given; after `NAME_encode` it is
   the number of bytes that were written. It isn't for `NAME_next`, which takes one element. */
static inline tls_codec_outcome tls_codec_whole(tls_codec_outcome outcome, size_t length) {
  if (outcome.status == TLS_CODEC_ACCEPTED && outcome.taken != length) {
    outcome.status = TLS_CODEC_TRAILING_DATA;
    outcome.at = outcome.taken;
    outcome.taken = 0;
  }
  return outcome;
}

/* The status of that outcome: 0, `TLS_CODEC_ACCEPTED`, if all of the bytes are used. */
static inline uint32_t tls_codec_whole_status(tls_codec_outcome outcome, size_t length) {
  return tls_codec_whole(outcome, length).status;
}
""".split("\n")

# Before the calls that take one element of a list after another.
LISTS = (
    "The elements of a list. `*left` is the place in `bytes` of the elements that are left: at first offset 0 and size `length`, if `bytes`"
    " are the list without its length. If the first of them is accepted, its place is put into `*element`, and `*left` begins after it and"
    " ends where it ended. If it is rejected, neither changes, and `at` counts from the first byte of `*left`. Go on until `left->size`"
    " is 0. Only those bytes of `*left` are read that are in `bytes`, as if it ended where they end. If there are none, as when"
    " `left->size` is 0, the status is `TLS_CODEC_END_OF_STREAM`."
)

# At the end of lengths.h.
READERS = """\
/* The number that a field of 2 bytes has, a `uint16`. The bytes have to be there. */
static inline uint16_t tls_codec_u16(const uint8_t *bytes) {
  return (uint16_t)(bytes[0] << 8 | bytes[1]);
}

/* Of 3 bytes, a `uint24`. */
static inline uint32_t tls_codec_u24(const uint8_t *bytes) {
  return (uint32_t)bytes[0] << 16 | tls_codec_u16(bytes + 1);
}

/* Of 4 bytes, a `uint32`, such as `leaf_index`. */
static inline uint32_t tls_codec_u32(const uint8_t *bytes) {
  return (uint32_t)tls_codec_u16(bytes) << 16 | tls_codec_u16(bytes + 2);
}

/* Of 8 bytes, a `uint64`, such as `epoch`. */
static inline uint64_t tls_codec_u64(const uint8_t *bytes) {
  return (uint64_t)tls_codec_u32(bytes) << 32 | tls_codec_u32(bytes + 4);
}

/* The value of a variable-length integer that `tls_codec_varint_validate_prefix` accepts: 1, 2, 4 or
   8 bytes. */
static inline uint64_t tls_codec_varint_value(const uint8_t *bytes) {
  switch (bytes[0] >> 6) {
  case 0: return bytes[0];
  case 1: return tls_codec_u16(bytes) & 0x3fff;
  case 2: return tls_codec_u32(bytes) & 0x3fffffff;
  default: return tls_codec_u64(bytes) & 0x3fffffffffffffff;
  }
}""".split("\n")
