/* Written by tools/check_exports.py from crates/tls_codec_outcome/src. Don't edit. */
#ifndef TLS_CODEC_OUTCOME_H
#define TLS_CODEC_OUTCOME_H

/* What holds for each call of these headers (docs/CALLERS.md says what of it is proved):

   - `bytes` has `length` bytes, below 2^63, and may be NULL if `length` is 0. The same holds for each
     other pointer to `const uint8_t` and its length. Nothing changes the bytes during the call.
   - A pointer that is to be filled must not be NULL. What it points to must not overlap the bytes,
     nor anything else that the call is given.
   - If the status isn't 0, nothing is filled. The exception is `NAME_encode`, which writes its buffer
     even if it then rejects what it wrote; a buffer that is too small is unchanged.
   - No call keeps a pointer, leaves anything to free, or has state: calls may run in any thread.
     Only `NAME_decode_check` and `NAME_decode_check_prefix` allocate.
   - A call with `_prefix` in its name accepts bytes that come after the message, and `taken` says
     where they begin. The call of the same name without `_prefix` needs all of the bytes. */

#include <stddef.h>
#include <stdint.h>

/* The version of this header, by CHANGELOG.md. */
#define TLS_CODEC_VERSION "0.3.0"

/* 10000 * major + 100 * minor + patch; 0.2.0 had none. */
#define TLS_CODEC_VERSION_NUMBER 300

/* The line that `tls_codec.version` beside archives of just these headers has. */
#define TLS_CODEC_HEADERS "0.3.0 92cded28729147bc"

/* A call's status. The numbers don't change. */
enum tls_codec_status {
  /* The bytes begin with an encoding. */
  TLS_CODEC_ACCEPTED = 0,
  /* No call returns it. */
  TLS_CODEC_ENCODING_ERROR = 1,
  /* A length or a variable-length integer has more bytes than it needs, or is outside the bounds of
     its field. */
  TLS_CODEC_INVALID_VECTOR_LENGTH = 2,
  /* The buffer to write into is too small. */
  TLS_CODEC_INVALID_WRITE_LENGTH = 3,
  /* No call returns it. */
  TLS_CODEC_INVALID_INPUT = 4,
  /* One of three, which aren't told apart: the bytes of an `opaque<V>` aren't all there, while a
     list that isn't all there has the error of the element that is cut off; an element passes the
     end of its list; the byte before an optional field is neither 0 nor 1. */
  TLS_CODEC_DECODING_ERROR = 5,
  /* The bytes, or the body of a Handshake, end before a field does. */
  TLS_CODEC_END_OF_STREAM = 6,
  /* Bytes are left, after the message or, in a Handshake, after its body. */
  TLS_CODEC_TRAILING_DATA = 7,
  /* No case has this number, or a constant has another value. */
  TLS_CODEC_UNKNOWN_VALUE = 8,
  /* No call returns it. */
  TLS_CODEC_LIBRARY_ERROR = 9,
  /* An allocation failed, in a decoder: nothing is said of the bytes. */
  TLS_CODEC_OUT_OF_MEMORY = 10
};

/* A place in some bytes. */
typedef struct tls_codec_span {
  /* Where its first byte is. It counts from the `bytes` of the call that filled it. */
  size_t offset;
  /* How many bytes it has. */
  size_t size;
} tls_codec_span;

/* The result of a call. */
typedef struct tls_codec_outcome {
  /* `TLS_CODEC_ACCEPTED` if the bytes begin with an encoding, and else the number of the error. */
  uint32_t status;
  /* How many bytes the encoding has; 0 if there is none. */
  size_t taken;
  /* The offset of the rejected field's first byte; 0 if the bytes are accepted. It counts from
     `bytes`; of `NAME_next` from the first byte of `*left` before the call, and of `NAME_encode`
     from `out`. It is 0 if `out` is too small, and of each `NAME_decode_check_prefix`. */
  size_t at;
  /* The unknown number, if the error is `TLS_CODEC_UNKNOWN_VALUE`; 0 for other errors. */
  uint64_t detail;
} tls_codec_outcome;

/* The outcome if all of the bytes are to be used: if the encoding is accepted and bytes come after
   it, the status is `TLS_CODEC_TRAILING_DATA`, `taken` is 0, and `at` is where they begin, from
   where the call's own `at` counts. `length` is what the call was given; after `NAME_encode` it is
   the number of bytes that were written. It isn't for `NAME_next`, which takes one element. */
static inline tls_codec_outcome tls_codec_whole(tls_codec_outcome outcome, size_t length) {
  if (outcome.status == TLS_CODEC_ACCEPTED && outcome.taken != length) {
    outcome.status = TLS_CODEC_TRAILING_DATA;
    outcome.at = outcome.taken;
    outcome.taken = 0;
  }
  return outcome;
}

/* The status of that outcome: 0, `TLS_CODEC_ACCEPTED`, if all of the bytes are used. */
static inline uint32_t tls_codec_whole_status(tls_codec_outcome outcome, size_t length) {
  return tls_codec_whole(outcome, length).status;
}

/* The name of a status, as "EndOfStream"; "?" of another number. */
static inline const char *tls_codec_status_name(uint32_t status) {
  switch (status) {
  case TLS_CODEC_ACCEPTED: return "Accepted";
  case TLS_CODEC_ENCODING_ERROR: return "EncodingError";
  case TLS_CODEC_INVALID_VECTOR_LENGTH: return "InvalidVectorLength";
  case TLS_CODEC_INVALID_WRITE_LENGTH: return "InvalidWriteLength";
  case TLS_CODEC_INVALID_INPUT: return "InvalidInput";
  case TLS_CODEC_DECODING_ERROR: return "DecodingError";
  case TLS_CODEC_END_OF_STREAM: return "EndOfStream";
  case TLS_CODEC_TRAILING_DATA: return "TrailingData";
  case TLS_CODEC_UNKNOWN_VALUE: return "UnknownValue";
  case TLS_CODEC_LIBRARY_ERROR: return "LibraryError";
  case TLS_CODEC_OUT_OF_MEMORY: return "OutOfMemory";
  default: return "?";
  }
}

/* A sentence on a status, for a person to read. */
static inline const char *tls_codec_status_sentence(uint32_t status) {
  switch (status) {
  case TLS_CODEC_ACCEPTED: return "The bytes are accepted.";
  case TLS_CODEC_INVALID_VECTOR_LENGTH: return "A length isn't in its shortest form, or isn't allowed for its field.";
  case TLS_CODEC_INVALID_WRITE_LENGTH: return "The buffer to write into is too small.";
  case TLS_CODEC_DECODING_ERROR: return "Content is cut off, an element passes its list's end, or an option doesn't begin with 0 or 1.";
  case TLS_CODEC_END_OF_STREAM: return "The message, or a list in it, ends within a field.";
  case TLS_CODEC_TRAILING_DATA: return "Bytes come after the message, or after a part that was to fill a length.";
  case TLS_CODEC_UNKNOWN_VALUE: return "A number names no case of this message, or isn't the value that a field must have.";
  case TLS_CODEC_OUT_OF_MEMORY: return "Memory ran out.";
  default: return "A status that these declarations don't know.";
  }
}

#endif
