/* Written by tools/check_exports.py from crates/mls_decode_c/src. Don't edit. */
#ifndef TLS_CODEC_MLS_DECODE_H
#define TLS_CODEC_MLS_DECODE_H

/* Checks whether bytes begin with a message of MLS: its decoder makes the value and drops it.
   `TLS_CODEC_OUT_OF_MEMORY`: memory was refused, and nothing is said about the bytes. The position
   of a rejected field isn't reported: `at` of `NAME_decode_check_prefix` is 0. What holds for each
   call is in outcome.h. */

#include "outcome.h"

#ifdef __cplusplus
extern "C" {
#endif

/* `MLSMessage` (RFC 9420, section 6): whether the bytes begin with one, by the decoder. */
tls_codec_outcome mls_message_decode_check_prefix(const uint8_t *bytes, size_t length);

/* `MLSMessage` (RFC 9420, section 6): whether the bytes are one, with nothing after it, by the
   decoder. */
static inline tls_codec_outcome mls_message_decode_check(const uint8_t *bytes, size_t length) {
  return tls_codec_whole(mls_message_decode_check_prefix(bytes, length), length);
}

/* `PublicMessage` (RFC 9420, section 6.2): whether the bytes begin with one, by the decoder. */
tls_codec_outcome mls_public_message_decode_check_prefix(const uint8_t *bytes, size_t length);

/* `PublicMessage` (RFC 9420, section 6.2): whether the bytes are one, with nothing after it, by the
   decoder. */
static inline tls_codec_outcome mls_public_message_decode_check(const uint8_t *bytes, size_t length) {
  return tls_codec_whole(mls_public_message_decode_check_prefix(bytes, length), length);
}

/* `PrivateMessage` (RFC 9420, section 6.3): whether the bytes begin with one, by the decoder. */
tls_codec_outcome mls_private_message_decode_check_prefix(const uint8_t *bytes, size_t length);

/* `PrivateMessage` (RFC 9420, section 6.3): whether the bytes are one, with nothing after it, by
   the decoder. */
static inline tls_codec_outcome mls_private_message_decode_check(const uint8_t *bytes, size_t length) {
  return tls_codec_whole(mls_private_message_decode_check_prefix(bytes, length), length);
}

/* `FramedContent` (RFC 9420, section 6): whether the bytes begin with one, by the decoder. */
tls_codec_outcome mls_framed_content_decode_check_prefix(const uint8_t *bytes, size_t length);

/* `FramedContent` (RFC 9420, section 6): whether the bytes are one, with nothing after it, by the
   decoder. */
static inline tls_codec_outcome mls_framed_content_decode_check(const uint8_t *bytes, size_t length) {
  return tls_codec_whole(mls_framed_content_decode_check_prefix(bytes, length), length);
}

/* `SenderData` (RFC 9420, section 6.3.2): whether the bytes begin with one, by the decoder. */
tls_codec_outcome mls_sender_data_decode_check_prefix(const uint8_t *bytes, size_t length);

/* `SenderData` (RFC 9420, section 6.3.2): whether the bytes are one, with nothing after it, by the
   decoder. */
static inline tls_codec_outcome mls_sender_data_decode_check(const uint8_t *bytes, size_t length) {
  return tls_codec_whole(mls_sender_data_decode_check_prefix(bytes, length), length);
}

/* `Welcome` (RFC 9420, section 12.4.3.1): whether the bytes begin with one, by the decoder. */
tls_codec_outcome mls_welcome_decode_check_prefix(const uint8_t *bytes, size_t length);

/* `Welcome` (RFC 9420, section 12.4.3.1): whether the bytes are one, with nothing after it, by the
   decoder. */
static inline tls_codec_outcome mls_welcome_decode_check(const uint8_t *bytes, size_t length) {
  return tls_codec_whole(mls_welcome_decode_check_prefix(bytes, length), length);
}

/* `GroupSecrets` (RFC 9420, section 12.4.3.1): whether the bytes begin with one, by the decoder. */
tls_codec_outcome mls_group_secrets_decode_check_prefix(const uint8_t *bytes, size_t length);

/* `GroupSecrets` (RFC 9420, section 12.4.3.1): whether the bytes are one, with nothing after it, by
   the decoder. */
static inline tls_codec_outcome mls_group_secrets_decode_check(const uint8_t *bytes, size_t length) {
  return tls_codec_whole(mls_group_secrets_decode_check_prefix(bytes, length), length);
}

/* `GroupInfo` (RFC 9420, section 12.4.3): whether the bytes begin with one, by the decoder. */
tls_codec_outcome mls_group_info_decode_check_prefix(const uint8_t *bytes, size_t length);

/* `GroupInfo` (RFC 9420, section 12.4.3): whether the bytes are one, with nothing after it, by the
   decoder. */
static inline tls_codec_outcome mls_group_info_decode_check(const uint8_t *bytes, size_t length) {
  return tls_codec_whole(mls_group_info_decode_check_prefix(bytes, length), length);
}

/* `GroupContext` (RFC 9420, section 8.1): whether the bytes begin with one, by the decoder. */
tls_codec_outcome mls_group_context_decode_check_prefix(const uint8_t *bytes, size_t length);

/* `GroupContext` (RFC 9420, section 8.1): whether the bytes are one, with nothing after it, by the
   decoder. */
static inline tls_codec_outcome mls_group_context_decode_check(const uint8_t *bytes, size_t length) {
  return tls_codec_whole(mls_group_context_decode_check_prefix(bytes, length), length);
}

/* `Commit` (RFC 9420, section 12.4): whether the bytes begin with one, by the decoder. */
tls_codec_outcome mls_commit_decode_check_prefix(const uint8_t *bytes, size_t length);

/* `Commit` (RFC 9420, section 12.4): whether the bytes are one, with nothing after it, by the
   decoder. */
static inline tls_codec_outcome mls_commit_decode_check(const uint8_t *bytes, size_t length) {
  return tls_codec_whole(mls_commit_decode_check_prefix(bytes, length), length);
}

/* `Proposal` (RFC 9420, section 12.1): whether the bytes begin with one, by the decoder. */
tls_codec_outcome mls_proposal_decode_check_prefix(const uint8_t *bytes, size_t length);

/* `Proposal` (RFC 9420, section 12.1): whether the bytes are one, with nothing after it, by the
   decoder. */
static inline tls_codec_outcome mls_proposal_decode_check(const uint8_t *bytes, size_t length) {
  return tls_codec_whole(mls_proposal_decode_check_prefix(bytes, length), length);
}

/* `KeyPackage` (RFC 9420, section 10): whether the bytes begin with one, by the decoder. */
tls_codec_outcome mls_key_package_decode_check_prefix(const uint8_t *bytes, size_t length);

/* `KeyPackage` (RFC 9420, section 10): whether the bytes are one, with nothing after it, by the
   decoder. */
static inline tls_codec_outcome mls_key_package_decode_check(const uint8_t *bytes, size_t length) {
  return tls_codec_whole(mls_key_package_decode_check_prefix(bytes, length), length);
}

/* `LeafNode` (RFC 9420, section 7.2): whether the bytes begin with one, by the decoder. */
tls_codec_outcome mls_leaf_node_decode_check_prefix(const uint8_t *bytes, size_t length);

/* `LeafNode` (RFC 9420, section 7.2): whether the bytes are one, with nothing after it, by the
   decoder. */
static inline tls_codec_outcome mls_leaf_node_decode_check(const uint8_t *bytes, size_t length) {
  return tls_codec_whole(mls_leaf_node_decode_check_prefix(bytes, length), length);
}

/* `RatchetTree` (RFC 9420, section 12.4.3.3): whether the bytes begin with one, by the decoder. */
tls_codec_outcome mls_ratchet_tree_decode_check_prefix(const uint8_t *bytes, size_t length);

/* `RatchetTree` (RFC 9420, section 12.4.3.3): whether the bytes are one, with nothing after it, by
   the decoder. */
static inline tls_codec_outcome mls_ratchet_tree_decode_check(const uint8_t *bytes, size_t length) {
  return tls_codec_whole(mls_ratchet_tree_decode_check_prefix(bytes, length), length);
}

#ifdef __cplusplus
}
#endif

#endif
