/* Written by tools/check_exports.py from crates/mls_c/src. Don't edit. */
#ifndef TLS_CODEC_MLS_H
#define TLS_CODEC_MLS_H

/* Messages of MLS, without allocation: validates them, locates their fields, takes the elements of
   lists one by one, reads a message's wire format, and writes what is signed of it. What holds for
   each call is in outcome.h. */

#include "outcome.h"

#ifdef __cplusplus
extern "C" {
#endif

/* The numbers of WireFormat that have names. */
enum mls_wire_format {
  MLS_WIRE_FORMAT_PUBLIC_MESSAGE = 1,
  MLS_WIRE_FORMAT_PRIVATE_MESSAGE = 2,
  MLS_WIRE_FORMAT_WELCOME = 3,
  MLS_WIRE_FORMAT_GROUP_INFO = 4,
  MLS_WIRE_FORMAT_KEY_PACKAGE = 5
};

/* The numbers of SenderType that have names. */
enum mls_sender_type {
  MLS_SENDER_TYPE_MEMBER = 1,
  MLS_SENDER_TYPE_EXTERNAL = 2,
  MLS_SENDER_TYPE_NEW_MEMBER_PROPOSAL = 3,
  MLS_SENDER_TYPE_NEW_MEMBER_COMMIT = 4
};

/* The numbers of ContentType that have names. */
enum mls_content_type {
  MLS_CONTENT_TYPE_APPLICATION = 1,
  MLS_CONTENT_TYPE_PROPOSAL = 2,
  MLS_CONTENT_TYPE_COMMIT = 3
};

/* The numbers of ProposalType that have names. */
enum mls_proposal_type {
  MLS_PROPOSAL_TYPE_ADD = 1,
  MLS_PROPOSAL_TYPE_UPDATE = 2,
  MLS_PROPOSAL_TYPE_REMOVE = 3,
  MLS_PROPOSAL_TYPE_PSK = 4,
  MLS_PROPOSAL_TYPE_REINIT = 5,
  MLS_PROPOSAL_TYPE_EXTERNAL_INIT = 6,
  MLS_PROPOSAL_TYPE_GROUP_CONTEXT_EXTENSIONS = 7
};

/* The numbers of ProposalOrRefType that have names. */
enum mls_proposal_or_ref_type {
  MLS_PROPOSAL_OR_REF_TYPE_PROPOSAL = 1,
  MLS_PROPOSAL_OR_REF_TYPE_REFERENCE = 2
};

/* The numbers of LeafNodeSource that have names. */
enum mls_leaf_node_source {
  MLS_LEAF_NODE_SOURCE_KEY_PACKAGE = 1,
  MLS_LEAF_NODE_SOURCE_UPDATE = 2,
  MLS_LEAF_NODE_SOURCE_COMMIT = 3
};

/* The numbers of CredentialType that have names. */
enum mls_credential_type {
  MLS_CREDENTIAL_TYPE_BASIC = 1,
  MLS_CREDENTIAL_TYPE_X509 = 2
};

/* The numbers of ExtensionType that have names. */
enum mls_extension_type {
  MLS_EXTENSION_TYPE_APPLICATION_ID = 1,
  MLS_EXTENSION_TYPE_RATCHET_TREE = 2,
  MLS_EXTENSION_TYPE_REQUIRED_CAPABILITIES = 3,
  MLS_EXTENSION_TYPE_EXTERNAL_PUB = 4,
  MLS_EXTENSION_TYPE_EXTERNAL_SENDERS = 5
};

/* The numbers of CipherSuite that have names. */
enum mls_cipher_suite {
  MLS_CIPHER_SUITE_MLS_128_DHKEMX25519_AES128GCM_SHA256_ED25519 = 1,
  MLS_CIPHER_SUITE_MLS_128_DHKEMP256_AES128GCM_SHA256_P256 = 2,
  MLS_CIPHER_SUITE_MLS_128_DHKEMX25519_CHACHA20POLY1305_SHA256_ED25519 = 3,
  MLS_CIPHER_SUITE_MLS_256_DHKEMX448_AES256GCM_SHA512_ED448 = 4,
  MLS_CIPHER_SUITE_MLS_256_DHKEMP521_AES256GCM_SHA512_P521 = 5,
  MLS_CIPHER_SUITE_MLS_256_DHKEMX448_CHACHA20POLY1305_SHA512_ED448 = 6,
  MLS_CIPHER_SUITE_MLS_256_DHKEMP384_AES256GCM_SHA384_P384 = 7
};

/* The numbers of ProtocolVersion that have names. */
enum mls_protocol_version {
  MLS_PROTOCOL_VERSION_MLS10 = 1
};

/* The numbers of NodeType that have names. */
enum mls_node_type {
  MLS_NODE_TYPE_LEAF = 1,
  MLS_NODE_TYPE_PARENT = 2
};

/* `MLSMessage` (RFC 9420, section 6): whether the bytes begin with one. */
tls_codec_outcome mls_message_validate_prefix(const uint8_t *bytes, size_t length);

/* `MLSMessage` (RFC 9420, section 6): whether the bytes are one, with nothing after it. */
static inline tls_codec_outcome mls_message_validate(const uint8_t *bytes, size_t length) {
  return tls_codec_whole(mls_message_validate_prefix(bytes, length), length);
}

/* `PublicMessage` (RFC 9420, section 6.2): whether the bytes begin with one. */
tls_codec_outcome mls_public_message_validate_prefix(const uint8_t *bytes, size_t length);

/* `PublicMessage` (RFC 9420, section 6.2): whether the bytes are one, with nothing after it. */
static inline tls_codec_outcome mls_public_message_validate(const uint8_t *bytes, size_t length) {
  return tls_codec_whole(mls_public_message_validate_prefix(bytes, length), length);
}

/* `PrivateMessage` (RFC 9420, section 6.3): whether the bytes begin with one. */
tls_codec_outcome mls_private_message_validate_prefix(const uint8_t *bytes, size_t length);

/* `PrivateMessage` (RFC 9420, section 6.3): whether the bytes are one, with nothing after it. */
static inline tls_codec_outcome mls_private_message_validate(const uint8_t *bytes, size_t length) {
  return tls_codec_whole(mls_private_message_validate_prefix(bytes, length), length);
}

/* `FramedContent` (RFC 9420, section 6): whether the bytes begin with one. */
tls_codec_outcome mls_framed_content_validate_prefix(const uint8_t *bytes, size_t length);

/* `FramedContent` (RFC 9420, section 6): whether the bytes are one, with nothing after it. */
static inline tls_codec_outcome mls_framed_content_validate(const uint8_t *bytes, size_t length) {
  return tls_codec_whole(mls_framed_content_validate_prefix(bytes, length), length);
}

/* `SenderData` (RFC 9420, section 6.3.2): whether the bytes begin with one. */
tls_codec_outcome mls_sender_data_validate_prefix(const uint8_t *bytes, size_t length);

/* `SenderData` (RFC 9420, section 6.3.2): whether the bytes are one, with nothing after it. */
static inline tls_codec_outcome mls_sender_data_validate(const uint8_t *bytes, size_t length) {
  return tls_codec_whole(mls_sender_data_validate_prefix(bytes, length), length);
}

/* `Welcome` (RFC 9420, section 12.4.3.1): whether the bytes begin with one. */
tls_codec_outcome mls_welcome_validate_prefix(const uint8_t *bytes, size_t length);

/* `Welcome` (RFC 9420, section 12.4.3.1): whether the bytes are one, with nothing after it. */
static inline tls_codec_outcome mls_welcome_validate(const uint8_t *bytes, size_t length) {
  return tls_codec_whole(mls_welcome_validate_prefix(bytes, length), length);
}

/* `GroupSecrets` (RFC 9420, section 12.4.3.1): whether the bytes begin with one. */
tls_codec_outcome mls_group_secrets_validate_prefix(const uint8_t *bytes, size_t length);

/* `GroupSecrets` (RFC 9420, section 12.4.3.1): whether the bytes are one, with nothing after it. */
static inline tls_codec_outcome mls_group_secrets_validate(const uint8_t *bytes, size_t length) {
  return tls_codec_whole(mls_group_secrets_validate_prefix(bytes, length), length);
}

/* `GroupInfo` (RFC 9420, section 12.4.3): whether the bytes begin with one. */
tls_codec_outcome mls_group_info_validate_prefix(const uint8_t *bytes, size_t length);

/* `GroupInfo` (RFC 9420, section 12.4.3): whether the bytes are one, with nothing after it. */
static inline tls_codec_outcome mls_group_info_validate(const uint8_t *bytes, size_t length) {
  return tls_codec_whole(mls_group_info_validate_prefix(bytes, length), length);
}

/* `GroupContext` (RFC 9420, section 8.1): whether the bytes begin with one. */
tls_codec_outcome mls_group_context_validate_prefix(const uint8_t *bytes, size_t length);

/* `GroupContext` (RFC 9420, section 8.1): whether the bytes are one, with nothing after it. */
static inline tls_codec_outcome mls_group_context_validate(const uint8_t *bytes, size_t length) {
  return tls_codec_whole(mls_group_context_validate_prefix(bytes, length), length);
}

/* `Commit` (RFC 9420, section 12.4): whether the bytes begin with one. */
tls_codec_outcome mls_commit_validate_prefix(const uint8_t *bytes, size_t length);

/* `Commit` (RFC 9420, section 12.4): whether the bytes are one, with nothing after it. */
static inline tls_codec_outcome mls_commit_validate(const uint8_t *bytes, size_t length) {
  return tls_codec_whole(mls_commit_validate_prefix(bytes, length), length);
}

/* `Proposal` (RFC 9420, section 12.1): whether the bytes begin with one. */
tls_codec_outcome mls_proposal_validate_prefix(const uint8_t *bytes, size_t length);

/* `Proposal` (RFC 9420, section 12.1): whether the bytes are one, with nothing after it. */
static inline tls_codec_outcome mls_proposal_validate(const uint8_t *bytes, size_t length) {
  return tls_codec_whole(mls_proposal_validate_prefix(bytes, length), length);
}

/* `KeyPackage` (RFC 9420, section 10): whether the bytes begin with one. */
tls_codec_outcome mls_key_package_validate_prefix(const uint8_t *bytes, size_t length);

/* `KeyPackage` (RFC 9420, section 10): whether the bytes are one, with nothing after it. */
static inline tls_codec_outcome mls_key_package_validate(const uint8_t *bytes, size_t length) {
  return tls_codec_whole(mls_key_package_validate_prefix(bytes, length), length);
}

/* `LeafNode` (RFC 9420, section 7.2): whether the bytes begin with one. */
tls_codec_outcome mls_leaf_node_validate_prefix(const uint8_t *bytes, size_t length);

/* `LeafNode` (RFC 9420, section 7.2): whether the bytes are one, with nothing after it. */
static inline tls_codec_outcome mls_leaf_node_validate(const uint8_t *bytes, size_t length) {
  return tls_codec_whole(mls_leaf_node_validate_prefix(bytes, length), length);
}

/* `RatchetTree` (RFC 9420, section 12.4.3.3): whether the bytes begin with one. */
tls_codec_outcome mls_ratchet_tree_validate_prefix(const uint8_t *bytes, size_t length);

/* `RatchetTree` (RFC 9420, section 12.4.3.3): whether the bytes are one, with nothing after it. */
static inline tls_codec_outcome mls_ratchet_tree_validate(const uint8_t *bytes, size_t length) {
  return tls_codec_whole(mls_ratchet_tree_validate_prefix(bytes, length), length);
}

/* Where the fields of an `MLSMessage` are (RFC 9420, section 6). */
typedef struct mls_message_fields {
  /* `ProtocolVersion version = mls10;` */
  tls_codec_span version;
  /* `WireFormat wire_format;` */
  tls_codec_span wire_format;
  /* The message after it, in the form that `wire_format` says */
  tls_codec_span body;
} mls_message_fields;

/* `MLSMessage` (RFC 9420, section 6), and where its fields are, if the bytes begin with one. */
tls_codec_outcome mls_message_locate_prefix(const uint8_t *bytes, size_t length, mls_message_fields *fields);

/* `MLSMessage` (RFC 9420, section 6), and where its fields are, if the bytes are one, with nothing
   after it. */
static inline tls_codec_outcome mls_message_locate(const uint8_t *bytes, size_t length, mls_message_fields *fields) {
  mls_message_fields found;
  tls_codec_outcome outcome = tls_codec_whole(mls_message_locate_prefix(bytes, length, &found), length);
  if (outcome.status == TLS_CODEC_ACCEPTED) *fields = found;
  return outcome;
}

/* Where the fields of a `PublicMessage` are (RFC 9420, section 6.2). */
typedef struct mls_public_message_fields {
  /* `FramedContent content;` */
  tls_codec_span content;
  /* `FramedContentAuthData auth;`: `opaque signature<V>` with its length, then of a commit its `MAC
     confirmation_tag` with its length */
  tls_codec_span auth;
  /* `MAC membership_tag;` with its length; no bytes if the sender is no member */
  tls_codec_span membership_tag;
} mls_public_message_fields;

/* `PublicMessage` (RFC 9420, section 6.2), and where its fields are, if the bytes begin with one. */
tls_codec_outcome mls_public_message_locate_prefix(const uint8_t *bytes, size_t length, mls_public_message_fields *fields);

/* `PublicMessage` (RFC 9420, section 6.2), and where its fields are, if the bytes are one, with
   nothing after it. */
static inline tls_codec_outcome mls_public_message_locate(const uint8_t *bytes, size_t length, mls_public_message_fields *fields) {
  mls_public_message_fields found;
  tls_codec_outcome outcome = tls_codec_whole(mls_public_message_locate_prefix(bytes, length, &found), length);
  if (outcome.status == TLS_CODEC_ACCEPTED) *fields = found;
  return outcome;
}

/* Where the fields of a `PrivateMessage` are (RFC 9420, section 6.3). A span of `opaque` has the
   bytes without their length. */
typedef struct mls_private_message_fields {
  /* `opaque group_id<V>;` */
  tls_codec_span group_id;
  /* `uint64 epoch;` */
  tls_codec_span epoch;
  /* `ContentType content_type;` */
  tls_codec_span content_type;
  /* `opaque authenticated_data<V>;` */
  tls_codec_span authenticated_data;
  /* `opaque encrypted_sender_data<V>;` */
  tls_codec_span encrypted_sender_data;
  /* `opaque ciphertext<V>;` */
  tls_codec_span ciphertext;
} mls_private_message_fields;

/* `PrivateMessage` (RFC 9420, section 6.3), and where its fields are, if the bytes begin with one. */
tls_codec_outcome mls_private_message_locate_prefix(const uint8_t *bytes, size_t length, mls_private_message_fields *fields);

/* `PrivateMessage` (RFC 9420, section 6.3), and where its fields are, if the bytes are one, with
   nothing after it. */
static inline tls_codec_outcome mls_private_message_locate(const uint8_t *bytes, size_t length, mls_private_message_fields *fields) {
  mls_private_message_fields found;
  tls_codec_outcome outcome = tls_codec_whole(mls_private_message_locate_prefix(bytes, length, &found), length);
  if (outcome.status == TLS_CODEC_ACCEPTED) *fields = found;
  return outcome;
}

/* Where the fields of a `FramedContent` are (RFC 9420, section 6). A span of `opaque` has the bytes
   without their length. */
typedef struct mls_framed_content_fields {
  /* `opaque group_id<V>;` */
  tls_codec_span group_id;
  /* `uint64 epoch;` */
  tls_codec_span epoch;
  /* `Sender sender;`: a byte of `SenderType`, then of a member or an external sender its index, a
     uint32 */
  tls_codec_span sender;
  /* `opaque authenticated_data<V>;` */
  tls_codec_span authenticated_data;
  /* `ContentType content_type;` */
  tls_codec_span content_type;
  /* What its case has: `application_data` with its length, a `Proposal` or a `Commit` */
  tls_codec_span body;
} mls_framed_content_fields;

/* `FramedContent` (RFC 9420, section 6), with which a `PublicMessage` begins, and where its fields
   are, if the bytes begin with one. */
tls_codec_outcome mls_framed_content_locate_prefix(const uint8_t *bytes, size_t length, mls_framed_content_fields *fields);

/* `FramedContent` (RFC 9420, section 6), with which a `PublicMessage` begins, and where its fields
   are, if the bytes are one, with nothing after it. */
static inline tls_codec_outcome mls_framed_content_locate(const uint8_t *bytes, size_t length, mls_framed_content_fields *fields) {
  mls_framed_content_fields found;
  tls_codec_outcome outcome = tls_codec_whole(mls_framed_content_locate_prefix(bytes, length, &found), length);
  if (outcome.status == TLS_CODEC_ACCEPTED) *fields = found;
  return outcome;
}

/* Where the fields of a `SenderData` are (RFC 9420, section 6.3.2). */
typedef struct mls_sender_data_fields {
  /* `uint32 leaf_index;` */
  tls_codec_span leaf_index;
  /* `uint32 generation;` */
  tls_codec_span generation;
  /* `opaque reuse_guard[4];` */
  tls_codec_span reuse_guard;
} mls_sender_data_fields;

/* `SenderData` (RFC 9420, section 6.3.2), and where its fields are, if the bytes begin with one. */
tls_codec_outcome mls_sender_data_locate_prefix(const uint8_t *bytes, size_t length, mls_sender_data_fields *fields);

/* `SenderData` (RFC 9420, section 6.3.2), and where its fields are, if the bytes are one, with
   nothing after it. */
static inline tls_codec_outcome mls_sender_data_locate(const uint8_t *bytes, size_t length, mls_sender_data_fields *fields) {
  mls_sender_data_fields found;
  tls_codec_outcome outcome = tls_codec_whole(mls_sender_data_locate_prefix(bytes, length, &found), length);
  if (outcome.status == TLS_CODEC_ACCEPTED) *fields = found;
  return outcome;
}

/* Where the fields of a `KeyPackage` are (RFC 9420, section 10). A span of `opaque` has the bytes
   without their length. */
typedef struct mls_key_package_fields {
  /* `ProtocolVersion version;` */
  tls_codec_span version;
  /* `CipherSuite cipher_suite;` */
  tls_codec_span cipher_suite;
  /* `HPKEPublicKey init_key;` without its length */
  tls_codec_span init_key;
  /* `LeafNode leaf_node;` */
  tls_codec_span leaf_node;
  /* `Extension extensions<V>;` with its length */
  tls_codec_span extensions;
  /* `opaque signature<V>;` */
  tls_codec_span signature;
} mls_key_package_fields;

/* `KeyPackage` (RFC 9420, section 10), and where its fields are, if the bytes begin with one. */
tls_codec_outcome mls_key_package_locate_prefix(const uint8_t *bytes, size_t length, mls_key_package_fields *fields);

/* `KeyPackage` (RFC 9420, section 10), and where its fields are, if the bytes are one, with nothing
   after it. */
static inline tls_codec_outcome mls_key_package_locate(const uint8_t *bytes, size_t length, mls_key_package_fields *fields) {
  mls_key_package_fields found;
  tls_codec_outcome outcome = tls_codec_whole(mls_key_package_locate_prefix(bytes, length, &found), length);
  if (outcome.status == TLS_CODEC_ACCEPTED) *fields = found;
  return outcome;
}

/* Where the fields of a `LeafNode` are (RFC 9420, section 7.2). A span of `opaque` has the bytes
   without their length. */
typedef struct mls_leaf_node_fields {
  /* `HPKEPublicKey encryption_key;` without its length */
  tls_codec_span encryption_key;
  /* `SignaturePublicKey signature_key;` without its length */
  tls_codec_span signature_key;
  /* `Credential credential;` */
  tls_codec_span credential;
  /* `Capabilities capabilities;` */
  tls_codec_span capabilities;
  /* `LeafNodeSource leaf_node_source;` */
  tls_codec_span leaf_node_source;
  /* What its case has: a `Lifetime`, nothing, or a `parent_hash` with its length */
  tls_codec_span origin;
  /* `Extension extensions<V>;` with its length */
  tls_codec_span extensions;
  /* `opaque signature<V>;` */
  tls_codec_span signature;
} mls_leaf_node_fields;

/* `LeafNode` (RFC 9420, section 7.2), and where its fields are, if the bytes begin with one. */
tls_codec_outcome mls_leaf_node_locate_prefix(const uint8_t *bytes, size_t length, mls_leaf_node_fields *fields);

/* `LeafNode` (RFC 9420, section 7.2), and where its fields are, if the bytes are one, with nothing
   after it. */
static inline tls_codec_outcome mls_leaf_node_locate(const uint8_t *bytes, size_t length, mls_leaf_node_fields *fields) {
  mls_leaf_node_fields found;
  tls_codec_outcome outcome = tls_codec_whole(mls_leaf_node_locate_prefix(bytes, length, &found), length);
  if (outcome.status == TLS_CODEC_ACCEPTED) *fields = found;
  return outcome;
}

/* Where the fields of a `Welcome` are (RFC 9420, section 12.4.3.1). A span of `opaque` has the
   bytes without their length. */
typedef struct mls_welcome_fields {
  /* `CipherSuite cipher_suite;` */
  tls_codec_span cipher_suite;
  /* `EncryptedGroupSecrets secrets<V>;` with its length */
  tls_codec_span secrets;
  /* `opaque encrypted_group_info<V>;` */
  tls_codec_span encrypted_group_info;
} mls_welcome_fields;

/* `Welcome` (RFC 9420, section 12.4.3.1), and where its fields are, if the bytes begin with one. */
tls_codec_outcome mls_welcome_locate_prefix(const uint8_t *bytes, size_t length, mls_welcome_fields *fields);

/* `Welcome` (RFC 9420, section 12.4.3.1), and where its fields are, if the bytes are one, with
   nothing after it. */
static inline tls_codec_outcome mls_welcome_locate(const uint8_t *bytes, size_t length, mls_welcome_fields *fields) {
  mls_welcome_fields found;
  tls_codec_outcome outcome = tls_codec_whole(mls_welcome_locate_prefix(bytes, length, &found), length);
  if (outcome.status == TLS_CODEC_ACCEPTED) *fields = found;
  return outcome;
}

/* Where the fields of a `GroupSecrets` are (RFC 9420, section 12.4.3.1). A span of `opaque` has the
   bytes without their length. */
typedef struct mls_group_secrets_fields {
  /* `opaque joiner_secret<V>;` */
  tls_codec_span joiner_secret;
  /* `optional<PathSecret> path_secret;`: a byte 0, or a byte 1 and the `PathSecret` */
  tls_codec_span path_secret;
  /* `PreSharedKeyID psks<V>;` with its length */
  tls_codec_span psks;
} mls_group_secrets_fields;

/* `GroupSecrets` (RFC 9420, section 12.4.3.1), and where its fields are, if the bytes begin with
   one. */
tls_codec_outcome mls_group_secrets_locate_prefix(const uint8_t *bytes, size_t length, mls_group_secrets_fields *fields);

/* `GroupSecrets` (RFC 9420, section 12.4.3.1), and where its fields are, if the bytes are one, with
   nothing after it. */
static inline tls_codec_outcome mls_group_secrets_locate(const uint8_t *bytes, size_t length, mls_group_secrets_fields *fields) {
  mls_group_secrets_fields found;
  tls_codec_outcome outcome = tls_codec_whole(mls_group_secrets_locate_prefix(bytes, length, &found), length);
  if (outcome.status == TLS_CODEC_ACCEPTED) *fields = found;
  return outcome;
}

/* Where the fields of a `GroupInfo` are (RFC 9420, section 12.4.3). A span of `opaque` has the
   bytes without their length. */
typedef struct mls_group_info_fields {
  /* `GroupContext group_context;` */
  tls_codec_span group_context;
  /* `Extension extensions<V>;` with its length */
  tls_codec_span extensions;
  /* `MAC confirmation_tag;` without its length */
  tls_codec_span confirmation_tag;
  /* `uint32 signer;` */
  tls_codec_span signer;
  /* `opaque signature<V>;` */
  tls_codec_span signature;
} mls_group_info_fields;

/* `GroupInfo` (RFC 9420, section 12.4.3), and where its fields are, if the bytes begin with one. */
tls_codec_outcome mls_group_info_locate_prefix(const uint8_t *bytes, size_t length, mls_group_info_fields *fields);

/* `GroupInfo` (RFC 9420, section 12.4.3), and where its fields are, if the bytes are one, with
   nothing after it. */
static inline tls_codec_outcome mls_group_info_locate(const uint8_t *bytes, size_t length, mls_group_info_fields *fields) {
  mls_group_info_fields found;
  tls_codec_outcome outcome = tls_codec_whole(mls_group_info_locate_prefix(bytes, length, &found), length);
  if (outcome.status == TLS_CODEC_ACCEPTED) *fields = found;
  return outcome;
}

/* Where the fields of a `GroupContext` are (RFC 9420, section 8.1). A span of `opaque` has the
   bytes without their length. */
typedef struct mls_group_context_fields {
  /* `ProtocolVersion version = mls10;` */
  tls_codec_span version;
  /* `CipherSuite cipher_suite;` */
  tls_codec_span cipher_suite;
  /* `opaque group_id<V>;` */
  tls_codec_span group_id;
  /* `uint64 epoch;` */
  tls_codec_span epoch;
  /* `opaque tree_hash<V>;` */
  tls_codec_span tree_hash;
  /* `opaque confirmed_transcript_hash<V>;` */
  tls_codec_span confirmed_transcript_hash;
  /* `Extension extensions<V>;` with its length */
  tls_codec_span extensions;
} mls_group_context_fields;

/* `GroupContext` (RFC 9420, section 8.1), and where its fields are, if the bytes begin with one. */
tls_codec_outcome mls_group_context_locate_prefix(const uint8_t *bytes, size_t length, mls_group_context_fields *fields);

/* `GroupContext` (RFC 9420, section 8.1), and where its fields are, if the bytes are one, with
   nothing after it. */
static inline tls_codec_outcome mls_group_context_locate(const uint8_t *bytes, size_t length, mls_group_context_fields *fields) {
  mls_group_context_fields found;
  tls_codec_outcome outcome = tls_codec_whole(mls_group_context_locate_prefix(bytes, length, &found), length);
  if (outcome.status == TLS_CODEC_ACCEPTED) *fields = found;
  return outcome;
}

/* Where the fields of a `Commit` are (RFC 9420, section 12.4). */
typedef struct mls_commit_fields {
  /* `ProposalOrRef proposals<V>;` with its length */
  tls_codec_span proposals;
  /* `optional<UpdatePath> path;`: a byte 0, or a byte 1 and the `UpdatePath` */
  tls_codec_span path;
} mls_commit_fields;

/* `Commit` (RFC 9420, section 12.4), and where its fields are, if the bytes begin with one. */
tls_codec_outcome mls_commit_locate_prefix(const uint8_t *bytes, size_t length, mls_commit_fields *fields);

/* `Commit` (RFC 9420, section 12.4), and where its fields are, if the bytes are one, with nothing
   after it. */
static inline tls_codec_outcome mls_commit_locate(const uint8_t *bytes, size_t length, mls_commit_fields *fields) {
  mls_commit_fields found;
  tls_codec_outcome outcome = tls_codec_whole(mls_commit_locate_prefix(bytes, length, &found), length);
  if (outcome.status == TLS_CODEC_ACCEPTED) *fields = found;
  return outcome;
}

/* Where the fields of a `Proposal` are (RFC 9420, section 12.1). */
typedef struct mls_proposal_fields {
  /* `ProposalType proposal_type;` */
  tls_codec_span proposal_type;
  /* What its case has: an `Add`, an `Update`, .. */
  tls_codec_span body;
} mls_proposal_fields;

/* `Proposal` (RFC 9420, section 12.1), and where its fields are, if the bytes begin with one. */
tls_codec_outcome mls_proposal_locate_prefix(const uint8_t *bytes, size_t length, mls_proposal_fields *fields);

/* `Proposal` (RFC 9420, section 12.1), and where its fields are, if the bytes are one, with nothing
   after it. */
static inline tls_codec_outcome mls_proposal_locate(const uint8_t *bytes, size_t length, mls_proposal_fields *fields) {
  mls_proposal_fields found;
  tls_codec_outcome outcome = tls_codec_whole(mls_proposal_locate_prefix(bytes, length, &found), length);
  if (outcome.status == TLS_CODEC_ACCEPTED) *fields = found;
  return outcome;
}

/* The elements of a list. `*left` is the place in `bytes` of the elements that are left: at first
   offset 0 and size `length`, if `bytes` are the list without its length. If the first of them is
   accepted, its place is put into `*element`, and `*left` begins after it and ends where it ended.
   If it is rejected, neither changes, and `at` counts from the first byte of `*left`. Go on until
   `left->size` is 0. Only those bytes of `*left` are read that are in `bytes`, as if it ended where
   they end. If there are none, as when `left->size` is 0, the status is `TLS_CODEC_END_OF_STREAM`. */

/* `Extension` (RFC 9420, section 7.2): the next one of a list. */
tls_codec_outcome mls_extension_next(const uint8_t *bytes, size_t length, tls_codec_span *left, tls_codec_span *element);

/* `optional<Node>` of a `RatchetTree` (RFC 9420, section 12.4.3.3): the next one of a list. */
tls_codec_outcome mls_optional_node_next(const uint8_t *bytes, size_t length, tls_codec_span *left, tls_codec_span *element);

/* `ProposalOrRef` of a `Commit` (RFC 9420, section 12.4): the next one of a list. */
tls_codec_outcome mls_proposal_or_ref_next(const uint8_t *bytes, size_t length, tls_codec_span *left, tls_codec_span *element);

/* `EncryptedGroupSecrets` of a `Welcome` (RFC 9420, section 12.4.3.1): the next one of a list. */
tls_codec_outcome mls_encrypted_group_secrets_next(const uint8_t *bytes, size_t length, tls_codec_span *left, tls_codec_span *element);

/* `MLSMessage` (RFC 9420, section 6), and its `WireFormat`, if the bytes begin with one: 1 is a
   public message, 2 a private message, 3 a welcome, 4 a group info, 5 a key package. */
tls_codec_outcome mls_message_wire_format_prefix(const uint8_t *bytes, size_t length, uint16_t *wire_format);

/* `MLSMessage` (RFC 9420, section 6), and its `WireFormat`, if the bytes are one, with nothing
   after it: 1 is a public message, 2 a private message, 3 a welcome, 4 a group info, 5 a key
   package. */
static inline tls_codec_outcome mls_message_wire_format(const uint8_t *bytes, size_t length, uint16_t *wire_format) {
  uint16_t found;
  tls_codec_outcome outcome = tls_codec_whole(mls_message_wire_format_prefix(bytes, length, &found), length);
  if (outcome.status == TLS_CODEC_ACCEPTED) *wire_format = found;
  return outcome;
}

/* `FramedContentTBS` (RFC 9420, section 6.1): writes into `out` what `SignWithLabel` (section
   5.1.2) signs of a message, under the label `FramedContentTBS`: the version, the wire format, the
   encoding of a `FramedContent`, and that of a `GroupContext` if the sender is a member or a new
   member that commits; else `context` is empty. Any wire format is written; a public message has 1,
   a private message 2. The result is that of validation for the written bytes, and `at` counts from
   the first of them. Use them only if all of them are accepted: a context that isn't signed would
   be left over. They are written even if they are rejected. If `out` has too little room, nothing
   is written: `TLS_CODEC_INVALID_WRITE_LENGTH`. `out_length` has to be at least 4 +
   `content_length` + `context_length`, the number of bytes that are written. Status 0 says that the
   first `taken` of them are a `FramedContentTBS`, not that `content` ends where you say: validate
   both parts before, or take them from `NAME_locate`. `out` must not overlap `content` or
   `context`; an empty `context` may be NULL. */
tls_codec_outcome mls_framed_content_tbs_encode(uint16_t wire_format, const uint8_t *content, size_t content_length, const uint8_t *context, size_t context_length, uint8_t *out, size_t out_length);

#ifdef __cplusplus
}
#endif

#endif
