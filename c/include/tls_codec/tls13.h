/* Written by tools/check_exports.py from crates/tls13_c/src. Don't edit. */
#ifndef TLS_CODEC_TLS13_H
#define TLS_CODEC_TLS13_H

/* Messages of TLS 1.3, without allocation: validates them, locates their fields, and takes the
   elements of lists one by one. What holds for each call is in outcome.h. */

#include "outcome.h"

#ifdef __cplusplus
extern "C" {
#endif

/* The numbers of HandshakeType that have names. */
enum tls13_handshake_type {
  TLS13_HANDSHAKE_TYPE_CLIENT_HELLO = 1,
  TLS13_HANDSHAKE_TYPE_SERVER_HELLO = 2,
  TLS13_HANDSHAKE_TYPE_NEW_SESSION_TICKET = 4,
  TLS13_HANDSHAKE_TYPE_END_OF_EARLY_DATA = 5,
  TLS13_HANDSHAKE_TYPE_ENCRYPTED_EXTENSIONS = 8,
  TLS13_HANDSHAKE_TYPE_CERTIFICATE = 11,
  TLS13_HANDSHAKE_TYPE_CERTIFICATE_REQUEST = 13,
  TLS13_HANDSHAKE_TYPE_CERTIFICATE_VERIFY = 15,
  TLS13_HANDSHAKE_TYPE_FINISHED = 20,
  TLS13_HANDSHAKE_TYPE_KEY_UPDATE = 24,
  TLS13_HANDSHAKE_TYPE_MESSAGE_HASH = 254
};

/* The numbers of ContentType that have names. */
enum tls13_content_type {
  TLS13_CONTENT_TYPE_CHANGE_CIPHER_SPEC = 20,
  TLS13_CONTENT_TYPE_ALERT = 21,
  TLS13_CONTENT_TYPE_HANDSHAKE = 22,
  TLS13_CONTENT_TYPE_APPLICATION_DATA = 23,
  TLS13_CONTENT_TYPE_HEARTBEAT = 24
};

/* The numbers of AlertLevel that have names. */
enum tls13_alert_level {
  TLS13_ALERT_LEVEL_WARNING = 1,
  TLS13_ALERT_LEVEL_FATAL = 2
};

/* The numbers of AlertDescription that have names. */
enum tls13_alert_description {
  TLS13_ALERT_DESCRIPTION_CLOSE_NOTIFY = 0,
  TLS13_ALERT_DESCRIPTION_UNEXPECTED_MESSAGE = 10,
  TLS13_ALERT_DESCRIPTION_BAD_RECORD_MAC = 20,
  TLS13_ALERT_DESCRIPTION_RECORD_OVERFLOW = 22,
  TLS13_ALERT_DESCRIPTION_HANDSHAKE_FAILURE = 40,
  TLS13_ALERT_DESCRIPTION_BAD_CERTIFICATE = 42,
  TLS13_ALERT_DESCRIPTION_UNSUPPORTED_CERTIFICATE = 43,
  TLS13_ALERT_DESCRIPTION_CERTIFICATE_REVOKED = 44,
  TLS13_ALERT_DESCRIPTION_CERTIFICATE_EXPIRED = 45,
  TLS13_ALERT_DESCRIPTION_CERTIFICATE_UNKNOWN = 46,
  TLS13_ALERT_DESCRIPTION_ILLEGAL_PARAMETER = 47,
  TLS13_ALERT_DESCRIPTION_UNKNOWN_CA = 48,
  TLS13_ALERT_DESCRIPTION_ACCESS_DENIED = 49,
  TLS13_ALERT_DESCRIPTION_DECODE_ERROR = 50,
  TLS13_ALERT_DESCRIPTION_DECRYPT_ERROR = 51,
  TLS13_ALERT_DESCRIPTION_PROTOCOL_VERSION = 70,
  TLS13_ALERT_DESCRIPTION_INSUFFICIENT_SECURITY = 71,
  TLS13_ALERT_DESCRIPTION_INTERNAL_ERROR = 80,
  TLS13_ALERT_DESCRIPTION_INAPPROPRIATE_FALLBACK = 86,
  TLS13_ALERT_DESCRIPTION_USER_CANCELED = 90,
  TLS13_ALERT_DESCRIPTION_MISSING_EXTENSION = 109,
  TLS13_ALERT_DESCRIPTION_UNSUPPORTED_EXTENSION = 110,
  TLS13_ALERT_DESCRIPTION_UNRECOGNIZED_NAME = 112,
  TLS13_ALERT_DESCRIPTION_BAD_CERTIFICATE_STATUS_RESPONSE = 113,
  TLS13_ALERT_DESCRIPTION_UNKNOWN_PSK_IDENTITY = 115,
  TLS13_ALERT_DESCRIPTION_CERTIFICATE_REQUIRED = 116,
  TLS13_ALERT_DESCRIPTION_NO_APPLICATION_PROTOCOL = 120
};

/* The numbers of ExtensionType that have names. */
enum tls13_extension_type {
  TLS13_EXTENSION_TYPE_SERVER_NAME = 0,
  TLS13_EXTENSION_TYPE_MAX_FRAGMENT_LENGTH = 1,
  TLS13_EXTENSION_TYPE_STATUS_REQUEST = 5,
  TLS13_EXTENSION_TYPE_SUPPORTED_GROUPS = 10,
  TLS13_EXTENSION_TYPE_SIGNATURE_ALGORITHMS = 13,
  TLS13_EXTENSION_TYPE_USE_SRTP = 14,
  TLS13_EXTENSION_TYPE_HEARTBEAT = 15,
  TLS13_EXTENSION_TYPE_APPLICATION_LAYER_PROTOCOL_NEGOTIATION = 16,
  TLS13_EXTENSION_TYPE_SIGNED_CERTIFICATE_TIMESTAMP = 18,
  TLS13_EXTENSION_TYPE_CLIENT_CERTIFICATE_TYPE = 19,
  TLS13_EXTENSION_TYPE_SERVER_CERTIFICATE_TYPE = 20,
  TLS13_EXTENSION_TYPE_PADDING = 21,
  TLS13_EXTENSION_TYPE_PRE_SHARED_KEY = 41,
  TLS13_EXTENSION_TYPE_EARLY_DATA = 42,
  TLS13_EXTENSION_TYPE_SUPPORTED_VERSIONS = 43,
  TLS13_EXTENSION_TYPE_COOKIE = 44,
  TLS13_EXTENSION_TYPE_PSK_KEY_EXCHANGE_MODES = 45,
  TLS13_EXTENSION_TYPE_CERTIFICATE_AUTHORITIES = 47,
  TLS13_EXTENSION_TYPE_OID_FILTERS = 48,
  TLS13_EXTENSION_TYPE_POST_HANDSHAKE_AUTH = 49,
  TLS13_EXTENSION_TYPE_SIGNATURE_ALGORITHMS_CERT = 50,
  TLS13_EXTENSION_TYPE_KEY_SHARE = 51
};

/* The numbers of CipherSuite that have names. */
enum tls13_cipher_suite {
  TLS13_CIPHER_SUITE_TLS_AES_128_GCM_SHA256 = 4865,
  TLS13_CIPHER_SUITE_TLS_AES_256_GCM_SHA384 = 4866,
  TLS13_CIPHER_SUITE_TLS_CHACHA20_POLY1305_SHA256 = 4867,
  TLS13_CIPHER_SUITE_TLS_AES_128_CCM_SHA256 = 4868,
  TLS13_CIPHER_SUITE_TLS_AES_128_CCM_8_SHA256 = 4869
};

/* The numbers of SignatureScheme that have names. */
enum tls13_signature_scheme {
  TLS13_SIGNATURE_SCHEME_RSA_PKCS1_SHA256 = 1025,
  TLS13_SIGNATURE_SCHEME_RSA_PKCS1_SHA384 = 1281,
  TLS13_SIGNATURE_SCHEME_RSA_PKCS1_SHA512 = 1537,
  TLS13_SIGNATURE_SCHEME_ECDSA_SECP256R1_SHA256 = 1027,
  TLS13_SIGNATURE_SCHEME_ECDSA_SECP384R1_SHA384 = 1283,
  TLS13_SIGNATURE_SCHEME_ECDSA_SECP521R1_SHA512 = 1539,
  TLS13_SIGNATURE_SCHEME_RSA_PSS_RSAE_SHA256 = 2052,
  TLS13_SIGNATURE_SCHEME_RSA_PSS_RSAE_SHA384 = 2053,
  TLS13_SIGNATURE_SCHEME_RSA_PSS_RSAE_SHA512 = 2054,
  TLS13_SIGNATURE_SCHEME_ED25519 = 2055,
  TLS13_SIGNATURE_SCHEME_ED448 = 2056,
  TLS13_SIGNATURE_SCHEME_RSA_PSS_PSS_SHA256 = 2057,
  TLS13_SIGNATURE_SCHEME_RSA_PSS_PSS_SHA384 = 2058,
  TLS13_SIGNATURE_SCHEME_RSA_PSS_PSS_SHA512 = 2059,
  TLS13_SIGNATURE_SCHEME_RSA_PKCS1_SHA1 = 513,
  TLS13_SIGNATURE_SCHEME_ECDSA_SHA1 = 515
};

/* The numbers of NamedGroup that have names. */
enum tls13_named_group {
  TLS13_NAMED_GROUP_SECP256R1 = 23,
  TLS13_NAMED_GROUP_SECP384R1 = 24,
  TLS13_NAMED_GROUP_SECP521R1 = 25,
  TLS13_NAMED_GROUP_X25519 = 29,
  TLS13_NAMED_GROUP_X448 = 30,
  TLS13_NAMED_GROUP_FFDHE2048 = 256,
  TLS13_NAMED_GROUP_FFDHE3072 = 257,
  TLS13_NAMED_GROUP_FFDHE4096 = 258,
  TLS13_NAMED_GROUP_FFDHE6144 = 259,
  TLS13_NAMED_GROUP_FFDHE8192 = 260
};

/* The numbers of KeyUpdateRequest that have names. */
enum tls13_key_update_request {
  TLS13_KEY_UPDATE_REQUEST_UPDATE_NOT_REQUESTED = 0,
  TLS13_KEY_UPDATE_REQUEST_UPDATE_REQUESTED = 1
};

/* `TLSPlaintext` (RFC 8446, section 5.1): whether the bytes begin with one. */
tls_codec_outcome tls13_tls_plaintext_validate_prefix(const uint8_t *bytes, size_t length);

/* `TLSPlaintext` (RFC 8446, section 5.1): whether the bytes are one, with nothing after it. */
static inline tls_codec_outcome tls13_tls_plaintext_validate(const uint8_t *bytes, size_t length) {
  return tls_codec_whole(tls13_tls_plaintext_validate_prefix(bytes, length), length);
}

/* `TLSCiphertext` (RFC 8446, section 5.2): whether the bytes begin with one. */
tls_codec_outcome tls13_tls_ciphertext_validate_prefix(const uint8_t *bytes, size_t length);

/* `TLSCiphertext` (RFC 8446, section 5.2): whether the bytes are one, with nothing after it. */
static inline tls_codec_outcome tls13_tls_ciphertext_validate(const uint8_t *bytes, size_t length) {
  return tls_codec_whole(tls13_tls_ciphertext_validate_prefix(bytes, length), length);
}

/* `Alert` (RFC 8446, section 6): whether the bytes begin with one. */
tls_codec_outcome tls13_alert_validate_prefix(const uint8_t *bytes, size_t length);

/* `Alert` (RFC 8446, section 6): whether the bytes are one, with nothing after it. */
static inline tls_codec_outcome tls13_alert_validate(const uint8_t *bytes, size_t length) {
  return tls_codec_whole(tls13_alert_validate_prefix(bytes, length), length);
}

/* `Handshake` (RFC 8446, section 4): whether the bytes begin with one. */
tls_codec_outcome tls13_handshake_validate_prefix(const uint8_t *bytes, size_t length);

/* `Handshake` (RFC 8446, section 4): whether the bytes are one, with nothing after it. */
static inline tls_codec_outcome tls13_handshake_validate(const uint8_t *bytes, size_t length) {
  return tls_codec_whole(tls13_handshake_validate_prefix(bytes, length), length);
}

/* `ClientHello` (RFC 8446, section 4.1.2): whether the bytes begin with one. */
tls_codec_outcome tls13_client_hello_validate_prefix(const uint8_t *bytes, size_t length);

/* `ClientHello` (RFC 8446, section 4.1.2): whether the bytes are one, with nothing after it. */
static inline tls_codec_outcome tls13_client_hello_validate(const uint8_t *bytes, size_t length) {
  return tls_codec_whole(tls13_client_hello_validate_prefix(bytes, length), length);
}

/* `ServerHello` (RFC 8446, section 4.1.3): whether the bytes begin with one. */
tls_codec_outcome tls13_server_hello_validate_prefix(const uint8_t *bytes, size_t length);

/* `ServerHello` (RFC 8446, section 4.1.3): whether the bytes are one, with nothing after it. */
static inline tls_codec_outcome tls13_server_hello_validate(const uint8_t *bytes, size_t length) {
  return tls_codec_whole(tls13_server_hello_validate_prefix(bytes, length), length);
}

/* `EncryptedExtensions` (RFC 8446, section 4.3.1): whether the bytes begin with one. */
tls_codec_outcome tls13_encrypted_extensions_validate_prefix(const uint8_t *bytes, size_t length);

/* `EncryptedExtensions` (RFC 8446, section 4.3.1): whether the bytes are one, with nothing after
   it. */
static inline tls_codec_outcome tls13_encrypted_extensions_validate(const uint8_t *bytes, size_t length) {
  return tls_codec_whole(tls13_encrypted_extensions_validate_prefix(bytes, length), length);
}

/* `CertificateRequest` (RFC 8446, section 4.3.2): whether the bytes begin with one. */
tls_codec_outcome tls13_certificate_request_validate_prefix(const uint8_t *bytes, size_t length);

/* `CertificateRequest` (RFC 8446, section 4.3.2): whether the bytes are one, with nothing after it. */
static inline tls_codec_outcome tls13_certificate_request_validate(const uint8_t *bytes, size_t length) {
  return tls_codec_whole(tls13_certificate_request_validate_prefix(bytes, length), length);
}

/* `Certificate` (RFC 8446, section 4.4.2): whether the bytes begin with one. */
tls_codec_outcome tls13_certificate_validate_prefix(const uint8_t *bytes, size_t length);

/* `Certificate` (RFC 8446, section 4.4.2): whether the bytes are one, with nothing after it. */
static inline tls_codec_outcome tls13_certificate_validate(const uint8_t *bytes, size_t length) {
  return tls_codec_whole(tls13_certificate_validate_prefix(bytes, length), length);
}

/* `CertificateVerify` (RFC 8446, section 4.4.3): whether the bytes begin with one. */
tls_codec_outcome tls13_certificate_verify_validate_prefix(const uint8_t *bytes, size_t length);

/* `CertificateVerify` (RFC 8446, section 4.4.3): whether the bytes are one, with nothing after it. */
static inline tls_codec_outcome tls13_certificate_verify_validate(const uint8_t *bytes, size_t length) {
  return tls_codec_whole(tls13_certificate_verify_validate_prefix(bytes, length), length);
}

/* `NewSessionTicket` (RFC 8446, section 4.6.1): whether the bytes begin with one. */
tls_codec_outcome tls13_new_session_ticket_validate_prefix(const uint8_t *bytes, size_t length);

/* `NewSessionTicket` (RFC 8446, section 4.6.1): whether the bytes are one, with nothing after it. */
static inline tls_codec_outcome tls13_new_session_ticket_validate(const uint8_t *bytes, size_t length) {
  return tls_codec_whole(tls13_new_session_ticket_validate_prefix(bytes, length), length);
}

/* `KeyUpdate` (RFC 8446, section 4.6.3): whether the bytes begin with one. */
tls_codec_outcome tls13_key_update_validate_prefix(const uint8_t *bytes, size_t length);

/* `KeyUpdate` (RFC 8446, section 4.6.3): whether the bytes are one, with nothing after it. */
static inline tls_codec_outcome tls13_key_update_validate(const uint8_t *bytes, size_t length) {
  return tls_codec_whole(tls13_key_update_validate_prefix(bytes, length), length);
}

/* Where the fields of a `Handshake` are (RFC 8446, section 4). */
typedef struct tls13_handshake_fields {
  /* `HandshakeType msg_type;` */
  tls_codec_span msg_type;
  /* What its case has, with its length: a `ClientHello`, a `ServerHello`, ..; the length has three
     bytes */
  tls_codec_span body;
} tls13_handshake_fields;

/* `Handshake` (RFC 8446, section 4), and where its fields are, if the bytes begin with one. */
tls_codec_outcome tls13_handshake_locate_prefix(const uint8_t *bytes, size_t length, tls13_handshake_fields *fields);

/* `Handshake` (RFC 8446, section 4), and where its fields are, if the bytes are one, with nothing
   after it. */
static inline tls_codec_outcome tls13_handshake_locate(const uint8_t *bytes, size_t length, tls13_handshake_fields *fields) {
  tls13_handshake_fields found;
  tls_codec_outcome outcome = tls_codec_whole(tls13_handshake_locate_prefix(bytes, length, &found), length);
  if (outcome.status == TLS_CODEC_ACCEPTED) *fields = found;
  return outcome;
}

/* Where the fields of a `ClientHello` are (RFC 8446, section 4.1.2). A span of `opaque` has the
   bytes without their length. */
typedef struct tls13_client_hello_fields {
  /* `ProtocolVersion legacy_version = 0x0303;` */
  tls_codec_span legacy_version;
  /* `Random random;` */
  tls_codec_span random;
  /* `opaque legacy_session_id<0..32>;` */
  tls_codec_span legacy_session_id;
  /* `CipherSuite cipher_suites<2..2^16-2>;` with its length */
  tls_codec_span cipher_suites;
  /* `opaque legacy_compression_methods<1..2^8-1>;` */
  tls_codec_span legacy_compression_methods;
  /* `Extension extensions<8..2^16-1>;` with its length */
  tls_codec_span extensions;
} tls13_client_hello_fields;

/* `ClientHello` (RFC 8446, section 4.1.2), and where its fields are, if the bytes begin with one. */
tls_codec_outcome tls13_client_hello_locate_prefix(const uint8_t *bytes, size_t length, tls13_client_hello_fields *fields);

/* `ClientHello` (RFC 8446, section 4.1.2), and where its fields are, if the bytes are one, with
   nothing after it. */
static inline tls_codec_outcome tls13_client_hello_locate(const uint8_t *bytes, size_t length, tls13_client_hello_fields *fields) {
  tls13_client_hello_fields found;
  tls_codec_outcome outcome = tls_codec_whole(tls13_client_hello_locate_prefix(bytes, length, &found), length);
  if (outcome.status == TLS_CODEC_ACCEPTED) *fields = found;
  return outcome;
}

/* Where the fields of a `ServerHello` are (RFC 8446, section 4.1.3). A span of `opaque` has the
   bytes without their length. */
typedef struct tls13_server_hello_fields {
  /* `ProtocolVersion legacy_version = 0x0303;` */
  tls_codec_span legacy_version;
  /* `Random random;` */
  tls_codec_span random;
  /* `opaque legacy_session_id_echo<0..32>;` */
  tls_codec_span legacy_session_id_echo;
  /* `CipherSuite cipher_suite;` */
  tls_codec_span cipher_suite;
  /* `uint8 legacy_compression_method = 0;` */
  tls_codec_span legacy_compression_method;
  /* `Extension extensions<6..2^16-1>;` with its length */
  tls_codec_span extensions;
} tls13_server_hello_fields;

/* `ServerHello` (RFC 8446, section 4.1.3), and where its fields are, if the bytes begin with one. */
tls_codec_outcome tls13_server_hello_locate_prefix(const uint8_t *bytes, size_t length, tls13_server_hello_fields *fields);

/* `ServerHello` (RFC 8446, section 4.1.3), and where its fields are, if the bytes are one, with
   nothing after it. */
static inline tls_codec_outcome tls13_server_hello_locate(const uint8_t *bytes, size_t length, tls13_server_hello_fields *fields) {
  tls13_server_hello_fields found;
  tls_codec_outcome outcome = tls_codec_whole(tls13_server_hello_locate_prefix(bytes, length, &found), length);
  if (outcome.status == TLS_CODEC_ACCEPTED) *fields = found;
  return outcome;
}

/* Where the fields of an `EncryptedExtensions` are (RFC 8446, section 4.3.1). */
typedef struct tls13_encrypted_extensions_fields {
  /* `Extension extensions<0..2^16-1>;` with its length */
  tls_codec_span extensions;
} tls13_encrypted_extensions_fields;

/* `EncryptedExtensions` (RFC 8446, section 4.3.1), and where its fields are, if the bytes begin
   with one. */
tls_codec_outcome tls13_encrypted_extensions_locate_prefix(const uint8_t *bytes, size_t length, tls13_encrypted_extensions_fields *fields);

/* `EncryptedExtensions` (RFC 8446, section 4.3.1), and where its fields are, if the bytes are one,
   with nothing after it. */
static inline tls_codec_outcome tls13_encrypted_extensions_locate(const uint8_t *bytes, size_t length, tls13_encrypted_extensions_fields *fields) {
  tls13_encrypted_extensions_fields found;
  tls_codec_outcome outcome = tls_codec_whole(tls13_encrypted_extensions_locate_prefix(bytes, length, &found), length);
  if (outcome.status == TLS_CODEC_ACCEPTED) *fields = found;
  return outcome;
}

/* Where the fields of a `CertificateRequest` are (RFC 8446, section 4.3.2). A span of `opaque` has
   the bytes without their length. */
typedef struct tls13_certificate_request_fields {
  /* `opaque certificate_request_context<0..2^8-1>;` */
  tls_codec_span certificate_request_context;
  /* `Extension extensions<2..2^16-1>;` with its length */
  tls_codec_span extensions;
} tls13_certificate_request_fields;

/* `CertificateRequest` (RFC 8446, section 4.3.2), and where its fields are, if the bytes begin with
   one. */
tls_codec_outcome tls13_certificate_request_locate_prefix(const uint8_t *bytes, size_t length, tls13_certificate_request_fields *fields);

/* `CertificateRequest` (RFC 8446, section 4.3.2), and where its fields are, if the bytes are one,
   with nothing after it. */
static inline tls_codec_outcome tls13_certificate_request_locate(const uint8_t *bytes, size_t length, tls13_certificate_request_fields *fields) {
  tls13_certificate_request_fields found;
  tls_codec_outcome outcome = tls_codec_whole(tls13_certificate_request_locate_prefix(bytes, length, &found), length);
  if (outcome.status == TLS_CODEC_ACCEPTED) *fields = found;
  return outcome;
}

/* Where the fields of a `Certificate` are (RFC 8446, section 4.4.2). A span of `opaque` has the
   bytes without their length. */
typedef struct tls13_certificate_fields {
  /* `opaque certificate_request_context<0..2^8-1>;` */
  tls_codec_span certificate_request_context;
  /* `CertificateEntry certificate_list<0..2^24-1>;` with its length */
  tls_codec_span certificate_list;
} tls13_certificate_fields;

/* `Certificate` (RFC 8446, section 4.4.2), and where its fields are, if the bytes begin with one. */
tls_codec_outcome tls13_certificate_locate_prefix(const uint8_t *bytes, size_t length, tls13_certificate_fields *fields);

/* `Certificate` (RFC 8446, section 4.4.2), and where its fields are, if the bytes are one, with
   nothing after it. */
static inline tls_codec_outcome tls13_certificate_locate(const uint8_t *bytes, size_t length, tls13_certificate_fields *fields) {
  tls13_certificate_fields found;
  tls_codec_outcome outcome = tls_codec_whole(tls13_certificate_locate_prefix(bytes, length, &found), length);
  if (outcome.status == TLS_CODEC_ACCEPTED) *fields = found;
  return outcome;
}

/* Where the fields of a `CertificateVerify` are (RFC 8446, section 4.4.3). A span of `opaque` has
   the bytes without their length. */
typedef struct tls13_certificate_verify_fields {
  /* `SignatureScheme algorithm;` */
  tls_codec_span algorithm;
  /* `opaque signature<0..2^16-1>;` */
  tls_codec_span signature;
} tls13_certificate_verify_fields;

/* `CertificateVerify` (RFC 8446, section 4.4.3), and where its fields are, if the bytes begin with
   one. */
tls_codec_outcome tls13_certificate_verify_locate_prefix(const uint8_t *bytes, size_t length, tls13_certificate_verify_fields *fields);

/* `CertificateVerify` (RFC 8446, section 4.4.3), and where its fields are, if the bytes are one,
   with nothing after it. */
static inline tls_codec_outcome tls13_certificate_verify_locate(const uint8_t *bytes, size_t length, tls13_certificate_verify_fields *fields) {
  tls13_certificate_verify_fields found;
  tls_codec_outcome outcome = tls_codec_whole(tls13_certificate_verify_locate_prefix(bytes, length, &found), length);
  if (outcome.status == TLS_CODEC_ACCEPTED) *fields = found;
  return outcome;
}

/* Where the fields of a `NewSessionTicket` are (RFC 8446, section 4.6.1). A span of `opaque` has
   the bytes without their length. */
typedef struct tls13_new_session_ticket_fields {
  /* `uint32 ticket_lifetime;` */
  tls_codec_span ticket_lifetime;
  /* `uint32 ticket_age_add;` */
  tls_codec_span ticket_age_add;
  /* `opaque ticket_nonce<0..2^8-1>;` */
  tls_codec_span ticket_nonce;
  /* `opaque ticket<1..2^16-1>;` */
  tls_codec_span ticket;
  /* `Extension extensions<0..2^16-2>;` with its length */
  tls_codec_span extensions;
} tls13_new_session_ticket_fields;

/* `NewSessionTicket` (RFC 8446, section 4.6.1), and where its fields are, if the bytes begin with
   one. */
tls_codec_outcome tls13_new_session_ticket_locate_prefix(const uint8_t *bytes, size_t length, tls13_new_session_ticket_fields *fields);

/* `NewSessionTicket` (RFC 8446, section 4.6.1), and where its fields are, if the bytes are one,
   with nothing after it. */
static inline tls_codec_outcome tls13_new_session_ticket_locate(const uint8_t *bytes, size_t length, tls13_new_session_ticket_fields *fields) {
  tls13_new_session_ticket_fields found;
  tls_codec_outcome outcome = tls_codec_whole(tls13_new_session_ticket_locate_prefix(bytes, length, &found), length);
  if (outcome.status == TLS_CODEC_ACCEPTED) *fields = found;
  return outcome;
}

/* Where the fields of a `KeyUpdate` are (RFC 8446, section 4.6.3). */
typedef struct tls13_key_update_fields {
  /* `KeyUpdateRequest request_update;` */
  tls_codec_span request_update;
} tls13_key_update_fields;

/* `KeyUpdate` (RFC 8446, section 4.6.3), and where its fields are, if the bytes begin with one. */
tls_codec_outcome tls13_key_update_locate_prefix(const uint8_t *bytes, size_t length, tls13_key_update_fields *fields);

/* `KeyUpdate` (RFC 8446, section 4.6.3), and where its fields are, if the bytes are one, with
   nothing after it. */
static inline tls_codec_outcome tls13_key_update_locate(const uint8_t *bytes, size_t length, tls13_key_update_fields *fields) {
  tls13_key_update_fields found;
  tls_codec_outcome outcome = tls_codec_whole(tls13_key_update_locate_prefix(bytes, length, &found), length);
  if (outcome.status == TLS_CODEC_ACCEPTED) *fields = found;
  return outcome;
}

/* Where the fields of a `TLSPlaintext` are (RFC 8446, section 5.1). A span of `opaque` has the
   bytes without their length. */
typedef struct tls13_tls_plaintext_fields {
  /* `ContentType type;` */
  tls_codec_span type;
  /* `ProtocolVersion legacy_record_version;` */
  tls_codec_span legacy_record_version;
  /* `opaque fragment[TLSPlaintext.length];` */
  tls_codec_span fragment;
} tls13_tls_plaintext_fields;

/* `TLSPlaintext` (RFC 8446, section 5.1), and where its fields are, if the bytes begin with one. */
tls_codec_outcome tls13_tls_plaintext_locate_prefix(const uint8_t *bytes, size_t length, tls13_tls_plaintext_fields *fields);

/* `TLSPlaintext` (RFC 8446, section 5.1), and where its fields are, if the bytes are one, with
   nothing after it. */
static inline tls_codec_outcome tls13_tls_plaintext_locate(const uint8_t *bytes, size_t length, tls13_tls_plaintext_fields *fields) {
  tls13_tls_plaintext_fields found;
  tls_codec_outcome outcome = tls_codec_whole(tls13_tls_plaintext_locate_prefix(bytes, length, &found), length);
  if (outcome.status == TLS_CODEC_ACCEPTED) *fields = found;
  return outcome;
}

/* Where the fields of a `TLSCiphertext` are (RFC 8446, section 5.2). A span of `opaque` has the
   bytes without their length. */
typedef struct tls13_tls_ciphertext_fields {
  /* `ContentType opaque_type = application_data;` */
  tls_codec_span opaque_type;
  /* `ProtocolVersion legacy_record_version = 0x0303;` */
  tls_codec_span legacy_record_version;
  /* `opaque encrypted_record[TLSCiphertext.length];` */
  tls_codec_span encrypted_record;
} tls13_tls_ciphertext_fields;

/* `TLSCiphertext` (RFC 8446, section 5.2), and where its fields are, if the bytes begin with one. */
tls_codec_outcome tls13_tls_ciphertext_locate_prefix(const uint8_t *bytes, size_t length, tls13_tls_ciphertext_fields *fields);

/* `TLSCiphertext` (RFC 8446, section 5.2), and where its fields are, if the bytes are one, with
   nothing after it. */
static inline tls_codec_outcome tls13_tls_ciphertext_locate(const uint8_t *bytes, size_t length, tls13_tls_ciphertext_fields *fields) {
  tls13_tls_ciphertext_fields found;
  tls_codec_outcome outcome = tls_codec_whole(tls13_tls_ciphertext_locate_prefix(bytes, length, &found), length);
  if (outcome.status == TLS_CODEC_ACCEPTED) *fields = found;
  return outcome;
}

/* Where the fields of an `Alert` are (RFC 8446, section 6). */
typedef struct tls13_alert_fields {
  /* `AlertLevel level;` */
  tls_codec_span level;
  /* `AlertDescription description;` */
  tls_codec_span description;
} tls13_alert_fields;

/* `Alert` (RFC 8446, section 6), and where its fields are, if the bytes begin with one. */
tls_codec_outcome tls13_alert_locate_prefix(const uint8_t *bytes, size_t length, tls13_alert_fields *fields);

/* `Alert` (RFC 8446, section 6), and where its fields are, if the bytes are one, with nothing after
   it. */
static inline tls_codec_outcome tls13_alert_locate(const uint8_t *bytes, size_t length, tls13_alert_fields *fields) {
  tls13_alert_fields found;
  tls_codec_outcome outcome = tls_codec_whole(tls13_alert_locate_prefix(bytes, length, &found), length);
  if (outcome.status == TLS_CODEC_ACCEPTED) *fields = found;
  return outcome;
}

/* The elements of a list. `*left` is the place in `bytes` of the elements that are left: at first
   offset 0 and size `length`, if `bytes` are the list without its length. If the first of them is
   accepted, its place is put into `*element`, and `*left` begins after it and ends where it ended.
   If it is rejected, neither changes, and `at` counts from the first byte of `*left`. Go on until
   `left->size` is 0. Only those bytes of `*left` are read that are in `bytes`, as if it ended where
   they end. If there are none, as when `left->size` is 0, the status is `TLS_CODEC_END_OF_STREAM`. */

/* `Extension` (RFC 8446, section 4.2): the next one of a list. */
tls_codec_outcome tls13_extension_next(const uint8_t *bytes, size_t length, tls_codec_span *left, tls_codec_span *element);

/* `KeyShareEntry` (RFC 8446, section 4.2.8): the next one of a list. */
tls_codec_outcome tls13_key_share_entry_next(const uint8_t *bytes, size_t length, tls_codec_span *left, tls_codec_span *element);

/* `CertificateEntry` of a `Certificate` (RFC 8446, section 4.4.2): the next one of a list. */
tls_codec_outcome tls13_certificate_entry_next(const uint8_t *bytes, size_t length, tls_codec_span *left, tls_codec_span *element);

#ifdef __cplusplus
}
#endif

#endif
