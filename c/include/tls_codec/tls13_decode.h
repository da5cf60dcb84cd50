/* Written by tools/check_exports.py from crates/tls13_decode_c/src. Don't edit. */
#ifndef TLS_CODEC_TLS13_DECODE_H
#define TLS_CODEC_TLS13_DECODE_H

/* Checks whether bytes begin with a message of TLS 1.3: its decoder makes the value and drops it.
   `TLS_CODEC_OUT_OF_MEMORY`: memory was refused, and nothing is said about the bytes. The position
   of a rejected field isn't reported: `at` of `NAME_decode_check_prefix` is 0. What holds for each
   call is in outcome.h. */

#include "outcome.h"

#ifdef __cplusplus
extern "C" {
#endif

/* `TLSPlaintext` (RFC 8446, section 5.1): whether the bytes begin with one, by the decoder. */
tls_codec_outcome tls13_tls_plaintext_decode_check_prefix(const uint8_t *bytes, size_t length);

/* `TLSPlaintext` (RFC 8446, section 5.1): whether the bytes are one, with nothing after it, by the
   decoder. */
static inline tls_codec_outcome tls13_tls_plaintext_decode_check(const uint8_t *bytes, size_t length) {
  return tls_codec_whole(tls13_tls_plaintext_decode_check_prefix(bytes, length), length);
}

/* `TLSCiphertext` (RFC 8446, section 5.2): whether the bytes begin with one, by the decoder. */
tls_codec_outcome tls13_tls_ciphertext_decode_check_prefix(const uint8_t *bytes, size_t length);

/* `TLSCiphertext` (RFC 8446, section 5.2): whether the bytes are one, with nothing after it, by the
   decoder. */
static inline tls_codec_outcome tls13_tls_ciphertext_decode_check(const uint8_t *bytes, size_t length) {
  return tls_codec_whole(tls13_tls_ciphertext_decode_check_prefix(bytes, length), length);
}

/* `Alert` (RFC 8446, section 6): whether the bytes begin with one, by the decoder. */
tls_codec_outcome tls13_alert_decode_check_prefix(const uint8_t *bytes, size_t length);

/* `Alert` (RFC 8446, section 6): whether the bytes are one, with nothing after it, by the decoder. */
static inline tls_codec_outcome tls13_alert_decode_check(const uint8_t *bytes, size_t length) {
  return tls_codec_whole(tls13_alert_decode_check_prefix(bytes, length), length);
}

/* `Handshake` (RFC 8446, section 4): whether the bytes begin with one, by the decoder. */
tls_codec_outcome tls13_handshake_decode_check_prefix(const uint8_t *bytes, size_t length);

/* `Handshake` (RFC 8446, section 4): whether the bytes are one, with nothing after it, by the
   decoder. */
static inline tls_codec_outcome tls13_handshake_decode_check(const uint8_t *bytes, size_t length) {
  return tls_codec_whole(tls13_handshake_decode_check_prefix(bytes, length), length);
}

/* `ClientHello` (RFC 8446, section 4.1.2): whether the bytes begin with one, by the decoder. */
tls_codec_outcome tls13_client_hello_decode_check_prefix(const uint8_t *bytes, size_t length);

/* `ClientHello` (RFC 8446, section 4.1.2): whether the bytes are one, with nothing after it, by the
   decoder. */
static inline tls_codec_outcome tls13_client_hello_decode_check(const uint8_t *bytes, size_t length) {
  return tls_codec_whole(tls13_client_hello_decode_check_prefix(bytes, length), length);
}

/* `ServerHello` (RFC 8446, section 4.1.3): whether the bytes begin with one, by the decoder. */
tls_codec_outcome tls13_server_hello_decode_check_prefix(const uint8_t *bytes, size_t length);

/* `ServerHello` (RFC 8446, section 4.1.3): whether the bytes are one, with nothing after it, by the
   decoder. */
static inline tls_codec_outcome tls13_server_hello_decode_check(const uint8_t *bytes, size_t length) {
  return tls_codec_whole(tls13_server_hello_decode_check_prefix(bytes, length), length);
}

/* `EncryptedExtensions` (RFC 8446, section 4.3.1): whether the bytes begin with one, by the
   decoder. */
tls_codec_outcome tls13_encrypted_extensions_decode_check_prefix(const uint8_t *bytes, size_t length);

/* `EncryptedExtensions` (RFC 8446, section 4.3.1): whether the bytes are one, with nothing after
   it, by the decoder. */
static inline tls_codec_outcome tls13_encrypted_extensions_decode_check(const uint8_t *bytes, size_t length) {
  return tls_codec_whole(tls13_encrypted_extensions_decode_check_prefix(bytes, length), length);
}

/* `CertificateRequest` (RFC 8446, section 4.3.2): whether the bytes begin with one, by the decoder. */
tls_codec_outcome tls13_certificate_request_decode_check_prefix(const uint8_t *bytes, size_t length);

/* `CertificateRequest` (RFC 8446, section 4.3.2): whether the bytes are one, with nothing after it,
   by the decoder. */
static inline tls_codec_outcome tls13_certificate_request_decode_check(const uint8_t *bytes, size_t length) {
  return tls_codec_whole(tls13_certificate_request_decode_check_prefix(bytes, length), length);
}

/* `Certificate` (RFC 8446, section 4.4.2): whether the bytes begin with one, by the decoder. */
tls_codec_outcome tls13_certificate_decode_check_prefix(const uint8_t *bytes, size_t length);

/* `Certificate` (RFC 8446, section 4.4.2): whether the bytes are one, with nothing after it, by the
   decoder. */
static inline tls_codec_outcome tls13_certificate_decode_check(const uint8_t *bytes, size_t length) {
  return tls_codec_whole(tls13_certificate_decode_check_prefix(bytes, length), length);
}

/* `CertificateVerify` (RFC 8446, section 4.4.3): whether the bytes begin with one, by the decoder. */
tls_codec_outcome tls13_certificate_verify_decode_check_prefix(const uint8_t *bytes, size_t length);

/* `CertificateVerify` (RFC 8446, section 4.4.3): whether the bytes are one, with nothing after it,
   by the decoder. */
static inline tls_codec_outcome tls13_certificate_verify_decode_check(const uint8_t *bytes, size_t length) {
  return tls_codec_whole(tls13_certificate_verify_decode_check_prefix(bytes, length), length);
}

/* `NewSessionTicket` (RFC 8446, section 4.6.1): whether the bytes begin with one, by the decoder. */
tls_codec_outcome tls13_new_session_ticket_decode_check_prefix(const uint8_t *bytes, size_t length);

/* `NewSessionTicket` (RFC 8446, section 4.6.1): whether the bytes are one, with nothing after it,
   by the decoder. */
static inline tls_codec_outcome tls13_new_session_ticket_decode_check(const uint8_t *bytes, size_t length) {
  return tls_codec_whole(tls13_new_session_ticket_decode_check_prefix(bytes, length), length);
}

/* `KeyUpdate` (RFC 8446, section 4.6.3): whether the bytes begin with one, by the decoder. */
tls_codec_outcome tls13_key_update_decode_check_prefix(const uint8_t *bytes, size_t length);

/* `KeyUpdate` (RFC 8446, section 4.6.3): whether the bytes are one, with nothing after it, by the
   decoder. */
static inline tls_codec_outcome tls13_key_update_decode_check(const uint8_t *bytes, size_t length) {
  return tls_codec_whole(tls13_key_update_decode_check_prefix(bytes, length), length);
}

#ifdef __cplusplus
}
#endif

#endif
