//! Written by tools/check_exports.py. Don't edit.

/// The result of a call.
#[repr(C)]
#[derive(Clone, Copy, Default)]
pub struct Outcome {
    pub status: u32,
    pub taken: usize,
    pub at: usize,
    pub detail: u64,
}

/// Why bytes are rejected.
#[derive(Clone, Copy, PartialEq, Eq, Debug)]
#[non_exhaustive]
pub enum Error {
    /// No call returns it. Status 1.
    EncodingError,
    /// A length or a variable-length integer has more bytes than it needs, or is outside the bounds
    /// of its field. Status 2.
    InvalidVectorLength,
    /// The buffer to write into is too small. Status 3.
    InvalidWriteLength,
    /// No call returns it. Status 4.
    InvalidInput,
    /// One of three, which aren't told apart: the bytes of an `opaque<V>` aren't all there, while a
    /// list that isn't all there has the error of the element that is cut off; an element passes
    /// the end of its list; the byte before an optional field is neither 0 nor 1. Status 5.
    DecodingError,
    /// The bytes, or the body of a Handshake, end before a field does. Status 6.
    EndOfStream,
    /// Bytes are left, after the message or, in a Handshake, after its body. Status 7.
    TrailingData,
    /// No case has this number, or a constant has another value. Status 8.
    UnknownValue(u64),
    /// No call returns it. Status 9.
    LibraryError,
    /// An allocation failed, in a decoder: nothing is said of the bytes. Status 10.
    OutOfMemory,
    /// A status that these declarations don't have.
    Other(u32),
}

impl Error {
    pub(crate) fn of(outcome: &Outcome) -> Error {
        match outcome.status {
            1 => Error::EncodingError,
            2 => Error::InvalidVectorLength,
            3 => Error::InvalidWriteLength,
            4 => Error::InvalidInput,
            5 => Error::DecodingError,
            6 => Error::EndOfStream,
            7 => Error::TrailingData,
            8 => Error::UnknownValue(outcome.detail),
            9 => Error::LibraryError,
            10 => Error::OutOfMemory,
            other => Error::Other(other),
        }
    }

    /// A sentence on it, for a person to read.
    pub fn sentence(&self) -> &'static str {
        match self {
            Error::InvalidVectorLength => "A length isn't in its shortest form, or isn't allowed for its field.",
            Error::InvalidWriteLength => "The buffer to write into is too small.",
            Error::DecodingError => "Content is cut off, an element passes its list's end, or an option doesn't begin with 0 or 1.",
            Error::EndOfStream => "The message, or a list in it, ends within a field.",
            Error::TrailingData => "Bytes come after the message, or after a part that was to fill a length.",
            Error::UnknownValue(_) => "A number names no case of this message, or isn't the value that a field must have.",
            Error::OutOfMemory => "Memory ran out.",
            _ => "A status that these declarations don't know.",
        }
    }
}

/// A place in some bytes.
#[repr(C)]
#[derive(Clone, Copy, Default)]
pub struct Span {
    pub offset: usize,
    pub size: usize,
}

/// Checks without allocation whether bytes begin with a variable-length integer, or with bytes
/// after a length.
pub mod lengths {
    use crate::{Rejected, Span, nothing_left, split, split_as, whole};

    mod foreign {
        use crate::{Outcome, Span};

        #[link(name = "tls_codec_lengths", kind = "static")]
        unsafe extern "C" {
            pub fn tls_codec_varint_validate_prefix(bytes: *const u8, length: usize) -> Outcome;
            pub fn tls_codec_opaque_v_locate_prefix(bytes: *const u8, length: usize, content: &mut Span) -> Outcome;
            pub fn tls_codec_opaque_u8_locate_prefix(bytes: *const u8, length: usize, content: &mut Span) -> Outcome;
            pub fn tls_codec_opaque_u16_locate_prefix(bytes: *const u8, length: usize, content: &mut Span) -> Outcome;
            pub fn tls_codec_opaque_u24_locate_prefix(bytes: *const u8, length: usize, content: &mut Span) -> Outcome;
        }
    }

    /// A variable-length integer (RFC 9000, section 16) in its least width: whether `bytes` are
    /// one, with nothing after it.
    pub fn validate_varint(bytes: &[u8]) -> Result<(), Rejected> {
        whole(bytes, foreign::tls_codec_varint_validate_prefix)
    }

    /// A variable-length integer (RFC 9000, section 16) in its least width: returns the bytes of
    /// the one that `bytes` begin with, and the rest.
    pub fn validate_varint_prefix(bytes: &[u8]) -> Result<(&[u8], &[u8]), Rejected> {
        split(bytes, foreign::tls_codec_varint_validate_prefix)
    }

    /// `opaque content<V>` (RFC 9420, section 2.1.2), and where its content is. A list `<V>` has
    /// its elements there. Returns that content, if no bytes are left.
    pub fn locate_opaque_v(bytes: &[u8]) -> Result<&[u8], Rejected> {
        nothing_left(bytes, locate_opaque_v_prefix(bytes)?)
    }

    /// `opaque content<V>` (RFC 9420, section 2.1.2), and where its content is. A list `<V>` has
    /// its elements there. Returns that content, and the rest of the bytes.
    pub fn locate_opaque_v_prefix(bytes: &[u8]) -> Result<(&[u8], &[u8]), Rejected> {
        let mut found = Span::default();
        // SAFETY: the pointer and the length are of one slice, nothing changes it during the call,
        // and the call keeps no pointer.
        let outcome = unsafe { foreign::tls_codec_opaque_v_locate_prefix(bytes.as_ptr(), bytes.len(), &mut found) };
        let (_, rest) = split_as(bytes, outcome)?;
        Ok((found.of(bytes), rest))
    }

    /// `opaque content<0..2^8-1>` (RFC 8446, section 3.4), and where its content is. Returns that
    /// content, if no bytes are left.
    pub fn locate_opaque_u8(bytes: &[u8]) -> Result<&[u8], Rejected> {
        nothing_left(bytes, locate_opaque_u8_prefix(bytes)?)
    }

    /// `opaque content<0..2^8-1>` (RFC 8446, section 3.4), and where its content is. Returns that
    /// content, and the rest of the bytes.
    pub fn locate_opaque_u8_prefix(bytes: &[u8]) -> Result<(&[u8], &[u8]), Rejected> {
        let mut found = Span::default();
        // SAFETY: the pointer and the length are of one slice, nothing changes it during the call,
        // and the call keeps no pointer.
        let outcome = unsafe { foreign::tls_codec_opaque_u8_locate_prefix(bytes.as_ptr(), bytes.len(), &mut found) };
        let (_, rest) = split_as(bytes, outcome)?;
        Ok((found.of(bytes), rest))
    }

    /// `opaque content<0..2^16-1>`, and where its content is. Returns that content, if no bytes are
    /// left.
    pub fn locate_opaque_u16(bytes: &[u8]) -> Result<&[u8], Rejected> {
        nothing_left(bytes, locate_opaque_u16_prefix(bytes)?)
    }

    /// `opaque content<0..2^16-1>`, and where its content is. Returns that content, and the rest of
    /// the bytes.
    pub fn locate_opaque_u16_prefix(bytes: &[u8]) -> Result<(&[u8], &[u8]), Rejected> {
        let mut found = Span::default();
        // SAFETY: the pointer and the length are of one slice, nothing changes it during the call,
        // and the call keeps no pointer.
        let outcome = unsafe { foreign::tls_codec_opaque_u16_locate_prefix(bytes.as_ptr(), bytes.len(), &mut found) };
        let (_, rest) = split_as(bytes, outcome)?;
        Ok((found.of(bytes), rest))
    }

    /// `opaque content<0..2^24-1>`, and where its content is. Returns that content, if no bytes are
    /// left.
    pub fn locate_opaque_u24(bytes: &[u8]) -> Result<&[u8], Rejected> {
        nothing_left(bytes, locate_opaque_u24_prefix(bytes)?)
    }

    /// `opaque content<0..2^24-1>`, and where its content is. Returns that content, and the rest of
    /// the bytes.
    pub fn locate_opaque_u24_prefix(bytes: &[u8]) -> Result<(&[u8], &[u8]), Rejected> {
        let mut found = Span::default();
        // SAFETY: the pointer and the length are of one slice, nothing changes it during the call,
        // and the call keeps no pointer.
        let outcome = unsafe { foreign::tls_codec_opaque_u24_locate_prefix(bytes.as_ptr(), bytes.len(), &mut found) };
        let (_, rest) = split_as(bytes, outcome)?;
        Ok((found.of(bytes), rest))
    }
}

/// Messages of TLS 1.3, without allocation: validates them, locates their fields, and takes the
/// elements of lists one by one.
pub mod tls13 {
    use crate::{Elements, Rejected, nothing_left, split, split_as, whole};

    mod foreign {
        use crate::{Outcome, Span};

        /// Where the fields of a `Handshake` are (RFC 8446, section 4).
        #[repr(C)]
        #[derive(Clone, Copy, Default)]
        pub struct HandshakeFields {
            pub msg_type: Span,
            pub body: Span,
        }

        /// Where the fields of a `ClientHello` are (RFC 8446, section 4.1.2). A span of `opaque`
        /// has the bytes without their length.
        #[repr(C)]
        #[derive(Clone, Copy, Default)]
        pub struct ClientHelloFields {
            pub legacy_version: Span,
            pub random: Span,
            pub legacy_session_id: Span,
            pub cipher_suites: Span,
            pub legacy_compression_methods: Span,
            pub extensions: Span,
        }

        /// Where the fields of a `ServerHello` are (RFC 8446, section 4.1.3). A span of `opaque`
        /// has the bytes without their length.
        #[repr(C)]
        #[derive(Clone, Copy, Default)]
        pub struct ServerHelloFields {
            pub legacy_version: Span,
            pub random: Span,
            pub legacy_session_id_echo: Span,
            pub cipher_suite: Span,
            pub legacy_compression_method: Span,
            pub extensions: Span,
        }

        /// Where the fields of an `EncryptedExtensions` are (RFC 8446, section 4.3.1).
        #[repr(C)]
        #[derive(Clone, Copy, Default)]
        pub struct EncryptedExtensionsFields {
            pub extensions: Span,
        }

        /// Where the fields of a `CertificateRequest` are (RFC 8446, section 4.3.2). A span of
        /// `opaque` has the bytes without their length.
        #[repr(C)]
        #[derive(Clone, Copy, Default)]
        pub struct CertificateRequestFields {
            pub certificate_request_context: Span,
            pub extensions: Span,
        }

        /// Where the fields of a `Certificate` are (RFC 8446, section 4.4.2). A span of `opaque`
        /// has the bytes without their length.
        #[repr(C)]
        #[derive(Clone, Copy, Default)]
        pub struct CertificateFields {
            pub certificate_request_context: Span,
            pub certificate_list: Span,
        }

        /// Where the fields of a `CertificateVerify` are (RFC 8446, section 4.4.3). A span of
        /// `opaque` has the bytes without their length.
        #[repr(C)]
        #[derive(Clone, Copy, Default)]
        pub struct CertificateVerifyFields {
            pub algorithm: Span,
            pub signature: Span,
        }

        /// Where the fields of a `NewSessionTicket` are (RFC 8446, section 4.6.1). A span of
        /// `opaque` has the bytes without their length.
        #[repr(C)]
        #[derive(Clone, Copy, Default)]
        pub struct NewSessionTicketFields {
            pub ticket_lifetime: Span,
            pub ticket_age_add: Span,
            pub ticket_nonce: Span,
            pub ticket: Span,
            pub extensions: Span,
        }

        /// Where the fields of a `KeyUpdate` are (RFC 8446, section 4.6.3).
        #[repr(C)]
        #[derive(Clone, Copy, Default)]
        pub struct KeyUpdateFields {
            pub request_update: Span,
        }

        /// Where the fields of a `TLSPlaintext` are (RFC 8446, section 5.1). A span of `opaque` has
        /// the bytes without their length.
        #[repr(C)]
        #[derive(Clone, Copy, Default)]
        pub struct TLSPlaintextFields {
            pub r#type: Span,
            pub legacy_record_version: Span,
            pub fragment: Span,
        }

        /// Where the fields of a `TLSCiphertext` are (RFC 8446, section 5.2). A span of `opaque`
        /// has the bytes without their length.
        #[repr(C)]
        #[derive(Clone, Copy, Default)]
        pub struct TLSCiphertextFields {
            pub opaque_type: Span,
            pub legacy_record_version: Span,
            pub encrypted_record: Span,
        }

        /// Where the fields of an `Alert` are (RFC 8446, section 6).
        #[repr(C)]
        #[derive(Clone, Copy, Default)]
        pub struct AlertFields {
            pub level: Span,
            pub description: Span,
        }

        #[link(name = "tls_codec_tls13", kind = "static")]
        unsafe extern "C" {
            pub fn tls13_extension_next(bytes: *const u8, length: usize, left: &mut Span, element: &mut Span) -> Outcome;
            pub fn tls13_key_share_entry_next(bytes: *const u8, length: usize, left: &mut Span, element: &mut Span) -> Outcome;
            pub fn tls13_certificate_entry_next(bytes: *const u8, length: usize, left: &mut Span, element: &mut Span) -> Outcome;
            pub fn tls13_handshake_locate_prefix(bytes: *const u8, length: usize, fields: &mut HandshakeFields) -> Outcome;
            pub fn tls13_client_hello_locate_prefix(bytes: *const u8, length: usize, fields: &mut ClientHelloFields) -> Outcome;
            pub fn tls13_server_hello_locate_prefix(bytes: *const u8, length: usize, fields: &mut ServerHelloFields) -> Outcome;
            pub fn tls13_encrypted_extensions_locate_prefix(bytes: *const u8, length: usize, fields: &mut EncryptedExtensionsFields) -> Outcome;
            pub fn tls13_certificate_request_locate_prefix(bytes: *const u8, length: usize, fields: &mut CertificateRequestFields) -> Outcome;
            pub fn tls13_certificate_locate_prefix(bytes: *const u8, length: usize, fields: &mut CertificateFields) -> Outcome;
            pub fn tls13_certificate_verify_locate_prefix(bytes: *const u8, length: usize, fields: &mut CertificateVerifyFields) -> Outcome;
            pub fn tls13_new_session_ticket_locate_prefix(bytes: *const u8, length: usize, fields: &mut NewSessionTicketFields) -> Outcome;
            pub fn tls13_key_update_locate_prefix(bytes: *const u8, length: usize, fields: &mut KeyUpdateFields) -> Outcome;
            pub fn tls13_tls_plaintext_locate_prefix(bytes: *const u8, length: usize, fields: &mut TLSPlaintextFields) -> Outcome;
            pub fn tls13_tls_ciphertext_locate_prefix(bytes: *const u8, length: usize, fields: &mut TLSCiphertextFields) -> Outcome;
            pub fn tls13_alert_locate_prefix(bytes: *const u8, length: usize, fields: &mut AlertFields) -> Outcome;
            pub fn tls13_tls_plaintext_validate_prefix(bytes: *const u8, length: usize) -> Outcome;
            pub fn tls13_tls_ciphertext_validate_prefix(bytes: *const u8, length: usize) -> Outcome;
            pub fn tls13_alert_validate_prefix(bytes: *const u8, length: usize) -> Outcome;
            pub fn tls13_handshake_validate_prefix(bytes: *const u8, length: usize) -> Outcome;
            pub fn tls13_client_hello_validate_prefix(bytes: *const u8, length: usize) -> Outcome;
            pub fn tls13_server_hello_validate_prefix(bytes: *const u8, length: usize) -> Outcome;
            pub fn tls13_encrypted_extensions_validate_prefix(bytes: *const u8, length: usize) -> Outcome;
            pub fn tls13_certificate_request_validate_prefix(bytes: *const u8, length: usize) -> Outcome;
            pub fn tls13_certificate_validate_prefix(bytes: *const u8, length: usize) -> Outcome;
            pub fn tls13_certificate_verify_validate_prefix(bytes: *const u8, length: usize) -> Outcome;
            pub fn tls13_new_session_ticket_validate_prefix(bytes: *const u8, length: usize) -> Outcome;
            pub fn tls13_key_update_validate_prefix(bytes: *const u8, length: usize) -> Outcome;
        }
    }

    /// The numbers of `HandshakeType` that have names.
    pub mod handshake_type {
        /// The number of `client_hello`.
        pub const CLIENT_HELLO: u8 = 1;
        /// The number of `server_hello`.
        pub const SERVER_HELLO: u8 = 2;
        /// The number of `new_session_ticket`.
        pub const NEW_SESSION_TICKET: u8 = 4;
        /// The number of `end_of_early_data`.
        pub const END_OF_EARLY_DATA: u8 = 5;
        /// The number of `encrypted_extensions`.
        pub const ENCRYPTED_EXTENSIONS: u8 = 8;
        /// The number of `certificate`.
        pub const CERTIFICATE: u8 = 11;
        /// The number of `certificate_request`.
        pub const CERTIFICATE_REQUEST: u8 = 13;
        /// The number of `certificate_verify`.
        pub const CERTIFICATE_VERIFY: u8 = 15;
        /// The number of `finished`.
        pub const FINISHED: u8 = 20;
        /// The number of `key_update`.
        pub const KEY_UPDATE: u8 = 24;
        /// The number of `message_hash`.
        pub const MESSAGE_HASH: u8 = 254;
    }

    /// The numbers of `ContentType` that have names.
    pub mod content_type {
        /// The number of `change_cipher_spec`.
        pub const CHANGE_CIPHER_SPEC: u8 = 20;
        /// The number of `alert`.
        pub const ALERT: u8 = 21;
        /// The number of `handshake`.
        pub const HANDSHAKE: u8 = 22;
        /// The number of `application_data`.
        pub const APPLICATION_DATA: u8 = 23;
        /// The number of `heartbeat`.
        pub const HEARTBEAT: u8 = 24;
    }

    /// The numbers of `AlertLevel` that have names.
    pub mod alert_level {
        /// The number of `warning`.
        pub const WARNING: u8 = 1;
        /// The number of `fatal`.
        pub const FATAL: u8 = 2;
    }

    /// The numbers of `AlertDescription` that have names.
    pub mod alert_description {
        /// The number of `close_notify`.
        pub const CLOSE_NOTIFY: u8 = 0;
        /// The number of `unexpected_message`.
        pub const UNEXPECTED_MESSAGE: u8 = 10;
        /// The number of `bad_record_mac`.
        pub const BAD_RECORD_MAC: u8 = 20;
        /// The number of `record_overflow`.
        pub const RECORD_OVERFLOW: u8 = 22;
        /// The number of `handshake_failure`.
        pub const HANDSHAKE_FAILURE: u8 = 40;
        /// The number of `bad_certificate`.
        pub const BAD_CERTIFICATE: u8 = 42;
        /// The number of `unsupported_certificate`.
        pub const UNSUPPORTED_CERTIFICATE: u8 = 43;
        /// The number of `certificate_revoked`.
        pub const CERTIFICATE_REVOKED: u8 = 44;
        /// The number of `certificate_expired`.
        pub const CERTIFICATE_EXPIRED: u8 = 45;
        /// The number of `certificate_unknown`.
        pub const CERTIFICATE_UNKNOWN: u8 = 46;
        /// The number of `illegal_parameter`.
        pub const ILLEGAL_PARAMETER: u8 = 47;
        /// The number of `unknown_ca`.
        pub const UNKNOWN_CA: u8 = 48;
        /// The number of `access_denied`.
        pub const ACCESS_DENIED: u8 = 49;
        /// The number of `decode_error`.
        pub const DECODE_ERROR: u8 = 50;
        /// The number of `decrypt_error`.
        pub const DECRYPT_ERROR: u8 = 51;
        /// The number of `protocol_version`.
        pub const PROTOCOL_VERSION: u8 = 70;
        /// The number of `insufficient_security`.
        pub const INSUFFICIENT_SECURITY: u8 = 71;
        /// The number of `internal_error`.
        pub const INTERNAL_ERROR: u8 = 80;
        /// The number of `inappropriate_fallback`.
        pub const INAPPROPRIATE_FALLBACK: u8 = 86;
        /// The number of `user_canceled`.
        pub const USER_CANCELED: u8 = 90;
        /// The number of `missing_extension`.
        pub const MISSING_EXTENSION: u8 = 109;
        /// The number of `unsupported_extension`.
        pub const UNSUPPORTED_EXTENSION: u8 = 110;
        /// The number of `unrecognized_name`.
        pub const UNRECOGNIZED_NAME: u8 = 112;
        /// The number of `bad_certificate_status_response`.
        pub const BAD_CERTIFICATE_STATUS_RESPONSE: u8 = 113;
        /// The number of `unknown_psk_identity`.
        pub const UNKNOWN_PSK_IDENTITY: u8 = 115;
        /// The number of `certificate_required`.
        pub const CERTIFICATE_REQUIRED: u8 = 116;
        /// The number of `no_application_protocol`.
        pub const NO_APPLICATION_PROTOCOL: u8 = 120;
    }

    /// The numbers of `ExtensionType` that have names.
    pub mod extension_type {
        /// The number of `server_name`.
        pub const SERVER_NAME: u16 = 0;
        /// The number of `max_fragment_length`.
        pub const MAX_FRAGMENT_LENGTH: u16 = 1;
        /// The number of `status_request`.
        pub const STATUS_REQUEST: u16 = 5;
        /// The number of `supported_groups`.
        pub const SUPPORTED_GROUPS: u16 = 10;
        /// The number of `signature_algorithms`.
        pub const SIGNATURE_ALGORITHMS: u16 = 13;
        /// The number of `use_srtp`.
        pub const USE_SRTP: u16 = 14;
        /// The number of `heartbeat`.
        pub const HEARTBEAT: u16 = 15;
        /// The number of `application_layer_protocol_negotiation`.
        pub const APPLICATION_LAYER_PROTOCOL_NEGOTIATION: u16 = 16;
        /// The number of `signed_certificate_timestamp`.
        pub const SIGNED_CERTIFICATE_TIMESTAMP: u16 = 18;
        /// The number of `client_certificate_type`.
        pub const CLIENT_CERTIFICATE_TYPE: u16 = 19;
        /// The number of `server_certificate_type`.
        pub const SERVER_CERTIFICATE_TYPE: u16 = 20;
        /// The number of `padding`.
        pub const PADDING: u16 = 21;
        /// The number of `pre_shared_key`.
        pub const PRE_SHARED_KEY: u16 = 41;
        /// The number of `early_data`.
        pub const EARLY_DATA: u16 = 42;
        /// The number of `supported_versions`.
        pub const SUPPORTED_VERSIONS: u16 = 43;
        /// The number of `cookie`.
        pub const COOKIE: u16 = 44;
        /// The number of `psk_key_exchange_modes`.
        pub const PSK_KEY_EXCHANGE_MODES: u16 = 45;
        /// The number of `certificate_authorities`.
        pub const CERTIFICATE_AUTHORITIES: u16 = 47;
        /// The number of `oid_filters`.
        pub const OID_FILTERS: u16 = 48;
        /// The number of `post_handshake_auth`.
        pub const POST_HANDSHAKE_AUTH: u16 = 49;
        /// The number of `signature_algorithms_cert`.
        pub const SIGNATURE_ALGORITHMS_CERT: u16 = 50;
        /// The number of `key_share`.
        pub const KEY_SHARE: u16 = 51;
    }

    /// The numbers of `CipherSuite` that have names.
    pub mod cipher_suite {
        /// The number of `TLS_AES_128_GCM_SHA256`.
        pub const TLS_AES_128_GCM_SHA256: u16 = 4865;
        /// The number of `TLS_AES_256_GCM_SHA384`.
        pub const TLS_AES_256_GCM_SHA384: u16 = 4866;
        /// The number of `TLS_CHACHA20_POLY1305_SHA256`.
        pub const TLS_CHACHA20_POLY1305_SHA256: u16 = 4867;
        /// The number of `TLS_AES_128_CCM_SHA256`.
        pub const TLS_AES_128_CCM_SHA256: u16 = 4868;
        /// The number of `TLS_AES_128_CCM_8_SHA256`.
        pub const TLS_AES_128_CCM_8_SHA256: u16 = 4869;
    }

    /// The numbers of `SignatureScheme` that have names.
    pub mod signature_scheme {
        /// The number of `rsa_pkcs1_sha256`.
        pub const RSA_PKCS1_SHA256: u16 = 1025;
        /// The number of `rsa_pkcs1_sha384`.
        pub const RSA_PKCS1_SHA384: u16 = 1281;
        /// The number of `rsa_pkcs1_sha512`.
        pub const RSA_PKCS1_SHA512: u16 = 1537;
        /// The number of `ecdsa_secp256r1_sha256`.
        pub const ECDSA_SECP256R1_SHA256: u16 = 1027;
        /// The number of `ecdsa_secp384r1_sha384`.
        pub const ECDSA_SECP384R1_SHA384: u16 = 1283;
        /// The number of `ecdsa_secp521r1_sha512`.
        pub const ECDSA_SECP521R1_SHA512: u16 = 1539;
        /// The number of `rsa_pss_rsae_sha256`.
        pub const RSA_PSS_RSAE_SHA256: u16 = 2052;
        /// The number of `rsa_pss_rsae_sha384`.
        pub const RSA_PSS_RSAE_SHA384: u16 = 2053;
        /// The number of `rsa_pss_rsae_sha512`.
        pub const RSA_PSS_RSAE_SHA512: u16 = 2054;
        /// The number of `ed25519`.
        pub const ED25519: u16 = 2055;
        /// The number of `ed448`.
        pub const ED448: u16 = 2056;
        /// The number of `rsa_pss_pss_sha256`.
        pub const RSA_PSS_PSS_SHA256: u16 = 2057;
        /// The number of `rsa_pss_pss_sha384`.
        pub const RSA_PSS_PSS_SHA384: u16 = 2058;
        /// The number of `rsa_pss_pss_sha512`.
        pub const RSA_PSS_PSS_SHA512: u16 = 2059;
        /// The number of `rsa_pkcs1_sha1`.
        pub const RSA_PKCS1_SHA1: u16 = 513;
        /// The number of `ecdsa_sha1`.
        pub const ECDSA_SHA1: u16 = 515;
    }

    /// The numbers of `NamedGroup` that have names.
    pub mod named_group {
        /// The number of `secp256r1`.
        pub const SECP256R1: u16 = 23;
        /// The number of `secp384r1`.
        pub const SECP384R1: u16 = 24;
        /// The number of `secp521r1`.
        pub const SECP521R1: u16 = 25;
        /// The number of `x25519`.
        pub const X25519: u16 = 29;
        /// The number of `x448`.
        pub const X448: u16 = 30;
        /// The number of `ffdhe2048`.
        pub const FFDHE2048: u16 = 256;
        /// The number of `ffdhe3072`.
        pub const FFDHE3072: u16 = 257;
        /// The number of `ffdhe4096`.
        pub const FFDHE4096: u16 = 258;
        /// The number of `ffdhe6144`.
        pub const FFDHE6144: u16 = 259;
        /// The number of `ffdhe8192`.
        pub const FFDHE8192: u16 = 260;
    }

    /// The numbers of `KeyUpdateRequest` that have names.
    pub mod key_update_request {
        /// The number of `update_not_requested`.
        pub const UPDATE_NOT_REQUESTED: u8 = 0;
        /// The number of `update_requested`.
        pub const UPDATE_REQUESTED: u8 = 1;
    }

    /// `TLSPlaintext` (RFC 8446, section 5.1): whether `bytes` are one, with nothing after it.
    pub fn validate_tls_plaintext(bytes: &[u8]) -> Result<(), Rejected> {
        whole(bytes, foreign::tls13_tls_plaintext_validate_prefix)
    }

    /// `TLSPlaintext` (RFC 8446, section 5.1): returns the bytes of the one that `bytes` begin
    /// with, and the rest.
    pub fn validate_tls_plaintext_prefix(bytes: &[u8]) -> Result<(&[u8], &[u8]), Rejected> {
        split(bytes, foreign::tls13_tls_plaintext_validate_prefix)
    }

    /// `TLSCiphertext` (RFC 8446, section 5.2): whether `bytes` are one, with nothing after it.
    pub fn validate_tls_ciphertext(bytes: &[u8]) -> Result<(), Rejected> {
        whole(bytes, foreign::tls13_tls_ciphertext_validate_prefix)
    }

    /// `TLSCiphertext` (RFC 8446, section 5.2): returns the bytes of the one that `bytes` begin
    /// with, and the rest.
    pub fn validate_tls_ciphertext_prefix(bytes: &[u8]) -> Result<(&[u8], &[u8]), Rejected> {
        split(bytes, foreign::tls13_tls_ciphertext_validate_prefix)
    }

    /// `Alert` (RFC 8446, section 6): whether `bytes` are one, with nothing after it.
    pub fn validate_alert(bytes: &[u8]) -> Result<(), Rejected> {
        whole(bytes, foreign::tls13_alert_validate_prefix)
    }

    /// `Alert` (RFC 8446, section 6): returns the bytes of the one that `bytes` begin with, and the
    /// rest.
    pub fn validate_alert_prefix(bytes: &[u8]) -> Result<(&[u8], &[u8]), Rejected> {
        split(bytes, foreign::tls13_alert_validate_prefix)
    }

    /// `Handshake` (RFC 8446, section 4): whether `bytes` are one, with nothing after it.
    pub fn validate_handshake(bytes: &[u8]) -> Result<(), Rejected> {
        whole(bytes, foreign::tls13_handshake_validate_prefix)
    }

    /// `Handshake` (RFC 8446, section 4): returns the bytes of the one that `bytes` begin with, and
    /// the rest.
    pub fn validate_handshake_prefix(bytes: &[u8]) -> Result<(&[u8], &[u8]), Rejected> {
        split(bytes, foreign::tls13_handshake_validate_prefix)
    }

    /// `ClientHello` (RFC 8446, section 4.1.2): whether `bytes` are one, with nothing after it.
    pub fn validate_client_hello(bytes: &[u8]) -> Result<(), Rejected> {
        whole(bytes, foreign::tls13_client_hello_validate_prefix)
    }

    /// `ClientHello` (RFC 8446, section 4.1.2): returns the bytes of the one that `bytes` begin
    /// with, and the rest.
    pub fn validate_client_hello_prefix(bytes: &[u8]) -> Result<(&[u8], &[u8]), Rejected> {
        split(bytes, foreign::tls13_client_hello_validate_prefix)
    }

    /// `ServerHello` (RFC 8446, section 4.1.3): whether `bytes` are one, with nothing after it.
    pub fn validate_server_hello(bytes: &[u8]) -> Result<(), Rejected> {
        whole(bytes, foreign::tls13_server_hello_validate_prefix)
    }

    /// `ServerHello` (RFC 8446, section 4.1.3): returns the bytes of the one that `bytes` begin
    /// with, and the rest.
    pub fn validate_server_hello_prefix(bytes: &[u8]) -> Result<(&[u8], &[u8]), Rejected> {
        split(bytes, foreign::tls13_server_hello_validate_prefix)
    }

    /// `EncryptedExtensions` (RFC 8446, section 4.3.1): whether `bytes` are one, with nothing after
    /// it.
    pub fn validate_encrypted_extensions(bytes: &[u8]) -> Result<(), Rejected> {
        whole(bytes, foreign::tls13_encrypted_extensions_validate_prefix)
    }

    /// `EncryptedExtensions` (RFC 8446, section 4.3.1): returns the bytes of the one that `bytes`
    /// begin with, and the rest.
    pub fn validate_encrypted_extensions_prefix(bytes: &[u8]) -> Result<(&[u8], &[u8]), Rejected> {
        split(bytes, foreign::tls13_encrypted_extensions_validate_prefix)
    }

    /// `CertificateRequest` (RFC 8446, section 4.3.2): whether `bytes` are one, with nothing after
    /// it.
    pub fn validate_certificate_request(bytes: &[u8]) -> Result<(), Rejected> {
        whole(bytes, foreign::tls13_certificate_request_validate_prefix)
    }

    /// `CertificateRequest` (RFC 8446, section 4.3.2): returns the bytes of the one that `bytes`
    /// begin with, and the rest.
    pub fn validate_certificate_request_prefix(bytes: &[u8]) -> Result<(&[u8], &[u8]), Rejected> {
        split(bytes, foreign::tls13_certificate_request_validate_prefix)
    }

    /// `Certificate` (RFC 8446, section 4.4.2): whether `bytes` are one, with nothing after it.
    pub fn validate_certificate(bytes: &[u8]) -> Result<(), Rejected> {
        whole(bytes, foreign::tls13_certificate_validate_prefix)
    }

    /// `Certificate` (RFC 8446, section 4.4.2): returns the bytes of the one that `bytes` begin
    /// with, and the rest.
    pub fn validate_certificate_prefix(bytes: &[u8]) -> Result<(&[u8], &[u8]), Rejected> {
        split(bytes, foreign::tls13_certificate_validate_prefix)
    }

    /// `CertificateVerify` (RFC 8446, section 4.4.3): whether `bytes` are one, with nothing after
    /// it.
    pub fn validate_certificate_verify(bytes: &[u8]) -> Result<(), Rejected> {
        whole(bytes, foreign::tls13_certificate_verify_validate_prefix)
    }

    /// `CertificateVerify` (RFC 8446, section 4.4.3): returns the bytes of the one that `bytes`
    /// begin with, and the rest.
    pub fn validate_certificate_verify_prefix(bytes: &[u8]) -> Result<(&[u8], &[u8]), Rejected> {
        split(bytes, foreign::tls13_certificate_verify_validate_prefix)
    }

    /// `NewSessionTicket` (RFC 8446, section 4.6.1): whether `bytes` are one, with nothing after
    /// it.
    pub fn validate_new_session_ticket(bytes: &[u8]) -> Result<(), Rejected> {
        whole(bytes, foreign::tls13_new_session_ticket_validate_prefix)
    }

    /// `NewSessionTicket` (RFC 8446, section 4.6.1): returns the bytes of the one that `bytes`
    /// begin with, and the rest.
    pub fn validate_new_session_ticket_prefix(bytes: &[u8]) -> Result<(&[u8], &[u8]), Rejected> {
        split(bytes, foreign::tls13_new_session_ticket_validate_prefix)
    }

    /// `KeyUpdate` (RFC 8446, section 4.6.3): whether `bytes` are one, with nothing after it.
    pub fn validate_key_update(bytes: &[u8]) -> Result<(), Rejected> {
        whole(bytes, foreign::tls13_key_update_validate_prefix)
    }

    /// `KeyUpdate` (RFC 8446, section 4.6.3): returns the bytes of the one that `bytes` begin with,
    /// and the rest.
    pub fn validate_key_update_prefix(bytes: &[u8]) -> Result<(&[u8], &[u8]), Rejected> {
        split(bytes, foreign::tls13_key_update_validate_prefix)
    }

    /// Where the fields of a `Handshake` are (RFC 8446, section 4).
    #[derive(Clone, Copy, PartialEq, Eq, Debug)]
    pub struct HandshakeFields<'a> {
        /// `HandshakeType msg_type;`
        pub msg_type: &'a [u8],
        /// What its case has, with its length: a `ClientHello`, a `ServerHello`, ..; the length has
        /// three bytes
        pub body: &'a [u8],
    }

    /// `Handshake` (RFC 8446, section 4): returns its fields, if `bytes` are one, with nothing
    /// after it.
    pub fn locate_handshake(bytes: &[u8]) -> Result<HandshakeFields<'_>, Rejected> {
        nothing_left(bytes, locate_handshake_prefix(bytes)?)
    }

    /// `Handshake` (RFC 8446, section 4): returns the fields of the one that `bytes` begin with,
    /// and the rest.
    pub fn locate_handshake_prefix(bytes: &[u8]) -> Result<(HandshakeFields<'_>, &[u8]), Rejected> {
        let mut found = foreign::HandshakeFields::default();
        // SAFETY: the pointer and the length are of one slice, nothing changes it during the call,
        // and the call keeps no pointer.
        let outcome = unsafe { foreign::tls13_handshake_locate_prefix(bytes.as_ptr(), bytes.len(), &mut found) };
        let (_, rest) = split_as(bytes, outcome)?;
        let fields = HandshakeFields {
            msg_type: found.msg_type.of(bytes),
            body: found.body.of(bytes),
        };
        Ok((fields, rest))
    }

    /// Where the fields of a `ClientHello` are (RFC 8446, section 4.1.2). A span of `opaque` has
    /// the bytes without their length.
    #[derive(Clone, Copy, PartialEq, Eq, Debug)]
    pub struct ClientHelloFields<'a> {
        /// `ProtocolVersion legacy_version = 0x0303;`
        pub legacy_version: &'a [u8],
        /// `Random random;`
        pub random: &'a [u8],
        /// `opaque legacy_session_id<0..32>;`
        pub legacy_session_id: &'a [u8],
        /// `CipherSuite cipher_suites<2..2^16-2>;` with its length
        pub cipher_suites: &'a [u8],
        /// `opaque legacy_compression_methods<1..2^8-1>;`
        pub legacy_compression_methods: &'a [u8],
        /// `Extension extensions<8..2^16-1>;` with its length
        pub extensions: &'a [u8],
    }

    /// `ClientHello` (RFC 8446, section 4.1.2): returns its fields, if `bytes` are one, with
    /// nothing after it.
    pub fn locate_client_hello(bytes: &[u8]) -> Result<ClientHelloFields<'_>, Rejected> {
        nothing_left(bytes, locate_client_hello_prefix(bytes)?)
    }

    /// `ClientHello` (RFC 8446, section 4.1.2): returns the fields of the one that `bytes` begin
    /// with, and the rest.
    pub fn locate_client_hello_prefix(bytes: &[u8]) -> Result<(ClientHelloFields<'_>, &[u8]), Rejected> {
        let mut found = foreign::ClientHelloFields::default();
        // SAFETY: the pointer and the length are of one slice, nothing changes it during the call,
        // and the call keeps no pointer.
        let outcome = unsafe { foreign::tls13_client_hello_locate_prefix(bytes.as_ptr(), bytes.len(), &mut found) };
        let (_, rest) = split_as(bytes, outcome)?;
        let fields = ClientHelloFields {
            legacy_version: found.legacy_version.of(bytes),
            random: found.random.of(bytes),
            legacy_session_id: found.legacy_session_id.of(bytes),
            cipher_suites: found.cipher_suites.of(bytes),
            legacy_compression_methods: found.legacy_compression_methods.of(bytes),
            extensions: found.extensions.of(bytes),
        };
        Ok((fields, rest))
    }

    /// Where the fields of a `ServerHello` are (RFC 8446, section 4.1.3). A span of `opaque` has
    /// the bytes without their length.
    #[derive(Clone, Copy, PartialEq, Eq, Debug)]
    pub struct ServerHelloFields<'a> {
        /// `ProtocolVersion legacy_version = 0x0303;`
        pub legacy_version: &'a [u8],
        /// `Random random;`
        pub random: &'a [u8],
        /// `opaque legacy_session_id_echo<0..32>;`
        pub legacy_session_id_echo: &'a [u8],
        /// `CipherSuite cipher_suite;`
        pub cipher_suite: &'a [u8],
        /// `uint8 legacy_compression_method = 0;`
        pub legacy_compression_method: &'a [u8],
        /// `Extension extensions<6..2^16-1>;` with its length
        pub extensions: &'a [u8],
    }

    /// `ServerHello` (RFC 8446, section 4.1.3): returns its fields, if `bytes` are one, with
    /// nothing after it.
    pub fn locate_server_hello(bytes: &[u8]) -> Result<ServerHelloFields<'_>, Rejected> {
        nothing_left(bytes, locate_server_hello_prefix(bytes)?)
    }

    /// `ServerHello` (RFC 8446, section 4.1.3): returns the fields of the one that `bytes` begin
    /// with, and the rest.
    pub fn locate_server_hello_prefix(bytes: &[u8]) -> Result<(ServerHelloFields<'_>, &[u8]), Rejected> {
        let mut found = foreign::ServerHelloFields::default();
        // SAFETY: the pointer and the length are of one slice, nothing changes it during the call,
        // and the call keeps no pointer.
        let outcome = unsafe { foreign::tls13_server_hello_locate_prefix(bytes.as_ptr(), bytes.len(), &mut found) };
        let (_, rest) = split_as(bytes, outcome)?;
        let fields = ServerHelloFields {
            legacy_version: found.legacy_version.of(bytes),
            random: found.random.of(bytes),
            legacy_session_id_echo: found.legacy_session_id_echo.of(bytes),
            cipher_suite: found.cipher_suite.of(bytes),
            legacy_compression_method: found.legacy_compression_method.of(bytes),
            extensions: found.extensions.of(bytes),
        };
        Ok((fields, rest))
    }

    /// Where the fields of an `EncryptedExtensions` are (RFC 8446, section 4.3.1).
    #[derive(Clone, Copy, PartialEq, Eq, Debug)]
    pub struct EncryptedExtensionsFields<'a> {
        /// `Extension extensions<0..2^16-1>;` with its length
        pub extensions: &'a [u8],
    }

    /// `EncryptedExtensions` (RFC 8446, section 4.3.1): returns its fields, if `bytes` are one,
    /// with nothing after it.
    pub fn locate_encrypted_extensions(bytes: &[u8]) -> Result<EncryptedExtensionsFields<'_>, Rejected> {
        nothing_left(bytes, locate_encrypted_extensions_prefix(bytes)?)
    }

    /// `EncryptedExtensions` (RFC 8446, section 4.3.1): returns the fields of the one that `bytes`
    /// begin with, and the rest.
    pub fn locate_encrypted_extensions_prefix(bytes: &[u8]) -> Result<(EncryptedExtensionsFields<'_>, &[u8]), Rejected> {
        let mut found = foreign::EncryptedExtensionsFields::default();
        // SAFETY: the pointer and the length are of one slice, nothing changes it during the call,
        // and the call keeps no pointer.
        let outcome = unsafe { foreign::tls13_encrypted_extensions_locate_prefix(bytes.as_ptr(), bytes.len(), &mut found) };
        let (_, rest) = split_as(bytes, outcome)?;
        let fields = EncryptedExtensionsFields {
            extensions: found.extensions.of(bytes),
        };
        Ok((fields, rest))
    }

    /// Where the fields of a `CertificateRequest` are (RFC 8446, section 4.3.2). A span of `opaque`
    /// has the bytes without their length.
    #[derive(Clone, Copy, PartialEq, Eq, Debug)]
    pub struct CertificateRequestFields<'a> {
        /// `opaque certificate_request_context<0..2^8-1>;`
        pub certificate_request_context: &'a [u8],
        /// `Extension extensions<2..2^16-1>;` with its length
        pub extensions: &'a [u8],
    }

    /// `CertificateRequest` (RFC 8446, section 4.3.2): returns its fields, if `bytes` are one, with
    /// nothing after it.
    pub fn locate_certificate_request(bytes: &[u8]) -> Result<CertificateRequestFields<'_>, Rejected> {
        nothing_left(bytes, locate_certificate_request_prefix(bytes)?)
    }

    /// `CertificateRequest` (RFC 8446, section 4.3.2): returns the fields of the one that `bytes`
    /// begin with, and the rest.
    pub fn locate_certificate_request_prefix(bytes: &[u8]) -> Result<(CertificateRequestFields<'_>, &[u8]), Rejected> {
        let mut found = foreign::CertificateRequestFields::default();
        // SAFETY: the pointer and the length are of one slice, nothing changes it during the call,
        // and the call keeps no pointer.
        let outcome = unsafe { foreign::tls13_certificate_request_locate_prefix(bytes.as_ptr(), bytes.len(), &mut found) };
        let (_, rest) = split_as(bytes, outcome)?;
        let fields = CertificateRequestFields {
            certificate_request_context: found.certificate_request_context.of(bytes),
            extensions: found.extensions.of(bytes),
        };
        Ok((fields, rest))
    }

    /// Where the fields of a `Certificate` are (RFC 8446, section 4.4.2). A span of `opaque` has
    /// the bytes without their length.
    #[derive(Clone, Copy, PartialEq, Eq, Debug)]
    pub struct CertificateFields<'a> {
        /// `opaque certificate_request_context<0..2^8-1>;`
        pub certificate_request_context: &'a [u8],
        /// `CertificateEntry certificate_list<0..2^24-1>;` with its length
        pub certificate_list: &'a [u8],
    }

    /// `Certificate` (RFC 8446, section 4.4.2): returns its fields, if `bytes` are one, with
    /// nothing after it.
    pub fn locate_certificate(bytes: &[u8]) -> Result<CertificateFields<'_>, Rejected> {
        nothing_left(bytes, locate_certificate_prefix(bytes)?)
    }

    /// `Certificate` (RFC 8446, section 4.4.2): returns the fields of the one that `bytes` begin
    /// with, and the rest.
    pub fn locate_certificate_prefix(bytes: &[u8]) -> Result<(CertificateFields<'_>, &[u8]), Rejected> {
        let mut found = foreign::CertificateFields::default();
        // SAFETY: the pointer and the length are of one slice, nothing changes it during the call,
        // and the call keeps no pointer.
        let outcome = unsafe { foreign::tls13_certificate_locate_prefix(bytes.as_ptr(), bytes.len(), &mut found) };
        let (_, rest) = split_as(bytes, outcome)?;
        let fields = CertificateFields {
            certificate_request_context: found.certificate_request_context.of(bytes),
            certificate_list: found.certificate_list.of(bytes),
        };
        Ok((fields, rest))
    }

    /// Where the fields of a `CertificateVerify` are (RFC 8446, section 4.4.3). A span of `opaque`
    /// has the bytes without their length.
    #[derive(Clone, Copy, PartialEq, Eq, Debug)]
    pub struct CertificateVerifyFields<'a> {
        /// `SignatureScheme algorithm;`
        pub algorithm: &'a [u8],
        /// `opaque signature<0..2^16-1>;`
        pub signature: &'a [u8],
    }

    /// `CertificateVerify` (RFC 8446, section 4.4.3): returns its fields, if `bytes` are one, with
    /// nothing after it.
    pub fn locate_certificate_verify(bytes: &[u8]) -> Result<CertificateVerifyFields<'_>, Rejected> {
        nothing_left(bytes, locate_certificate_verify_prefix(bytes)?)
    }

    /// `CertificateVerify` (RFC 8446, section 4.4.3): returns the fields of the one that `bytes`
    /// begin with, and the rest.
    pub fn locate_certificate_verify_prefix(bytes: &[u8]) -> Result<(CertificateVerifyFields<'_>, &[u8]), Rejected> {
        let mut found = foreign::CertificateVerifyFields::default();
        // SAFETY: the pointer and the length are of one slice, nothing changes it during the call,
        // and the call keeps no pointer.
        let outcome = unsafe { foreign::tls13_certificate_verify_locate_prefix(bytes.as_ptr(), bytes.len(), &mut found) };
        let (_, rest) = split_as(bytes, outcome)?;
        let fields = CertificateVerifyFields {
            algorithm: found.algorithm.of(bytes),
            signature: found.signature.of(bytes),
        };
        Ok((fields, rest))
    }

    /// Where the fields of a `NewSessionTicket` are (RFC 8446, section 4.6.1). A span of `opaque`
    /// has the bytes without their length.
    #[derive(Clone, Copy, PartialEq, Eq, Debug)]
    pub struct NewSessionTicketFields<'a> {
        /// `uint32 ticket_lifetime;`
        pub ticket_lifetime: &'a [u8],
        /// `uint32 ticket_age_add;`
        pub ticket_age_add: &'a [u8],
        /// `opaque ticket_nonce<0..2^8-1>;`
        pub ticket_nonce: &'a [u8],
        /// `opaque ticket<1..2^16-1>;`
        pub ticket: &'a [u8],
        /// `Extension extensions<0..2^16-2>;` with its length
        pub extensions: &'a [u8],
    }

    /// `NewSessionTicket` (RFC 8446, section 4.6.1): returns its fields, if `bytes` are one, with
    /// nothing after it.
    pub fn locate_new_session_ticket(bytes: &[u8]) -> Result<NewSessionTicketFields<'_>, Rejected> {
        nothing_left(bytes, locate_new_session_ticket_prefix(bytes)?)
    }

    /// `NewSessionTicket` (RFC 8446, section 4.6.1): returns the fields of the one that `bytes`
    /// begin with, and the rest.
    pub fn locate_new_session_ticket_prefix(bytes: &[u8]) -> Result<(NewSessionTicketFields<'_>, &[u8]), Rejected> {
        let mut found = foreign::NewSessionTicketFields::default();
        // SAFETY: the pointer and the length are of one slice, nothing changes it during the call,
        // and the call keeps no pointer.
        let outcome = unsafe { foreign::tls13_new_session_ticket_locate_prefix(bytes.as_ptr(), bytes.len(), &mut found) };
        let (_, rest) = split_as(bytes, outcome)?;
        let fields = NewSessionTicketFields {
            ticket_lifetime: found.ticket_lifetime.of(bytes),
            ticket_age_add: found.ticket_age_add.of(bytes),
            ticket_nonce: found.ticket_nonce.of(bytes),
            ticket: found.ticket.of(bytes),
            extensions: found.extensions.of(bytes),
        };
        Ok((fields, rest))
    }

    /// Where the fields of a `KeyUpdate` are (RFC 8446, section 4.6.3).
    #[derive(Clone, Copy, PartialEq, Eq, Debug)]
    pub struct KeyUpdateFields<'a> {
        /// `KeyUpdateRequest request_update;`
        pub request_update: &'a [u8],
    }

    /// `KeyUpdate` (RFC 8446, section 4.6.3): returns its fields, if `bytes` are one, with nothing
    /// after it.
    pub fn locate_key_update(bytes: &[u8]) -> Result<KeyUpdateFields<'_>, Rejected> {
        nothing_left(bytes, locate_key_update_prefix(bytes)?)
    }

    /// `KeyUpdate` (RFC 8446, section 4.6.3): returns the fields of the one that `bytes` begin
    /// with, and the rest.
    pub fn locate_key_update_prefix(bytes: &[u8]) -> Result<(KeyUpdateFields<'_>, &[u8]), Rejected> {
        let mut found = foreign::KeyUpdateFields::default();
        // SAFETY: the pointer and the length are of one slice, nothing changes it during the call,
        // and the call keeps no pointer.
        let outcome = unsafe { foreign::tls13_key_update_locate_prefix(bytes.as_ptr(), bytes.len(), &mut found) };
        let (_, rest) = split_as(bytes, outcome)?;
        let fields = KeyUpdateFields {
            request_update: found.request_update.of(bytes),
        };
        Ok((fields, rest))
    }

    /// Where the fields of a `TLSPlaintext` are (RFC 8446, section 5.1). A span of `opaque` has the
    /// bytes without their length.
    #[derive(Clone, Copy, PartialEq, Eq, Debug)]
    pub struct TLSPlaintextFields<'a> {
        /// `ContentType type;`
        pub r#type: &'a [u8],
        /// `ProtocolVersion legacy_record_version;`
        pub legacy_record_version: &'a [u8],
        /// `opaque fragment[TLSPlaintext.length];`
        pub fragment: &'a [u8],
    }

    /// `TLSPlaintext` (RFC 8446, section 5.1): returns its fields, if `bytes` are one, with nothing
    /// after it.
    pub fn locate_tls_plaintext(bytes: &[u8]) -> Result<TLSPlaintextFields<'_>, Rejected> {
        nothing_left(bytes, locate_tls_plaintext_prefix(bytes)?)
    }

    /// `TLSPlaintext` (RFC 8446, section 5.1): returns the fields of the one that `bytes` begin
    /// with, and the rest.
    pub fn locate_tls_plaintext_prefix(bytes: &[u8]) -> Result<(TLSPlaintextFields<'_>, &[u8]), Rejected> {
        let mut found = foreign::TLSPlaintextFields::default();
        // SAFETY: the pointer and the length are of one slice, nothing changes it during the call,
        // and the call keeps no pointer.
        let outcome = unsafe { foreign::tls13_tls_plaintext_locate_prefix(bytes.as_ptr(), bytes.len(), &mut found) };
        let (_, rest) = split_as(bytes, outcome)?;
        let fields = TLSPlaintextFields {
            r#type: found.r#type.of(bytes),
            legacy_record_version: found.legacy_record_version.of(bytes),
            fragment: found.fragment.of(bytes),
        };
        Ok((fields, rest))
    }

    /// Where the fields of a `TLSCiphertext` are (RFC 8446, section 5.2). A span of `opaque` has
    /// the bytes without their length.
    #[derive(Clone, Copy, PartialEq, Eq, Debug)]
    pub struct TLSCiphertextFields<'a> {
        /// `ContentType opaque_type = application_data;`
        pub opaque_type: &'a [u8],
        /// `ProtocolVersion legacy_record_version = 0x0303;`
        pub legacy_record_version: &'a [u8],
        /// `opaque encrypted_record[TLSCiphertext.length];`
        pub encrypted_record: &'a [u8],
    }

    /// `TLSCiphertext` (RFC 8446, section 5.2): returns its fields, if `bytes` are one, with
    /// nothing after it.
    pub fn locate_tls_ciphertext(bytes: &[u8]) -> Result<TLSCiphertextFields<'_>, Rejected> {
        nothing_left(bytes, locate_tls_ciphertext_prefix(bytes)?)
    }

    /// `TLSCiphertext` (RFC 8446, section 5.2): returns the fields of the one that `bytes` begin
    /// with, and the rest.
    pub fn locate_tls_ciphertext_prefix(bytes: &[u8]) -> Result<(TLSCiphertextFields<'_>, &[u8]), Rejected> {
        let mut found = foreign::TLSCiphertextFields::default();
        // SAFETY: the pointer and the length are of one slice, nothing changes it during the call,
        // and the call keeps no pointer.
        let outcome = unsafe { foreign::tls13_tls_ciphertext_locate_prefix(bytes.as_ptr(), bytes.len(), &mut found) };
        let (_, rest) = split_as(bytes, outcome)?;
        let fields = TLSCiphertextFields {
            opaque_type: found.opaque_type.of(bytes),
            legacy_record_version: found.legacy_record_version.of(bytes),
            encrypted_record: found.encrypted_record.of(bytes),
        };
        Ok((fields, rest))
    }

    /// Where the fields of an `Alert` are (RFC 8446, section 6).
    #[derive(Clone, Copy, PartialEq, Eq, Debug)]
    pub struct AlertFields<'a> {
        /// `AlertLevel level;`
        pub level: &'a [u8],
        /// `AlertDescription description;`
        pub description: &'a [u8],
    }

    /// `Alert` (RFC 8446, section 6): returns its fields, if `bytes` are one, with nothing after
    /// it.
    pub fn locate_alert(bytes: &[u8]) -> Result<AlertFields<'_>, Rejected> {
        nothing_left(bytes, locate_alert_prefix(bytes)?)
    }

    /// `Alert` (RFC 8446, section 6): returns the fields of the one that `bytes` begin with, and
    /// the rest.
    pub fn locate_alert_prefix(bytes: &[u8]) -> Result<(AlertFields<'_>, &[u8]), Rejected> {
        let mut found = foreign::AlertFields::default();
        // SAFETY: the pointer and the length are of one slice, nothing changes it during the call,
        // and the call keeps no pointer.
        let outcome = unsafe { foreign::tls13_alert_locate_prefix(bytes.as_ptr(), bytes.len(), &mut found) };
        let (_, rest) = split_as(bytes, outcome)?;
        let fields = AlertFields {
            level: found.level.of(bytes),
            description: found.description.of(bytes),
        };
        Ok((fields, rest))
    }

    /// `Extension` (RFC 8446, section 4.2): an iterator over a list's elements. `content` is the
    /// list without its length; an error's `at` counts from its first byte.
    pub fn extension_elements(content: &[u8]) -> Elements<'_> {
        Elements::of(content, foreign::tls13_extension_next)
    }

    /// `KeyShareEntry` (RFC 8446, section 4.2.8): an iterator over a list's elements. `content` is
    /// the list without its length; an error's `at` counts from its first byte.
    pub fn key_share_entry_elements(content: &[u8]) -> Elements<'_> {
        Elements::of(content, foreign::tls13_key_share_entry_next)
    }

    /// `CertificateEntry` of a `Certificate` (RFC 8446, section 4.4.2): an iterator over a list's
    /// elements. `content` is the list without its length; an error's `at` counts from its first
    /// byte.
    pub fn certificate_entry_elements(content: &[u8]) -> Elements<'_> {
        Elements::of(content, foreign::tls13_certificate_entry_next)
    }
}

/// Checks whether bytes begin with a message of TLS 1.3: its decoder makes the value and drops it.
/// `OutOfMemory`: memory was refused, and nothing is said about the bytes. The position of a
/// rejected field isn't reported.
#[cfg(feature = "decode")]
pub mod tls13_decode {
    use crate::{Error, split, whole};

    mod foreign {
        use crate::Outcome;

        #[link(name = "tls_codec_tls13_decode", kind = "static")]
        unsafe extern "C" {
            pub fn tls13_tls_plaintext_decode_check_prefix(bytes: *const u8, length: usize) -> Outcome;
            pub fn tls13_tls_ciphertext_decode_check_prefix(bytes: *const u8, length: usize) -> Outcome;
            pub fn tls13_alert_decode_check_prefix(bytes: *const u8, length: usize) -> Outcome;
            pub fn tls13_handshake_decode_check_prefix(bytes: *const u8, length: usize) -> Outcome;
            pub fn tls13_client_hello_decode_check_prefix(bytes: *const u8, length: usize) -> Outcome;
            pub fn tls13_server_hello_decode_check_prefix(bytes: *const u8, length: usize) -> Outcome;
            pub fn tls13_encrypted_extensions_decode_check_prefix(bytes: *const u8, length: usize) -> Outcome;
            pub fn tls13_certificate_request_decode_check_prefix(bytes: *const u8, length: usize) -> Outcome;
            pub fn tls13_certificate_decode_check_prefix(bytes: *const u8, length: usize) -> Outcome;
            pub fn tls13_certificate_verify_decode_check_prefix(bytes: *const u8, length: usize) -> Outcome;
            pub fn tls13_new_session_ticket_decode_check_prefix(bytes: *const u8, length: usize) -> Outcome;
            pub fn tls13_key_update_decode_check_prefix(bytes: *const u8, length: usize) -> Outcome;
        }
    }

    /// `TLSPlaintext` (RFC 8446, section 5.1): whether `bytes` are one, with nothing after it, by
    /// the decoder.
    pub fn decode_check_tls_plaintext(bytes: &[u8]) -> Result<(), Error> {
        whole(bytes, foreign::tls13_tls_plaintext_decode_check_prefix).map_err(|it| it.error)
    }

    /// `TLSPlaintext` (RFC 8446, section 5.1): returns the bytes of the one that `bytes` begin
    /// with, and the rest, by the decoder.
    pub fn decode_check_tls_plaintext_prefix(bytes: &[u8]) -> Result<(&[u8], &[u8]), Error> {
        split(bytes, foreign::tls13_tls_plaintext_decode_check_prefix).map_err(|it| it.error)
    }

    /// `TLSCiphertext` (RFC 8446, section 5.2): whether `bytes` are one, with nothing after it, by
    /// the decoder.
    pub fn decode_check_tls_ciphertext(bytes: &[u8]) -> Result<(), Error> {
        whole(bytes, foreign::tls13_tls_ciphertext_decode_check_prefix).map_err(|it| it.error)
    }

    /// `TLSCiphertext` (RFC 8446, section 5.2): returns the bytes of the one that `bytes` begin
    /// with, and the rest, by the decoder.
    pub fn decode_check_tls_ciphertext_prefix(bytes: &[u8]) -> Result<(&[u8], &[u8]), Error> {
        split(bytes, foreign::tls13_tls_ciphertext_decode_check_prefix).map_err(|it| it.error)
    }

    /// `Alert` (RFC 8446, section 6): whether `bytes` are one, with nothing after it, by the
    /// decoder.
    pub fn decode_check_alert(bytes: &[u8]) -> Result<(), Error> {
        whole(bytes, foreign::tls13_alert_decode_check_prefix).map_err(|it| it.error)
    }

    /// `Alert` (RFC 8446, section 6): returns the bytes of the one that `bytes` begin with, and the
    /// rest, by the decoder.
    pub fn decode_check_alert_prefix(bytes: &[u8]) -> Result<(&[u8], &[u8]), Error> {
        split(bytes, foreign::tls13_alert_decode_check_prefix).map_err(|it| it.error)
    }

    /// `Handshake` (RFC 8446, section 4): whether `bytes` are one, with nothing after it, by the
    /// decoder.
    pub fn decode_check_handshake(bytes: &[u8]) -> Result<(), Error> {
        whole(bytes, foreign::tls13_handshake_decode_check_prefix).map_err(|it| it.error)
    }

    /// `Handshake` (RFC 8446, section 4): returns the bytes of the one that `bytes` begin with, and
    /// the rest, by the decoder.
    pub fn decode_check_handshake_prefix(bytes: &[u8]) -> Result<(&[u8], &[u8]), Error> {
        split(bytes, foreign::tls13_handshake_decode_check_prefix).map_err(|it| it.error)
    }

    /// `ClientHello` (RFC 8446, section 4.1.2): whether `bytes` are one, with nothing after it, by
    /// the decoder.
    pub fn decode_check_client_hello(bytes: &[u8]) -> Result<(), Error> {
        whole(bytes, foreign::tls13_client_hello_decode_check_prefix).map_err(|it| it.error)
    }

    /// `ClientHello` (RFC 8446, section 4.1.2): returns the bytes of the one that `bytes` begin
    /// with, and the rest, by the decoder.
    pub fn decode_check_client_hello_prefix(bytes: &[u8]) -> Result<(&[u8], &[u8]), Error> {
        split(bytes, foreign::tls13_client_hello_decode_check_prefix).map_err(|it| it.error)
    }

    /// `ServerHello` (RFC 8446, section 4.1.3): whether `bytes` are one, with nothing after it, by
    /// the decoder.
    pub fn decode_check_server_hello(bytes: &[u8]) -> Result<(), Error> {
        whole(bytes, foreign::tls13_server_hello_decode_check_prefix).map_err(|it| it.error)
    }

    /// `ServerHello` (RFC 8446, section 4.1.3): returns the bytes of the one that `bytes` begin
    /// with, and the rest, by the decoder.
    pub fn decode_check_server_hello_prefix(bytes: &[u8]) -> Result<(&[u8], &[u8]), Error> {
        split(bytes, foreign::tls13_server_hello_decode_check_prefix).map_err(|it| it.error)
    }

    /// `EncryptedExtensions` (RFC 8446, section 4.3.1): whether `bytes` are one, with nothing after
    /// it, by the decoder.
    pub fn decode_check_encrypted_extensions(bytes: &[u8]) -> Result<(), Error> {
        whole(bytes, foreign::tls13_encrypted_extensions_decode_check_prefix).map_err(|it| it.error)
    }

    /// `EncryptedExtensions` (RFC 8446, section 4.3.1): returns the bytes of the one that `bytes`
    /// begin with, and the rest, by the decoder.
    pub fn decode_check_encrypted_extensions_prefix(bytes: &[u8]) -> Result<(&[u8], &[u8]), Error> {
        split(bytes, foreign::tls13_encrypted_extensions_decode_check_prefix).map_err(|it| it.error)
    }

    /// `CertificateRequest` (RFC 8446, section 4.3.2): whether `bytes` are one, with nothing after
    /// it, by the decoder.
    pub fn decode_check_certificate_request(bytes: &[u8]) -> Result<(), Error> {
        whole(bytes, foreign::tls13_certificate_request_decode_check_prefix).map_err(|it| it.error)
    }

    /// `CertificateRequest` (RFC 8446, section 4.3.2): returns the bytes of the one that `bytes`
    /// begin with, and the rest, by the decoder.
    pub fn decode_check_certificate_request_prefix(bytes: &[u8]) -> Result<(&[u8], &[u8]), Error> {
        split(bytes, foreign::tls13_certificate_request_decode_check_prefix).map_err(|it| it.error)
    }

    /// `Certificate` (RFC 8446, section 4.4.2): whether `bytes` are one, with nothing after it, by
    /// the decoder.
    pub fn decode_check_certificate(bytes: &[u8]) -> Result<(), Error> {
        whole(bytes, foreign::tls13_certificate_decode_check_prefix).map_err(|it| it.error)
    }

    /// `Certificate` (RFC 8446, section 4.4.2): returns the bytes of the one that `bytes` begin
    /// with, and the rest, by the decoder.
    pub fn decode_check_certificate_prefix(bytes: &[u8]) -> Result<(&[u8], &[u8]), Error> {
        split(bytes, foreign::tls13_certificate_decode_check_prefix).map_err(|it| it.error)
    }

    /// `CertificateVerify` (RFC 8446, section 4.4.3): whether `bytes` are one, with nothing after
    /// it, by the decoder.
    pub fn decode_check_certificate_verify(bytes: &[u8]) -> Result<(), Error> {
        whole(bytes, foreign::tls13_certificate_verify_decode_check_prefix).map_err(|it| it.error)
    }

    /// `CertificateVerify` (RFC 8446, section 4.4.3): returns the bytes of the one that `bytes`
    /// begin with, and the rest, by the decoder.
    pub fn decode_check_certificate_verify_prefix(bytes: &[u8]) -> Result<(&[u8], &[u8]), Error> {
        split(bytes, foreign::tls13_certificate_verify_decode_check_prefix).map_err(|it| it.error)
    }

    /// `NewSessionTicket` (RFC 8446, section 4.6.1): whether `bytes` are one, with nothing after
    /// it, by the decoder.
    pub fn decode_check_new_session_ticket(bytes: &[u8]) -> Result<(), Error> {
        whole(bytes, foreign::tls13_new_session_ticket_decode_check_prefix).map_err(|it| it.error)
    }

    /// `NewSessionTicket` (RFC 8446, section 4.6.1): returns the bytes of the one that `bytes`
    /// begin with, and the rest, by the decoder.
    pub fn decode_check_new_session_ticket_prefix(bytes: &[u8]) -> Result<(&[u8], &[u8]), Error> {
        split(bytes, foreign::tls13_new_session_ticket_decode_check_prefix).map_err(|it| it.error)
    }

    /// `KeyUpdate` (RFC 8446, section 4.6.3): whether `bytes` are one, with nothing after it, by
    /// the decoder.
    pub fn decode_check_key_update(bytes: &[u8]) -> Result<(), Error> {
        whole(bytes, foreign::tls13_key_update_decode_check_prefix).map_err(|it| it.error)
    }

    /// `KeyUpdate` (RFC 8446, section 4.6.3): returns the bytes of the one that `bytes` begin with,
    /// and the rest, by the decoder.
    pub fn decode_check_key_update_prefix(bytes: &[u8]) -> Result<(&[u8], &[u8]), Error> {
        split(bytes, foreign::tls13_key_update_decode_check_prefix).map_err(|it| it.error)
    }
}

/// Messages of MLS, without allocation: validates them, locates their fields, takes the elements of
/// lists one by one, reads a message's wire format, and writes what is signed of it.
pub mod mls {
    use crate::{Elements, Rejected, nothing_left, split, split_as, whole, written_as};

    mod foreign {
        use crate::{Outcome, Span};

        /// Where the fields of an `MLSMessage` are (RFC 9420, section 6).
        #[repr(C)]
        #[derive(Clone, Copy, Default)]
        pub struct MLSMessageFields {
            pub version: Span,
            pub wire_format: Span,
            pub body: Span,
        }

        /// Where the fields of a `PublicMessage` are (RFC 9420, section 6.2).
        #[repr(C)]
        #[derive(Clone, Copy, Default)]
        pub struct PublicMessageFields {
            pub content: Span,
            pub auth: Span,
            pub membership_tag: Span,
        }

        /// Where the fields of a `PrivateMessage` are (RFC 9420, section 6.3). A span of `opaque`
        /// has the bytes without their length.
        #[repr(C)]
        #[derive(Clone, Copy, Default)]
        pub struct PrivateMessageFields {
            pub group_id: Span,
            pub epoch: Span,
            pub content_type: Span,
            pub authenticated_data: Span,
            pub encrypted_sender_data: Span,
            pub ciphertext: Span,
        }

        /// Where the fields of a `FramedContent` are (RFC 9420, section 6). A span of `opaque` has
        /// the bytes without their length.
        #[repr(C)]
        #[derive(Clone, Copy, Default)]
        pub struct FramedContentFields {
            pub group_id: Span,
            pub epoch: Span,
            pub sender: Span,
            pub authenticated_data: Span,
            pub content_type: Span,
            pub body: Span,
        }

        /// Where the fields of a `SenderData` are (RFC 9420, section 6.3.2).
        #[repr(C)]
        #[derive(Clone, Copy, Default)]
        pub struct SenderDataFields {
            pub leaf_index: Span,
            pub generation: Span,
            pub reuse_guard: Span,
        }

        /// Where the fields of a `KeyPackage` are (RFC 9420, section 10). A span of `opaque` has
        /// the bytes without their length.
        #[repr(C)]
        #[derive(Clone, Copy, Default)]
        pub struct KeyPackageFields {
            pub version: Span,
            pub cipher_suite: Span,
            pub init_key: Span,
            pub leaf_node: Span,
            pub extensions: Span,
            pub signature: Span,
        }

        /// Where the fields of a `LeafNode` are (RFC 9420, section 7.2). A span of `opaque` has the
        /// bytes without their length.
        #[repr(C)]
        #[derive(Clone, Copy, Default)]
        pub struct LeafNodeFields {
            pub encryption_key: Span,
            pub signature_key: Span,
            pub credential: Span,
            pub capabilities: Span,
            pub leaf_node_source: Span,
            pub origin: Span,
            pub extensions: Span,
            pub signature: Span,
        }

        /// Where the fields of a `Welcome` are (RFC 9420, section 12.4.3.1). A span of `opaque` has
        /// the bytes without their length.
        #[repr(C)]
        #[derive(Clone, Copy, Default)]
        pub struct WelcomeFields {
            pub cipher_suite: Span,
            pub secrets: Span,
            pub encrypted_group_info: Span,
        }

        /// Where the fields of a `GroupSecrets` are (RFC 9420, section 12.4.3.1). A span of
        /// `opaque` has the bytes without their length.
        #[repr(C)]
        #[derive(Clone, Copy, Default)]
        pub struct GroupSecretsFields {
            pub joiner_secret: Span,
            pub path_secret: Span,
            pub psks: Span,
        }

        /// Where the fields of a `GroupInfo` are (RFC 9420, section 12.4.3). A span of `opaque` has
        /// the bytes without their length.
        #[repr(C)]
        #[derive(Clone, Copy, Default)]
        pub struct GroupInfoFields {
            pub group_context: Span,
            pub extensions: Span,
            pub confirmation_tag: Span,
            pub signer: Span,
            pub signature: Span,
        }

        /// Where the fields of a `GroupContext` are (RFC 9420, section 8.1). A span of `opaque` has
        /// the bytes without their length.
        #[repr(C)]
        #[derive(Clone, Copy, Default)]
        pub struct GroupContextFields {
            pub version: Span,
            pub cipher_suite: Span,
            pub group_id: Span,
            pub epoch: Span,
            pub tree_hash: Span,
            pub confirmed_transcript_hash: Span,
            pub extensions: Span,
        }

        /// Where the fields of a `Commit` are (RFC 9420, section 12.4).
        #[repr(C)]
        #[derive(Clone, Copy, Default)]
        pub struct CommitFields {
            pub proposals: Span,
            pub path: Span,
        }

        /// Where the fields of a `Proposal` are (RFC 9420, section 12.1).
        #[repr(C)]
        #[derive(Clone, Copy, Default)]
        pub struct ProposalFields {
            pub proposal_type: Span,
            pub body: Span,
        }

        #[link(name = "tls_codec_mls", kind = "static")]
        unsafe extern "C" {
            pub fn mls_extension_next(bytes: *const u8, length: usize, left: &mut Span, element: &mut Span) -> Outcome;
            pub fn mls_optional_node_next(bytes: *const u8, length: usize, left: &mut Span, element: &mut Span) -> Outcome;
            pub fn mls_proposal_or_ref_next(bytes: *const u8, length: usize, left: &mut Span, element: &mut Span) -> Outcome;
            pub fn mls_encrypted_group_secrets_next(bytes: *const u8, length: usize, left: &mut Span, element: &mut Span) -> Outcome;
            pub fn mls_message_locate_prefix(bytes: *const u8, length: usize, fields: &mut MLSMessageFields) -> Outcome;
            pub fn mls_public_message_locate_prefix(bytes: *const u8, length: usize, fields: &mut PublicMessageFields) -> Outcome;
            pub fn mls_private_message_locate_prefix(bytes: *const u8, length: usize, fields: &mut PrivateMessageFields) -> Outcome;
            pub fn mls_framed_content_locate_prefix(bytes: *const u8, length: usize, fields: &mut FramedContentFields) -> Outcome;
            pub fn mls_sender_data_locate_prefix(bytes: *const u8, length: usize, fields: &mut SenderDataFields) -> Outcome;
            pub fn mls_key_package_locate_prefix(bytes: *const u8, length: usize, fields: &mut KeyPackageFields) -> Outcome;
            pub fn mls_leaf_node_locate_prefix(bytes: *const u8, length: usize, fields: &mut LeafNodeFields) -> Outcome;
            pub fn mls_welcome_locate_prefix(bytes: *const u8, length: usize, fields: &mut WelcomeFields) -> Outcome;
            pub fn mls_group_secrets_locate_prefix(bytes: *const u8, length: usize, fields: &mut GroupSecretsFields) -> Outcome;
            pub fn mls_group_info_locate_prefix(bytes: *const u8, length: usize, fields: &mut GroupInfoFields) -> Outcome;
            pub fn mls_group_context_locate_prefix(bytes: *const u8, length: usize, fields: &mut GroupContextFields) -> Outcome;
            pub fn mls_commit_locate_prefix(bytes: *const u8, length: usize, fields: &mut CommitFields) -> Outcome;
            pub fn mls_proposal_locate_prefix(bytes: *const u8, length: usize, fields: &mut ProposalFields) -> Outcome;
            pub fn mls_message_validate_prefix(bytes: *const u8, length: usize) -> Outcome;
            pub fn mls_public_message_validate_prefix(bytes: *const u8, length: usize) -> Outcome;
            pub fn mls_private_message_validate_prefix(bytes: *const u8, length: usize) -> Outcome;
            pub fn mls_framed_content_validate_prefix(bytes: *const u8, length: usize) -> Outcome;
            pub fn mls_sender_data_validate_prefix(bytes: *const u8, length: usize) -> Outcome;
            pub fn mls_welcome_validate_prefix(bytes: *const u8, length: usize) -> Outcome;
            pub fn mls_group_secrets_validate_prefix(bytes: *const u8, length: usize) -> Outcome;
            pub fn mls_group_info_validate_prefix(bytes: *const u8, length: usize) -> Outcome;
            pub fn mls_group_context_validate_prefix(bytes: *const u8, length: usize) -> Outcome;
            pub fn mls_commit_validate_prefix(bytes: *const u8, length: usize) -> Outcome;
            pub fn mls_proposal_validate_prefix(bytes: *const u8, length: usize) -> Outcome;
            pub fn mls_key_package_validate_prefix(bytes: *const u8, length: usize) -> Outcome;
            pub fn mls_leaf_node_validate_prefix(bytes: *const u8, length: usize) -> Outcome;
            pub fn mls_ratchet_tree_validate_prefix(bytes: *const u8, length: usize) -> Outcome;
            pub fn mls_framed_content_tbs_encode(
                wire_format: u16,
                content: *const u8,
                content_length: usize,
                context: *const u8,
                context_length: usize,
                out: *mut u8,
                out_length: usize,
            ) -> Outcome;
            pub fn mls_message_wire_format_prefix(bytes: *const u8, length: usize, wire_format: &mut u16) -> Outcome;
        }
    }

    /// The numbers of `WireFormat` that have names.
    pub mod wire_format {
        /// The number of `mls_public_message`.
        pub const PUBLIC_MESSAGE: u16 = 1;
        /// The number of `mls_private_message`.
        pub const PRIVATE_MESSAGE: u16 = 2;
        /// The number of `mls_welcome`.
        pub const WELCOME: u16 = 3;
        /// The number of `mls_group_info`.
        pub const GROUP_INFO: u16 = 4;
        /// The number of `mls_key_package`.
        pub const KEY_PACKAGE: u16 = 5;
    }

    /// The numbers of `SenderType` that have names.
    pub mod sender_type {
        /// The number of `member`.
        pub const MEMBER: u8 = 1;
        /// The number of `external`.
        pub const EXTERNAL: u8 = 2;
        /// The number of `new_member_proposal`.
        pub const NEW_MEMBER_PROPOSAL: u8 = 3;
        /// The number of `new_member_commit`.
        pub const NEW_MEMBER_COMMIT: u8 = 4;
    }

    /// The numbers of `ContentType` that have names.
    pub mod content_type {
        /// The number of `application`.
        pub const APPLICATION: u8 = 1;
        /// The number of `proposal`.
        pub const PROPOSAL: u8 = 2;
        /// The number of `commit`.
        pub const COMMIT: u8 = 3;
    }

    /// The numbers of `ProposalType` that have names.
    pub mod proposal_type {
        /// The number of `add`.
        pub const ADD: u16 = 1;
        /// The number of `update`.
        pub const UPDATE: u16 = 2;
        /// The number of `remove`.
        pub const REMOVE: u16 = 3;
        /// The number of `psk`.
        pub const PSK: u16 = 4;
        /// The number of `reinit`.
        pub const REINIT: u16 = 5;
        /// The number of `external_init`.
        pub const EXTERNAL_INIT: u16 = 6;
        /// The number of `group_context_extensions`.
        pub const GROUP_CONTEXT_EXTENSIONS: u16 = 7;
    }

    /// The numbers of `ProposalOrRefType` that have names.
    pub mod proposal_or_ref_type {
        /// The number of `proposal`.
        pub const PROPOSAL: u8 = 1;
        /// The number of `reference`.
        pub const REFERENCE: u8 = 2;
    }

    /// The numbers of `LeafNodeSource` that have names.
    pub mod leaf_node_source {
        /// The number of `key_package`.
        pub const KEY_PACKAGE: u8 = 1;
        /// The number of `update`.
        pub const UPDATE: u8 = 2;
        /// The number of `commit`.
        pub const COMMIT: u8 = 3;
    }

    /// The numbers of `CredentialType` that have names.
    pub mod credential_type {
        /// The number of `basic`.
        pub const BASIC: u16 = 1;
        /// The number of `x509`.
        pub const X509: u16 = 2;
    }

    /// The numbers of `ExtensionType` that have names.
    pub mod extension_type {
        /// The number of `application_id`.
        pub const APPLICATION_ID: u16 = 1;
        /// The number of `ratchet_tree`.
        pub const RATCHET_TREE: u16 = 2;
        /// The number of `required_capabilities`.
        pub const REQUIRED_CAPABILITIES: u16 = 3;
        /// The number of `external_pub`.
        pub const EXTERNAL_PUB: u16 = 4;
        /// The number of `external_senders`.
        pub const EXTERNAL_SENDERS: u16 = 5;
    }

    /// The numbers of `CipherSuite` that have names.
    pub mod cipher_suite {
        /// The number of `MLS_128_DHKEMX25519_AES128GCM_SHA256_Ed25519`.
        pub const MLS_128_DHKEMX25519_AES128GCM_SHA256_ED25519: u16 = 1;
        /// The number of `MLS_128_DHKEMP256_AES128GCM_SHA256_P256`.
        pub const MLS_128_DHKEMP256_AES128GCM_SHA256_P256: u16 = 2;
        /// The number of `MLS_128_DHKEMX25519_CHACHA20POLY1305_SHA256_Ed25519`.
        pub const MLS_128_DHKEMX25519_CHACHA20POLY1305_SHA256_ED25519: u16 = 3;
        /// The number of `MLS_256_DHKEMX448_AES256GCM_SHA512_Ed448`.
        pub const MLS_256_DHKEMX448_AES256GCM_SHA512_ED448: u16 = 4;
        /// The number of `MLS_256_DHKEMP521_AES256GCM_SHA512_P521`.
        pub const MLS_256_DHKEMP521_AES256GCM_SHA512_P521: u16 = 5;
        /// The number of `MLS_256_DHKEMX448_CHACHA20POLY1305_SHA512_Ed448`.
        pub const MLS_256_DHKEMX448_CHACHA20POLY1305_SHA512_ED448: u16 = 6;
        /// The number of `MLS_256_DHKEMP384_AES256GCM_SHA384_P384`.
        pub const MLS_256_DHKEMP384_AES256GCM_SHA384_P384: u16 = 7;
    }

    /// The numbers of `ProtocolVersion` that have names.
    pub mod protocol_version {
        /// The number of `mls10`.
        pub const MLS10: u16 = 1;
    }

    /// The numbers of `NodeType` that have names.
    pub mod node_type {
        /// The number of `leaf`.
        pub const LEAF: u8 = 1;
        /// The number of `parent`.
        pub const PARENT: u8 = 2;
    }

    /// `MLSMessage` (RFC 9420, section 6): whether `bytes` are one, with nothing after it.
    pub fn validate_message(bytes: &[u8]) -> Result<(), Rejected> {
        whole(bytes, foreign::mls_message_validate_prefix)
    }

    /// `MLSMessage` (RFC 9420, section 6): returns the bytes of the one that `bytes` begin with,
    /// and the rest.
    pub fn validate_message_prefix(bytes: &[u8]) -> Result<(&[u8], &[u8]), Rejected> {
        split(bytes, foreign::mls_message_validate_prefix)
    }

    /// `PublicMessage` (RFC 9420, section 6.2): whether `bytes` are one, with nothing after it.
    pub fn validate_public_message(bytes: &[u8]) -> Result<(), Rejected> {
        whole(bytes, foreign::mls_public_message_validate_prefix)
    }

    /// `PublicMessage` (RFC 9420, section 6.2): returns the bytes of the one that `bytes` begin
    /// with, and the rest.
    pub fn validate_public_message_prefix(bytes: &[u8]) -> Result<(&[u8], &[u8]), Rejected> {
        split(bytes, foreign::mls_public_message_validate_prefix)
    }

    /// `PrivateMessage` (RFC 9420, section 6.3): whether `bytes` are one, with nothing after it.
    pub fn validate_private_message(bytes: &[u8]) -> Result<(), Rejected> {
        whole(bytes, foreign::mls_private_message_validate_prefix)
    }

    /// `PrivateMessage` (RFC 9420, section 6.3): returns the bytes of the one that `bytes` begin
    /// with, and the rest.
    pub fn validate_private_message_prefix(bytes: &[u8]) -> Result<(&[u8], &[u8]), Rejected> {
        split(bytes, foreign::mls_private_message_validate_prefix)
    }

    /// `FramedContent` (RFC 9420, section 6): whether `bytes` are one, with nothing after it.
    pub fn validate_framed_content(bytes: &[u8]) -> Result<(), Rejected> {
        whole(bytes, foreign::mls_framed_content_validate_prefix)
    }

    /// `FramedContent` (RFC 9420, section 6): returns the bytes of the one that `bytes` begin with,
    /// and the rest.
    pub fn validate_framed_content_prefix(bytes: &[u8]) -> Result<(&[u8], &[u8]), Rejected> {
        split(bytes, foreign::mls_framed_content_validate_prefix)
    }

    /// `SenderData` (RFC 9420, section 6.3.2): whether `bytes` are one, with nothing after it.
    pub fn validate_sender_data(bytes: &[u8]) -> Result<(), Rejected> {
        whole(bytes, foreign::mls_sender_data_validate_prefix)
    }

    /// `SenderData` (RFC 9420, section 6.3.2): returns the bytes of the one that `bytes` begin
    /// with, and the rest.
    pub fn validate_sender_data_prefix(bytes: &[u8]) -> Result<(&[u8], &[u8]), Rejected> {
        split(bytes, foreign::mls_sender_data_validate_prefix)
    }

    /// `Welcome` (RFC 9420, section 12.4.3.1): whether `bytes` are one, with nothing after it.
    pub fn validate_welcome(bytes: &[u8]) -> Result<(), Rejected> {
        whole(bytes, foreign::mls_welcome_validate_prefix)
    }

    /// `Welcome` (RFC 9420, section 12.4.3.1): returns the bytes of the one that `bytes` begin
    /// with, and the rest.
    pub fn validate_welcome_prefix(bytes: &[u8]) -> Result<(&[u8], &[u8]), Rejected> {
        split(bytes, foreign::mls_welcome_validate_prefix)
    }

    /// `GroupSecrets` (RFC 9420, section 12.4.3.1): whether `bytes` are one, with nothing after it.
    pub fn validate_group_secrets(bytes: &[u8]) -> Result<(), Rejected> {
        whole(bytes, foreign::mls_group_secrets_validate_prefix)
    }

    /// `GroupSecrets` (RFC 9420, section 12.4.3.1): returns the bytes of the one that `bytes` begin
    /// with, and the rest.
    pub fn validate_group_secrets_prefix(bytes: &[u8]) -> Result<(&[u8], &[u8]), Rejected> {
        split(bytes, foreign::mls_group_secrets_validate_prefix)
    }

    /// `GroupInfo` (RFC 9420, section 12.4.3): whether `bytes` are one, with nothing after it.
    pub fn validate_group_info(bytes: &[u8]) -> Result<(), Rejected> {
        whole(bytes, foreign::mls_group_info_validate_prefix)
    }

    /// `GroupInfo` (RFC 9420, section 12.4.3): returns the bytes of the one that `bytes` begin
    /// with, and the rest.
    pub fn validate_group_info_prefix(bytes: &[u8]) -> Result<(&[u8], &[u8]), Rejected> {
        split(bytes, foreign::mls_group_info_validate_prefix)
    }

    /// `GroupContext` (RFC 9420, section 8.1): whether `bytes` are one, with nothing after it.
    pub fn validate_group_context(bytes: &[u8]) -> Result<(), Rejected> {
        whole(bytes, foreign::mls_group_context_validate_prefix)
    }

    /// `GroupContext` (RFC 9420, section 8.1): returns the bytes of the one that `bytes` begin
    /// with, and the rest.
    pub fn validate_group_context_prefix(bytes: &[u8]) -> Result<(&[u8], &[u8]), Rejected> {
        split(bytes, foreign::mls_group_context_validate_prefix)
    }

    /// `Commit` (RFC 9420, section 12.4): whether `bytes` are one, with nothing after it.
    pub fn validate_commit(bytes: &[u8]) -> Result<(), Rejected> {
        whole(bytes, foreign::mls_commit_validate_prefix)
    }

    /// `Commit` (RFC 9420, section 12.4): returns the bytes of the one that `bytes` begin with, and
    /// the rest.
    pub fn validate_commit_prefix(bytes: &[u8]) -> Result<(&[u8], &[u8]), Rejected> {
        split(bytes, foreign::mls_commit_validate_prefix)
    }

    /// `Proposal` (RFC 9420, section 12.1): whether `bytes` are one, with nothing after it.
    pub fn validate_proposal(bytes: &[u8]) -> Result<(), Rejected> {
        whole(bytes, foreign::mls_proposal_validate_prefix)
    }

    /// `Proposal` (RFC 9420, section 12.1): returns the bytes of the one that `bytes` begin with,
    /// and the rest.
    pub fn validate_proposal_prefix(bytes: &[u8]) -> Result<(&[u8], &[u8]), Rejected> {
        split(bytes, foreign::mls_proposal_validate_prefix)
    }

    /// `KeyPackage` (RFC 9420, section 10): whether `bytes` are one, with nothing after it.
    pub fn validate_key_package(bytes: &[u8]) -> Result<(), Rejected> {
        whole(bytes, foreign::mls_key_package_validate_prefix)
    }

    /// `KeyPackage` (RFC 9420, section 10): returns the bytes of the one that `bytes` begin with,
    /// and the rest.
    pub fn validate_key_package_prefix(bytes: &[u8]) -> Result<(&[u8], &[u8]), Rejected> {
        split(bytes, foreign::mls_key_package_validate_prefix)
    }

    /// `LeafNode` (RFC 9420, section 7.2): whether `bytes` are one, with nothing after it.
    pub fn validate_leaf_node(bytes: &[u8]) -> Result<(), Rejected> {
        whole(bytes, foreign::mls_leaf_node_validate_prefix)
    }

    /// `LeafNode` (RFC 9420, section 7.2): returns the bytes of the one that `bytes` begin with,
    /// and the rest.
    pub fn validate_leaf_node_prefix(bytes: &[u8]) -> Result<(&[u8], &[u8]), Rejected> {
        split(bytes, foreign::mls_leaf_node_validate_prefix)
    }

    /// `RatchetTree` (RFC 9420, section 12.4.3.3): whether `bytes` are one, with nothing after it.
    pub fn validate_ratchet_tree(bytes: &[u8]) -> Result<(), Rejected> {
        whole(bytes, foreign::mls_ratchet_tree_validate_prefix)
    }

    /// `RatchetTree` (RFC 9420, section 12.4.3.3): returns the bytes of the one that `bytes` begin
    /// with, and the rest.
    pub fn validate_ratchet_tree_prefix(bytes: &[u8]) -> Result<(&[u8], &[u8]), Rejected> {
        split(bytes, foreign::mls_ratchet_tree_validate_prefix)
    }

    /// Where the fields of an `MLSMessage` are (RFC 9420, section 6).
    #[derive(Clone, Copy, PartialEq, Eq, Debug)]
    pub struct MLSMessageFields<'a> {
        /// `ProtocolVersion version = mls10;`
        pub version: &'a [u8],
        /// `WireFormat wire_format;`
        pub wire_format: &'a [u8],
        /// The message after it, in the form that `wire_format` says
        pub body: &'a [u8],
    }

    /// `MLSMessage` (RFC 9420, section 6): returns its fields, if `bytes` are one, with nothing
    /// after it.
    pub fn locate_message(bytes: &[u8]) -> Result<MLSMessageFields<'_>, Rejected> {
        nothing_left(bytes, locate_message_prefix(bytes)?)
    }

    /// `MLSMessage` (RFC 9420, section 6): returns the fields of the one that `bytes` begin with,
    /// and the rest.
    pub fn locate_message_prefix(bytes: &[u8]) -> Result<(MLSMessageFields<'_>, &[u8]), Rejected> {
        let mut found = foreign::MLSMessageFields::default();
        // SAFETY: the pointer and the length are of one slice, nothing changes it during the call,
        // and the call keeps no pointer.
        let outcome = unsafe { foreign::mls_message_locate_prefix(bytes.as_ptr(), bytes.len(), &mut found) };
        let (_, rest) = split_as(bytes, outcome)?;
        let fields = MLSMessageFields {
            version: found.version.of(bytes),
            wire_format: found.wire_format.of(bytes),
            body: found.body.of(bytes),
        };
        Ok((fields, rest))
    }

    /// Where the fields of a `PublicMessage` are (RFC 9420, section 6.2).
    #[derive(Clone, Copy, PartialEq, Eq, Debug)]
    pub struct PublicMessageFields<'a> {
        /// `FramedContent content;`
        pub content: &'a [u8],
        /// `FramedContentAuthData auth;`: `opaque signature<V>` with its length, then of a commit
        /// its `MAC confirmation_tag` with its length
        pub auth: &'a [u8],
        /// `MAC membership_tag;` with its length; no bytes if the sender is no member
        pub membership_tag: &'a [u8],
    }

    /// `PublicMessage` (RFC 9420, section 6.2): returns its fields, if `bytes` are one, with
    /// nothing after it.
    pub fn locate_public_message(bytes: &[u8]) -> Result<PublicMessageFields<'_>, Rejected> {
        nothing_left(bytes, locate_public_message_prefix(bytes)?)
    }

    /// `PublicMessage` (RFC 9420, section 6.2): returns the fields of the one that `bytes` begin
    /// with, and the rest.
    pub fn locate_public_message_prefix(bytes: &[u8]) -> Result<(PublicMessageFields<'_>, &[u8]), Rejected> {
        let mut found = foreign::PublicMessageFields::default();
        // SAFETY: the pointer and the length are of one slice, nothing changes it during the call,
        // and the call keeps no pointer.
        let outcome = unsafe { foreign::mls_public_message_locate_prefix(bytes.as_ptr(), bytes.len(), &mut found) };
        let (_, rest) = split_as(bytes, outcome)?;
        let fields = PublicMessageFields {
            content: found.content.of(bytes),
            auth: found.auth.of(bytes),
            membership_tag: found.membership_tag.of(bytes),
        };
        Ok((fields, rest))
    }

    /// Where the fields of a `PrivateMessage` are (RFC 9420, section 6.3). A span of `opaque` has
    /// the bytes without their length.
    #[derive(Clone, Copy, PartialEq, Eq, Debug)]
    pub struct PrivateMessageFields<'a> {
        /// `opaque group_id<V>;`
        pub group_id: &'a [u8],
        /// `uint64 epoch;`
        pub epoch: &'a [u8],
        /// `ContentType content_type;`
        pub content_type: &'a [u8],
        /// `opaque authenticated_data<V>;`
        pub authenticated_data: &'a [u8],
        /// `opaque encrypted_sender_data<V>;`
        pub encrypted_sender_data: &'a [u8],
        /// `opaque ciphertext<V>;`
        pub ciphertext: &'a [u8],
    }

    /// `PrivateMessage` (RFC 9420, section 6.3): returns its fields, if `bytes` are one, with
    /// nothing after it.
    pub fn locate_private_message(bytes: &[u8]) -> Result<PrivateMessageFields<'_>, Rejected> {
        nothing_left(bytes, locate_private_message_prefix(bytes)?)
    }

    /// `PrivateMessage` (RFC 9420, section 6.3): returns the fields of the one that `bytes` begin
    /// with, and the rest.
    pub fn locate_private_message_prefix(bytes: &[u8]) -> Result<(PrivateMessageFields<'_>, &[u8]), Rejected> {
        let mut found = foreign::PrivateMessageFields::default();
        // SAFETY: the pointer and the length are of one slice, nothing changes it during the call,
        // and the call keeps no pointer.
        let outcome = unsafe { foreign::mls_private_message_locate_prefix(bytes.as_ptr(), bytes.len(), &mut found) };
        let (_, rest) = split_as(bytes, outcome)?;
        let fields = PrivateMessageFields {
            group_id: found.group_id.of(bytes),
            epoch: found.epoch.of(bytes),
            content_type: found.content_type.of(bytes),
            authenticated_data: found.authenticated_data.of(bytes),
            encrypted_sender_data: found.encrypted_sender_data.of(bytes),
            ciphertext: found.ciphertext.of(bytes),
        };
        Ok((fields, rest))
    }

    /// Where the fields of a `FramedContent` are (RFC 9420, section 6). A span of `opaque` has the
    /// bytes without their length.
    #[derive(Clone, Copy, PartialEq, Eq, Debug)]
    pub struct FramedContentFields<'a> {
        /// `opaque group_id<V>;`
        pub group_id: &'a [u8],
        /// `uint64 epoch;`
        pub epoch: &'a [u8],
        /// `Sender sender;`: a byte of `SenderType`, then of a member or an external sender its
        /// index, a uint32
        pub sender: &'a [u8],
        /// `opaque authenticated_data<V>;`
        pub authenticated_data: &'a [u8],
        /// `ContentType content_type;`
        pub content_type: &'a [u8],
        /// What its case has: `application_data` with its length, a `Proposal` or a `Commit`
        pub body: &'a [u8],
    }

    /// `FramedContent` (RFC 9420, section 6), with which a `PublicMessage` begins: returns its
    /// fields, if `bytes` are one, with nothing after it.
    pub fn locate_framed_content(bytes: &[u8]) -> Result<FramedContentFields<'_>, Rejected> {
        nothing_left(bytes, locate_framed_content_prefix(bytes)?)
    }

    /// `FramedContent` (RFC 9420, section 6), with which a `PublicMessage` begins: returns the
    /// fields of the one that `bytes` begin with, and the rest.
    pub fn locate_framed_content_prefix(bytes: &[u8]) -> Result<(FramedContentFields<'_>, &[u8]), Rejected> {
        let mut found = foreign::FramedContentFields::default();
        // SAFETY: the pointer and the length are of one slice, nothing changes it during the call,
        // and the call keeps no pointer.
        let outcome = unsafe { foreign::mls_framed_content_locate_prefix(bytes.as_ptr(), bytes.len(), &mut found) };
        let (_, rest) = split_as(bytes, outcome)?;
        let fields = FramedContentFields {
            group_id: found.group_id.of(bytes),
            epoch: found.epoch.of(bytes),
            sender: found.sender.of(bytes),
            authenticated_data: found.authenticated_data.of(bytes),
            content_type: found.content_type.of(bytes),
            body: found.body.of(bytes),
        };
        Ok((fields, rest))
    }

    /// Where the fields of a `SenderData` are (RFC 9420, section 6.3.2).
    #[derive(Clone, Copy, PartialEq, Eq, Debug)]
    pub struct SenderDataFields<'a> {
        /// `uint32 leaf_index;`
        pub leaf_index: &'a [u8],
        /// `uint32 generation;`
        pub generation: &'a [u8],
        /// `opaque reuse_guard[4];`
        pub reuse_guard: &'a [u8],
    }

    /// `SenderData` (RFC 9420, section 6.3.2): returns its fields, if `bytes` are one, with nothing
    /// after it.
    pub fn locate_sender_data(bytes: &[u8]) -> Result<SenderDataFields<'_>, Rejected> {
        nothing_left(bytes, locate_sender_data_prefix(bytes)?)
    }

    /// `SenderData` (RFC 9420, section 6.3.2): returns the fields of the one that `bytes` begin
    /// with, and the rest.
    pub fn locate_sender_data_prefix(bytes: &[u8]) -> Result<(SenderDataFields<'_>, &[u8]), Rejected> {
        let mut found = foreign::SenderDataFields::default();
        // SAFETY: the pointer and the length are of one slice, nothing changes it during the call,
        // and the call keeps no pointer.
        let outcome = unsafe { foreign::mls_sender_data_locate_prefix(bytes.as_ptr(), bytes.len(), &mut found) };
        let (_, rest) = split_as(bytes, outcome)?;
        let fields = SenderDataFields {
            leaf_index: found.leaf_index.of(bytes),
            generation: found.generation.of(bytes),
            reuse_guard: found.reuse_guard.of(bytes),
        };
        Ok((fields, rest))
    }

    /// Where the fields of a `KeyPackage` are (RFC 9420, section 10). A span of `opaque` has the
    /// bytes without their length.
    #[derive(Clone, Copy, PartialEq, Eq, Debug)]
    pub struct KeyPackageFields<'a> {
        /// `ProtocolVersion version;`
        pub version: &'a [u8],
        /// `CipherSuite cipher_suite;`
        pub cipher_suite: &'a [u8],
        /// `HPKEPublicKey init_key;` without its length
        pub init_key: &'a [u8],
        /// `LeafNode leaf_node;`
        pub leaf_node: &'a [u8],
        /// `Extension extensions<V>;` with its length
        pub extensions: &'a [u8],
        /// `opaque signature<V>;`
        pub signature: &'a [u8],
    }

    /// `KeyPackage` (RFC 9420, section 10): returns its fields, if `bytes` are one, with nothing
    /// after it.
    pub fn locate_key_package(bytes: &[u8]) -> Result<KeyPackageFields<'_>, Rejected> {
        nothing_left(bytes, locate_key_package_prefix(bytes)?)
    }

    /// `KeyPackage` (RFC 9420, section 10): returns the fields of the one that `bytes` begin with,
    /// and the rest.
    pub fn locate_key_package_prefix(bytes: &[u8]) -> Result<(KeyPackageFields<'_>, &[u8]), Rejected> {
        let mut found = foreign::KeyPackageFields::default();
        // SAFETY: the pointer and the length are of one slice, nothing changes it during the call,
        // and the call keeps no pointer.
        let outcome = unsafe { foreign::mls_key_package_locate_prefix(bytes.as_ptr(), bytes.len(), &mut found) };
        let (_, rest) = split_as(bytes, outcome)?;
        let fields = KeyPackageFields {
            version: found.version.of(bytes),
            cipher_suite: found.cipher_suite.of(bytes),
            init_key: found.init_key.of(bytes),
            leaf_node: found.leaf_node.of(bytes),
            extensions: found.extensions.of(bytes),
            signature: found.signature.of(bytes),
        };
        Ok((fields, rest))
    }

    /// Where the fields of a `LeafNode` are (RFC 9420, section 7.2). A span of `opaque` has the
    /// bytes without their length.
    #[derive(Clone, Copy, PartialEq, Eq, Debug)]
    pub struct LeafNodeFields<'a> {
        /// `HPKEPublicKey encryption_key;` without its length
        pub encryption_key: &'a [u8],
        /// `SignaturePublicKey signature_key;` without its length
        pub signature_key: &'a [u8],
        /// `Credential credential;`
        pub credential: &'a [u8],
        /// `Capabilities capabilities;`
        pub capabilities: &'a [u8],
        /// `LeafNodeSource leaf_node_source;`
        pub leaf_node_source: &'a [u8],
        /// What its case has: a `Lifetime`, nothing, or a `parent_hash` with its length
        pub origin: &'a [u8],
        /// `Extension extensions<V>;` with its length
        pub extensions: &'a [u8],
        /// `opaque signature<V>;`
        pub signature: &'a [u8],
    }

    /// `LeafNode` (RFC 9420, section 7.2): returns its fields, if `bytes` are one, with nothing
    /// after it.
    pub fn locate_leaf_node(bytes: &[u8]) -> Result<LeafNodeFields<'_>, Rejected> {
        nothing_left(bytes, locate_leaf_node_prefix(bytes)?)
    }

    /// `LeafNode` (RFC 9420, section 7.2): returns the fields of the one that `bytes` begin with,
    /// and the rest.
    pub fn locate_leaf_node_prefix(bytes: &[u8]) -> Result<(LeafNodeFields<'_>, &[u8]), Rejected> {
        let mut found = foreign::LeafNodeFields::default();
        // SAFETY: the pointer and the length are of one slice, nothing changes it during the call,
        // and the call keeps no pointer.
        let outcome = unsafe { foreign::mls_leaf_node_locate_prefix(bytes.as_ptr(), bytes.len(), &mut found) };
        let (_, rest) = split_as(bytes, outcome)?;
        let fields = LeafNodeFields {
            encryption_key: found.encryption_key.of(bytes),
            signature_key: found.signature_key.of(bytes),
            credential: found.credential.of(bytes),
            capabilities: found.capabilities.of(bytes),
            leaf_node_source: found.leaf_node_source.of(bytes),
            origin: found.origin.of(bytes),
            extensions: found.extensions.of(bytes),
            signature: found.signature.of(bytes),
        };
        Ok((fields, rest))
    }

    /// Where the fields of a `Welcome` are (RFC 9420, section 12.4.3.1). A span of `opaque` has the
    /// bytes without their length.
    #[derive(Clone, Copy, PartialEq, Eq, Debug)]
    pub struct WelcomeFields<'a> {
        /// `CipherSuite cipher_suite;`
        pub cipher_suite: &'a [u8],
        /// `EncryptedGroupSecrets secrets<V>;` with its length
        pub secrets: &'a [u8],
        /// `opaque encrypted_group_info<V>;`
        pub encrypted_group_info: &'a [u8],
    }

    /// `Welcome` (RFC 9420, section 12.4.3.1): returns its fields, if `bytes` are one, with nothing
    /// after it.
    pub fn locate_welcome(bytes: &[u8]) -> Result<WelcomeFields<'_>, Rejected> {
        nothing_left(bytes, locate_welcome_prefix(bytes)?)
    }

    /// `Welcome` (RFC 9420, section 12.4.3.1): returns the fields of the one that `bytes` begin
    /// with, and the rest.
    pub fn locate_welcome_prefix(bytes: &[u8]) -> Result<(WelcomeFields<'_>, &[u8]), Rejected> {
        let mut found = foreign::WelcomeFields::default();
        // SAFETY: the pointer and the length are of one slice, nothing changes it during the call,
        // and the call keeps no pointer.
        let outcome = unsafe { foreign::mls_welcome_locate_prefix(bytes.as_ptr(), bytes.len(), &mut found) };
        let (_, rest) = split_as(bytes, outcome)?;
        let fields = WelcomeFields {
            cipher_suite: found.cipher_suite.of(bytes),
            secrets: found.secrets.of(bytes),
            encrypted_group_info: found.encrypted_group_info.of(bytes),
        };
        Ok((fields, rest))
    }

    /// Where the fields of a `GroupSecrets` are (RFC 9420, section 12.4.3.1). A span of `opaque`
    /// has the bytes without their length.
    #[derive(Clone, Copy, PartialEq, Eq, Debug)]
    pub struct GroupSecretsFields<'a> {
        /// `opaque joiner_secret<V>;`
        pub joiner_secret: &'a [u8],
        /// `optional<PathSecret> path_secret;`: a byte 0, or a byte 1 and the `PathSecret`
        pub path_secret: &'a [u8],
        /// `PreSharedKeyID psks<V>;` with its length
        pub psks: &'a [u8],
    }

    /// `GroupSecrets` (RFC 9420, section 12.4.3.1): returns its fields, if `bytes` are one, with
    /// nothing after it.
    pub fn locate_group_secrets(bytes: &[u8]) -> Result<GroupSecretsFields<'_>, Rejected> {
        nothing_left(bytes, locate_group_secrets_prefix(bytes)?)
    }

    /// `GroupSecrets` (RFC 9420, section 12.4.3.1): returns the fields of the one that `bytes`
    /// begin with, and the rest.
    pub fn locate_group_secrets_prefix(bytes: &[u8]) -> Result<(GroupSecretsFields<'_>, &[u8]), Rejected> {
        let mut found = foreign::GroupSecretsFields::default();
        // SAFETY: the pointer and the length are of one slice, nothing changes it during the call,
        // and the call keeps no pointer.
        let outcome = unsafe { foreign::mls_group_secrets_locate_prefix(bytes.as_ptr(), bytes.len(), &mut found) };
        let (_, rest) = split_as(bytes, outcome)?;
        let fields = GroupSecretsFields {
            joiner_secret: found.joiner_secret.of(bytes),
            path_secret: found.path_secret.of(bytes),
            psks: found.psks.of(bytes),
        };
        Ok((fields, rest))
    }

    /// Where the fields of a `GroupInfo` are (RFC 9420, section 12.4.3). A span of `opaque` has the
    /// bytes without their length.
    #[derive(Clone, Copy, PartialEq, Eq, Debug)]
    pub struct GroupInfoFields<'a> {
        /// `GroupContext group_context;`
        pub group_context: &'a [u8],
        /// `Extension extensions<V>;` with its length
        pub extensions: &'a [u8],
        /// `MAC confirmation_tag;` without its length
        pub confirmation_tag: &'a [u8],
        /// `uint32 signer;`
        pub signer: &'a [u8],
        /// `opaque signature<V>;`
        pub signature: &'a [u8],
    }

    /// `GroupInfo` (RFC 9420, section 12.4.3): returns its fields, if `bytes` are one, with nothing
    /// after it.
    pub fn locate_group_info(bytes: &[u8]) -> Result<GroupInfoFields<'_>, Rejected> {
        nothing_left(bytes, locate_group_info_prefix(bytes)?)
    }

    /// `GroupInfo` (RFC 9420, section 12.4.3): returns the fields of the one that `bytes` begin
    /// with, and the rest.
    pub fn locate_group_info_prefix(bytes: &[u8]) -> Result<(GroupInfoFields<'_>, &[u8]), Rejected> {
        let mut found = foreign::GroupInfoFields::default();
        // SAFETY: the pointer and the length are of one slice, nothing changes it during the call,
        // and the call keeps no pointer.
        let outcome = unsafe { foreign::mls_group_info_locate_prefix(bytes.as_ptr(), bytes.len(), &mut found) };
        let (_, rest) = split_as(bytes, outcome)?;
        let fields = GroupInfoFields {
            group_context: found.group_context.of(bytes),
            extensions: found.extensions.of(bytes),
            confirmation_tag: found.confirmation_tag.of(bytes),
            signer: found.signer.of(bytes),
            signature: found.signature.of(bytes),
        };
        Ok((fields, rest))
    }

    /// Where the fields of a `GroupContext` are (RFC 9420, section 8.1). A span of `opaque` has the
    /// bytes without their length.
    #[derive(Clone, Copy, PartialEq, Eq, Debug)]
    pub struct GroupContextFields<'a> {
        /// `ProtocolVersion version = mls10;`
        pub version: &'a [u8],
        /// `CipherSuite cipher_suite;`
        pub cipher_suite: &'a [u8],
        /// `opaque group_id<V>;`
        pub group_id: &'a [u8],
        /// `uint64 epoch;`
        pub epoch: &'a [u8],
        /// `opaque tree_hash<V>;`
        pub tree_hash: &'a [u8],
        /// `opaque confirmed_transcript_hash<V>;`
        pub confirmed_transcript_hash: &'a [u8],
        /// `Extension extensions<V>;` with its length
        pub extensions: &'a [u8],
    }

    /// `GroupContext` (RFC 9420, section 8.1): returns its fields, if `bytes` are one, with nothing
    /// after it.
    pub fn locate_group_context(bytes: &[u8]) -> Result<GroupContextFields<'_>, Rejected> {
        nothing_left(bytes, locate_group_context_prefix(bytes)?)
    }

    /// `GroupContext` (RFC 9420, section 8.1): returns the fields of the one that `bytes` begin
    /// with, and the rest.
    pub fn locate_group_context_prefix(bytes: &[u8]) -> Result<(GroupContextFields<'_>, &[u8]), Rejected> {
        let mut found = foreign::GroupContextFields::default();
        // SAFETY: the pointer and the length are of one slice, nothing changes it during the call,
        // and the call keeps no pointer.
        let outcome = unsafe { foreign::mls_group_context_locate_prefix(bytes.as_ptr(), bytes.len(), &mut found) };
        let (_, rest) = split_as(bytes, outcome)?;
        let fields = GroupContextFields {
            version: found.version.of(bytes),
            cipher_suite: found.cipher_suite.of(bytes),
            group_id: found.group_id.of(bytes),
            epoch: found.epoch.of(bytes),
            tree_hash: found.tree_hash.of(bytes),
            confirmed_transcript_hash: found.confirmed_transcript_hash.of(bytes),
            extensions: found.extensions.of(bytes),
        };
        Ok((fields, rest))
    }

    /// Where the fields of a `Commit` are (RFC 9420, section 12.4).
    #[derive(Clone, Copy, PartialEq, Eq, Debug)]
    pub struct CommitFields<'a> {
        /// `ProposalOrRef proposals<V>;` with its length
        pub proposals: &'a [u8],
        /// `optional<UpdatePath> path;`: a byte 0, or a byte 1 and the `UpdatePath`
        pub path: &'a [u8],
    }

    /// `Commit` (RFC 9420, section 12.4): returns its fields, if `bytes` are one, with nothing
    /// after it.
    pub fn locate_commit(bytes: &[u8]) -> Result<CommitFields<'_>, Rejected> {
        nothing_left(bytes, locate_commit_prefix(bytes)?)
    }

    /// `Commit` (RFC 9420, section 12.4): returns the fields of the one that `bytes` begin with,
    /// and the rest.
    pub fn locate_commit_prefix(bytes: &[u8]) -> Result<(CommitFields<'_>, &[u8]), Rejected> {
        let mut found = foreign::CommitFields::default();
        // SAFETY: the pointer and the length are of one slice, nothing changes it during the call,
        // and the call keeps no pointer.
        let outcome = unsafe { foreign::mls_commit_locate_prefix(bytes.as_ptr(), bytes.len(), &mut found) };
        let (_, rest) = split_as(bytes, outcome)?;
        let fields = CommitFields {
            proposals: found.proposals.of(bytes),
            path: found.path.of(bytes),
        };
        Ok((fields, rest))
    }

    /// Where the fields of a `Proposal` are (RFC 9420, section 12.1).
    #[derive(Clone, Copy, PartialEq, Eq, Debug)]
    pub struct ProposalFields<'a> {
        /// `ProposalType proposal_type;`
        pub proposal_type: &'a [u8],
        /// What its case has: an `Add`, an `Update`, ..
        pub body: &'a [u8],
    }

    /// `Proposal` (RFC 9420, section 12.1): returns its fields, if `bytes` are one, with nothing
    /// after it.
    pub fn locate_proposal(bytes: &[u8]) -> Result<ProposalFields<'_>, Rejected> {
        nothing_left(bytes, locate_proposal_prefix(bytes)?)
    }

    /// `Proposal` (RFC 9420, section 12.1): returns the fields of the one that `bytes` begin with,
    /// and the rest.
    pub fn locate_proposal_prefix(bytes: &[u8]) -> Result<(ProposalFields<'_>, &[u8]), Rejected> {
        let mut found = foreign::ProposalFields::default();
        // SAFETY: the pointer and the length are of one slice, nothing changes it during the call,
        // and the call keeps no pointer.
        let outcome = unsafe { foreign::mls_proposal_locate_prefix(bytes.as_ptr(), bytes.len(), &mut found) };
        let (_, rest) = split_as(bytes, outcome)?;
        let fields = ProposalFields {
            proposal_type: found.proposal_type.of(bytes),
            body: found.body.of(bytes),
        };
        Ok((fields, rest))
    }

    /// `MLSMessage` (RFC 9420, section 6), and its `WireFormat`: 1 is a public message, 2 a private
    /// message, 3 a welcome, 4 a group info, 5 a key package. Returns that number, if no bytes are
    /// left.
    pub fn message_wire_format(bytes: &[u8]) -> Result<u16, Rejected> {
        nothing_left(bytes, message_wire_format_prefix(bytes)?)
    }

    /// `MLSMessage` (RFC 9420, section 6), and its `WireFormat`: 1 is a public message, 2 a private
    /// message, 3 a welcome, 4 a group info, 5 a key package. Returns that number, and the rest of
    /// the bytes.
    pub fn message_wire_format_prefix(bytes: &[u8]) -> Result<(u16, &[u8]), Rejected> {
        let mut found = 0u16;
        // SAFETY: the pointer and the length are of one slice, nothing changes it during the call,
        // and the call keeps no pointer.
        let outcome = unsafe { foreign::mls_message_wire_format_prefix(bytes.as_ptr(), bytes.len(), &mut found) };
        let (_, rest) = split_as(bytes, outcome)?;
        Ok((found, rest))
    }

    /// `FramedContentTBS` (RFC 9420, section 6.1): writes into `out` what `SignWithLabel` (section
    /// 5.1.2) signs of a message, under the label `FramedContentTBS`: the version, the wire format,
    /// the encoding of a `FramedContent`, and that of a `GroupContext` if the sender is a member or
    /// a new member that commits; else `context` is empty. Any wire format is written; a public
    /// message has 1, a private message 2. Returns the written bytes, if all of them are accepted.
    /// Else the error is that of validation, and its place counts from the first byte of `out`,
    /// which they stay in; a context that isn't signed is `TrailingData`. `out` has to have at
    /// least 4 + `content.len()` + `context.len()` bytes, the number of those that are written. If
    /// it has fewer, nothing is written, and the error is `InvalidWriteLength`. `Ok` says that the
    /// written bytes are a `FramedContentTBS`, not that `content` ends where you say: validate both
    /// parts before, or take them from `locate_NAME`.
    pub fn framed_content_tbs<'a>(wire_format: u16, content: &[u8], context: &[u8], out: &'a mut [u8]) -> Result<&'a [u8], Rejected> {
        // SAFETY: each pointer and its length are of one slice, nothing else changes or reads it
        // during the call, and the call keeps no pointer.
        let outcome = unsafe {
            foreign::mls_framed_content_tbs_encode(
                wire_format,
                content.as_ptr(), content.len(),
                context.as_ptr(), context.len(),
                out.as_mut_ptr(), out.len(),
            )
        };
        written_as(out, 4 + content.len() + context.len(), outcome)
    }

    /// `Extension` (RFC 9420, section 7.2): an iterator over a list's elements. `content` is the
    /// list without its length; an error's `at` counts from its first byte.
    pub fn extension_elements(content: &[u8]) -> Elements<'_> {
        Elements::of(content, foreign::mls_extension_next)
    }

    /// `optional<Node>` of a `RatchetTree` (RFC 9420, section 12.4.3.3): an iterator over a list's
    /// elements. `content` is the list without its length; an error's `at` counts from its first
    /// byte.
    pub fn optional_node_elements(content: &[u8]) -> Elements<'_> {
        Elements::of(content, foreign::mls_optional_node_next)
    }

    /// `ProposalOrRef` of a `Commit` (RFC 9420, section 12.4): an iterator over a list's elements.
    /// `content` is the list without its length; an error's `at` counts from its first byte.
    pub fn proposal_or_ref_elements(content: &[u8]) -> Elements<'_> {
        Elements::of(content, foreign::mls_proposal_or_ref_next)
    }

    /// `EncryptedGroupSecrets` of a `Welcome` (RFC 9420, section 12.4.3.1): an iterator over a
    /// list's elements. `content` is the list without its length; an error's `at` counts from its
    /// first byte.
    pub fn encrypted_group_secrets_elements(content: &[u8]) -> Elements<'_> {
        Elements::of(content, foreign::mls_encrypted_group_secrets_next)
    }
}

/// Checks whether bytes begin with a message of MLS: its decoder makes the value and drops it.
/// `OutOfMemory`: memory was refused, and nothing is said about the bytes. The position of a
/// rejected field isn't reported.
#[cfg(feature = "decode")]
pub mod mls_decode {
    use crate::{Error, split, whole};

    mod foreign {
        use crate::Outcome;

        #[link(name = "tls_codec_mls_decode", kind = "static")]
        unsafe extern "C" {
            pub fn mls_message_decode_check_prefix(bytes: *const u8, length: usize) -> Outcome;
            pub fn mls_public_message_decode_check_prefix(bytes: *const u8, length: usize) -> Outcome;
            pub fn mls_private_message_decode_check_prefix(bytes: *const u8, length: usize) -> Outcome;
            pub fn mls_framed_content_decode_check_prefix(bytes: *const u8, length: usize) -> Outcome;
            pub fn mls_sender_data_decode_check_prefix(bytes: *const u8, length: usize) -> Outcome;
            pub fn mls_welcome_decode_check_prefix(bytes: *const u8, length: usize) -> Outcome;
            pub fn mls_group_secrets_decode_check_prefix(bytes: *const u8, length: usize) -> Outcome;
            pub fn mls_group_info_decode_check_prefix(bytes: *const u8, length: usize) -> Outcome;
            pub fn mls_group_context_decode_check_prefix(bytes: *const u8, length: usize) -> Outcome;
            pub fn mls_commit_decode_check_prefix(bytes: *const u8, length: usize) -> Outcome;
            pub fn mls_proposal_decode_check_prefix(bytes: *const u8, length: usize) -> Outcome;
            pub fn mls_key_package_decode_check_prefix(bytes: *const u8, length: usize) -> Outcome;
            pub fn mls_leaf_node_decode_check_prefix(bytes: *const u8, length: usize) -> Outcome;
            pub fn mls_ratchet_tree_decode_check_prefix(bytes: *const u8, length: usize) -> Outcome;
        }
    }

    /// `MLSMessage` (RFC 9420, section 6): whether `bytes` are one, with nothing after it, by the
    /// decoder.
    pub fn decode_check_message(bytes: &[u8]) -> Result<(), Error> {
        whole(bytes, foreign::mls_message_decode_check_prefix).map_err(|it| it.error)
    }

    /// `MLSMessage` (RFC 9420, section 6): returns the bytes of the one that `bytes` begin with,
    /// and the rest, by the decoder.
    pub fn decode_check_message_prefix(bytes: &[u8]) -> Result<(&[u8], &[u8]), Error> {
        split(bytes, foreign::mls_message_decode_check_prefix).map_err(|it| it.error)
    }

    /// `PublicMessage` (RFC 9420, section 6.2): whether `bytes` are one, with nothing after it, by
    /// the decoder.
    pub fn decode_check_public_message(bytes: &[u8]) -> Result<(), Error> {
        whole(bytes, foreign::mls_public_message_decode_check_prefix).map_err(|it| it.error)
    }

    /// `PublicMessage` (RFC 9420, section 6.2): returns the bytes of the one that `bytes` begin
    /// with, and the rest, by the decoder.
    pub fn decode_check_public_message_prefix(bytes: &[u8]) -> Result<(&[u8], &[u8]), Error> {
        split(bytes, foreign::mls_public_message_decode_check_prefix).map_err(|it| it.error)
    }

    /// `PrivateMessage` (RFC 9420, section 6.3): whether `bytes` are one, with nothing after it, by
    /// the decoder.
    pub fn decode_check_private_message(bytes: &[u8]) -> Result<(), Error> {
        whole(bytes, foreign::mls_private_message_decode_check_prefix).map_err(|it| it.error)
    }

    /// `PrivateMessage` (RFC 9420, section 6.3): returns the bytes of the one that `bytes` begin
    /// with, and the rest, by the decoder.
    pub fn decode_check_private_message_prefix(bytes: &[u8]) -> Result<(&[u8], &[u8]), Error> {
        split(bytes, foreign::mls_private_message_decode_check_prefix).map_err(|it| it.error)
    }

    /// `FramedContent` (RFC 9420, section 6): whether `bytes` are one, with nothing after it, by
    /// the decoder.
    pub fn decode_check_framed_content(bytes: &[u8]) -> Result<(), Error> {
        whole(bytes, foreign::mls_framed_content_decode_check_prefix).map_err(|it| it.error)
    }

    /// `FramedContent` (RFC 9420, section 6): returns the bytes of the one that `bytes` begin with,
    /// and the rest, by the decoder.
    pub fn decode_check_framed_content_prefix(bytes: &[u8]) -> Result<(&[u8], &[u8]), Error> {
        split(bytes, foreign::mls_framed_content_decode_check_prefix).map_err(|it| it.error)
    }

    /// `SenderData` (RFC 9420, section 6.3.2): whether `bytes` are one, with nothing after it, by
    /// the decoder.
    pub fn decode_check_sender_data(bytes: &[u8]) -> Result<(), Error> {
        whole(bytes, foreign::mls_sender_data_decode_check_prefix).map_err(|it| it.error)
    }

    /// `SenderData` (RFC 9420, section 6.3.2): returns the bytes of the one that `bytes` begin
    /// with, and the rest, by the decoder.
    pub fn decode_check_sender_data_prefix(bytes: &[u8]) -> Result<(&[u8], &[u8]), Error> {
        split(bytes, foreign::mls_sender_data_decode_check_prefix).map_err(|it| it.error)
    }

    /// `Welcome` (RFC 9420, section 12.4.3.1): whether `bytes` are one, with nothing after it, by
    /// the decoder.
    pub fn decode_check_welcome(bytes: &[u8]) -> Result<(), Error> {
        whole(bytes, foreign::mls_welcome_decode_check_prefix).map_err(|it| it.error)
    }

    /// `Welcome` (RFC 9420, section 12.4.3.1): returns the bytes of the one that `bytes` begin
    /// with, and the rest, by the decoder.
    pub fn decode_check_welcome_prefix(bytes: &[u8]) -> Result<(&[u8], &[u8]), Error> {
        split(bytes, foreign::mls_welcome_decode_check_prefix).map_err(|it| it.error)
    }

    /// `GroupSecrets` (RFC 9420, section 12.4.3.1): whether `bytes` are one, with nothing after it,
    /// by the decoder.
    pub fn decode_check_group_secrets(bytes: &[u8]) -> Result<(), Error> {
        whole(bytes, foreign::mls_group_secrets_decode_check_prefix).map_err(|it| it.error)
    }

    /// `GroupSecrets` (RFC 9420, section 12.4.3.1): returns the bytes of the one that `bytes` begin
    /// with, and the rest, by the decoder.
    pub fn decode_check_group_secrets_prefix(bytes: &[u8]) -> Result<(&[u8], &[u8]), Error> {
        split(bytes, foreign::mls_group_secrets_decode_check_prefix).map_err(|it| it.error)
    }

    /// `GroupInfo` (RFC 9420, section 12.4.3): whether `bytes` are one, with nothing after it, by
    /// the decoder.
    pub fn decode_check_group_info(bytes: &[u8]) -> Result<(), Error> {
        whole(bytes, foreign::mls_group_info_decode_check_prefix).map_err(|it| it.error)
    }

    /// `GroupInfo` (RFC 9420, section 12.4.3): returns the bytes of the one that `bytes` begin
    /// with, and the rest, by the decoder.
    pub fn decode_check_group_info_prefix(bytes: &[u8]) -> Result<(&[u8], &[u8]), Error> {
        split(bytes, foreign::mls_group_info_decode_check_prefix).map_err(|it| it.error)
    }

    /// `GroupContext` (RFC 9420, section 8.1): whether `bytes` are one, with nothing after it, by
    /// the decoder.
    pub fn decode_check_group_context(bytes: &[u8]) -> Result<(), Error> {
        whole(bytes, foreign::mls_group_context_decode_check_prefix).map_err(|it| it.error)
    }

    /// `GroupContext` (RFC 9420, section 8.1): returns the bytes of the one that `bytes` begin
    /// with, and the rest, by the decoder.
    pub fn decode_check_group_context_prefix(bytes: &[u8]) -> Result<(&[u8], &[u8]), Error> {
        split(bytes, foreign::mls_group_context_decode_check_prefix).map_err(|it| it.error)
    }

    /// `Commit` (RFC 9420, section 12.4): whether `bytes` are one, with nothing after it, by the
    /// decoder.
    pub fn decode_check_commit(bytes: &[u8]) -> Result<(), Error> {
        whole(bytes, foreign::mls_commit_decode_check_prefix).map_err(|it| it.error)
    }

    /// `Commit` (RFC 9420, section 12.4): returns the bytes of the one that `bytes` begin with, and
    /// the rest, by the decoder.
    pub fn decode_check_commit_prefix(bytes: &[u8]) -> Result<(&[u8], &[u8]), Error> {
        split(bytes, foreign::mls_commit_decode_check_prefix).map_err(|it| it.error)
    }

    /// `Proposal` (RFC 9420, section 12.1): whether `bytes` are one, with nothing after it, by the
    /// decoder.
    pub fn decode_check_proposal(bytes: &[u8]) -> Result<(), Error> {
        whole(bytes, foreign::mls_proposal_decode_check_prefix).map_err(|it| it.error)
    }

    /// `Proposal` (RFC 9420, section 12.1): returns the bytes of the one that `bytes` begin with,
    /// and the rest, by the decoder.
    pub fn decode_check_proposal_prefix(bytes: &[u8]) -> Result<(&[u8], &[u8]), Error> {
        split(bytes, foreign::mls_proposal_decode_check_prefix).map_err(|it| it.error)
    }

    /// `KeyPackage` (RFC 9420, section 10): whether `bytes` are one, with nothing after it, by the
    /// decoder.
    pub fn decode_check_key_package(bytes: &[u8]) -> Result<(), Error> {
        whole(bytes, foreign::mls_key_package_decode_check_prefix).map_err(|it| it.error)
    }

    /// `KeyPackage` (RFC 9420, section 10): returns the bytes of the one that `bytes` begin with,
    /// and the rest, by the decoder.
    pub fn decode_check_key_package_prefix(bytes: &[u8]) -> Result<(&[u8], &[u8]), Error> {
        split(bytes, foreign::mls_key_package_decode_check_prefix).map_err(|it| it.error)
    }

    /// `LeafNode` (RFC 9420, section 7.2): whether `bytes` are one, with nothing after it, by the
    /// decoder.
    pub fn decode_check_leaf_node(bytes: &[u8]) -> Result<(), Error> {
        whole(bytes, foreign::mls_leaf_node_decode_check_prefix).map_err(|it| it.error)
    }

    /// `LeafNode` (RFC 9420, section 7.2): returns the bytes of the one that `bytes` begin with,
    /// and the rest, by the decoder.
    pub fn decode_check_leaf_node_prefix(bytes: &[u8]) -> Result<(&[u8], &[u8]), Error> {
        split(bytes, foreign::mls_leaf_node_decode_check_prefix).map_err(|it| it.error)
    }

    /// `RatchetTree` (RFC 9420, section 12.4.3.3): whether `bytes` are one, with nothing after it,
    /// by the decoder.
    pub fn decode_check_ratchet_tree(bytes: &[u8]) -> Result<(), Error> {
        whole(bytes, foreign::mls_ratchet_tree_decode_check_prefix).map_err(|it| it.error)
    }

    /// `RatchetTree` (RFC 9420, section 12.4.3.3): returns the bytes of the one that `bytes` begin
    /// with, and the rest, by the decoder.
    pub fn decode_check_ratchet_tree_prefix(bytes: &[u8]) -> Result<(&[u8], &[u8]), Error> {
        split(bytes, foreign::mls_ratchet_tree_decode_check_prefix).map_err(|it| it.error)
    }
}
