"""Written by tools/check_exports.py. Don't edit."""

import enum

# The version, by CHANGELOG.md.
VERSION = "0.3.0"

# What archives of this version and these headers have beside them.
MARK = "0.3.0 92cded28729147bc"

# The names of the statuses, by their numbers.
STATUSES = [
    "Accepted",
    "EncodingError",
    "InvalidVectorLength",
    "InvalidWriteLength",
    "InvalidInput",
    "DecodingError",
    "EndOfStream",
    "TrailingData",
    "UnknownValue",
    "LibraryError",
    "OutOfMemory",
]

# A sentence on each, for a person to read, of those that a call returns.
SENTENCES = {
    "Accepted": "The bytes are accepted.",
    "InvalidVectorLength": "A length isn't in its shortest form, or isn't allowed for its field.",
    "InvalidWriteLength": "The buffer to write into is too small.",
    "DecodingError": "Content is cut off, an element passes its list's end, or an option doesn't begin with 0 or 1.",
    "EndOfStream": "The message, or a list in it, ends within a field.",
    "TrailingData": "Bytes come after the message, or after a part that was to fill a length.",
    "UnknownValue": "A number names no case of this message, or isn't the value that a field must have.",
    "OutOfMemory": "Memory ran out.",
}

# The sentence on another status.
OTHER_STATUS = "A status that these declarations don't know."

# The functions that are given bytes, and then what they fill.
CALLS = [
    "tls_codec_varint_validate_prefix",
    "tls_codec_opaque_v_locate_prefix",
    "tls_codec_opaque_u8_locate_prefix",
    "tls_codec_opaque_u16_locate_prefix",
    "tls_codec_opaque_u24_locate_prefix",
    "tls13_extension_next",
    "tls13_key_share_entry_next",
    "tls13_certificate_entry_next",
    "tls13_handshake_locate_prefix",
    "tls13_client_hello_locate_prefix",
    "tls13_server_hello_locate_prefix",
    "tls13_encrypted_extensions_locate_prefix",
    "tls13_certificate_request_locate_prefix",
    "tls13_certificate_locate_prefix",
    "tls13_certificate_verify_locate_prefix",
    "tls13_new_session_ticket_locate_prefix",
    "tls13_key_update_locate_prefix",
    "tls13_tls_plaintext_locate_prefix",
    "tls13_tls_ciphertext_locate_prefix",
    "tls13_alert_locate_prefix",
    "tls13_tls_plaintext_validate_prefix",
    "tls13_tls_ciphertext_validate_prefix",
    "tls13_alert_validate_prefix",
    "tls13_handshake_validate_prefix",
    "tls13_client_hello_validate_prefix",
    "tls13_server_hello_validate_prefix",
    "tls13_encrypted_extensions_validate_prefix",
    "tls13_certificate_request_validate_prefix",
    "tls13_certificate_validate_prefix",
    "tls13_certificate_verify_validate_prefix",
    "tls13_new_session_ticket_validate_prefix",
    "tls13_key_update_validate_prefix",
    "tls13_tls_plaintext_decode_check_prefix",
    "tls13_tls_ciphertext_decode_check_prefix",
    "tls13_alert_decode_check_prefix",
    "tls13_handshake_decode_check_prefix",
    "tls13_client_hello_decode_check_prefix",
    "tls13_server_hello_decode_check_prefix",
    "tls13_encrypted_extensions_decode_check_prefix",
    "tls13_certificate_request_decode_check_prefix",
    "tls13_certificate_decode_check_prefix",
    "tls13_certificate_verify_decode_check_prefix",
    "tls13_new_session_ticket_decode_check_prefix",
    "tls13_key_update_decode_check_prefix",
    "mls_extension_next",
    "mls_optional_node_next",
    "mls_proposal_or_ref_next",
    "mls_encrypted_group_secrets_next",
    "mls_message_locate_prefix",
    "mls_public_message_locate_prefix",
    "mls_private_message_locate_prefix",
    "mls_framed_content_locate_prefix",
    "mls_sender_data_locate_prefix",
    "mls_key_package_locate_prefix",
    "mls_leaf_node_locate_prefix",
    "mls_welcome_locate_prefix",
    "mls_group_secrets_locate_prefix",
    "mls_group_info_locate_prefix",
    "mls_group_context_locate_prefix",
    "mls_commit_locate_prefix",
    "mls_proposal_locate_prefix",
    "mls_message_validate_prefix",
    "mls_public_message_validate_prefix",
    "mls_private_message_validate_prefix",
    "mls_framed_content_validate_prefix",
    "mls_sender_data_validate_prefix",
    "mls_welcome_validate_prefix",
    "mls_group_secrets_validate_prefix",
    "mls_group_info_validate_prefix",
    "mls_group_context_validate_prefix",
    "mls_commit_validate_prefix",
    "mls_proposal_validate_prefix",
    "mls_key_package_validate_prefix",
    "mls_leaf_node_validate_prefix",
    "mls_ratchet_tree_validate_prefix",
    "mls_message_wire_format_prefix",
    "mls_message_decode_check_prefix",
    "mls_public_message_decode_check_prefix",
    "mls_private_message_decode_check_prefix",
    "mls_framed_content_decode_check_prefix",
    "mls_sender_data_decode_check_prefix",
    "mls_welcome_decode_check_prefix",
    "mls_group_secrets_decode_check_prefix",
    "mls_group_info_decode_check_prefix",
    "mls_group_context_decode_check_prefix",
    "mls_commit_decode_check_prefix",
    "mls_proposal_decode_check_prefix",
    "mls_key_package_decode_check_prefix",
    "mls_leaf_node_decode_check_prefix",
    "mls_ratchet_tree_decode_check_prefix",
]

# What `NAME_locate_prefix` fills, in this order, by NAME.
FIELDS = {
    "tls_codec_opaque_v": ["content"],
    "tls_codec_opaque_u8": ["content"],
    "tls_codec_opaque_u16": ["content"],
    "tls_codec_opaque_u24": ["content"],
    "tls13_handshake": ["msg_type", "body"],
    "tls13_client_hello": ["legacy_version", "random", "legacy_session_id", "cipher_suites", "legacy_compression_methods", "extensions"],
    "tls13_server_hello": ["legacy_version", "random", "legacy_session_id_echo", "cipher_suite", "legacy_compression_method", "extensions"],
    "tls13_encrypted_extensions": ["extensions"],
    "tls13_certificate_request": ["certificate_request_context", "extensions"],
    "tls13_certificate": ["certificate_request_context", "certificate_list"],
    "tls13_certificate_verify": ["algorithm", "signature"],
    "tls13_new_session_ticket": ["ticket_lifetime", "ticket_age_add", "ticket_nonce", "ticket", "extensions"],
    "tls13_key_update": ["request_update"],
    "tls13_tls_plaintext": ["type", "legacy_record_version", "fragment"],
    "tls13_tls_ciphertext": ["opaque_type", "legacy_record_version", "encrypted_record"],
    "tls13_alert": ["level", "description"],
    "mls_message": ["version", "wire_format", "body"],
    "mls_public_message": ["content", "auth", "membership_tag"],
    "mls_private_message": ["group_id", "epoch", "content_type", "authenticated_data", "encrypted_sender_data", "ciphertext"],
    "mls_framed_content": ["group_id", "epoch", "sender", "authenticated_data", "content_type", "body"],
    "mls_sender_data": ["leaf_index", "generation", "reuse_guard"],
    "mls_key_package": ["version", "cipher_suite", "init_key", "leaf_node", "extensions", "signature"],
    "mls_leaf_node": ["encryption_key", "signature_key", "credential", "capabilities", "leaf_node_source", "origin", "extensions", "signature"],
    "mls_welcome": ["cipher_suite", "secrets", "encrypted_group_info"],
    "mls_group_secrets": ["joiner_secret", "path_secret", "psks"],
    "mls_group_info": ["group_context", "extensions", "confirmation_tag", "signer", "signature"],
    "mls_group_context": ["version", "cipher_suite", "group_id", "epoch", "tree_hash", "confirmed_transcript_hash", "extensions"],
    "mls_commit": ["proposals", "path"],
    "mls_proposal": ["proposal_type", "body"],
}

# Fields whose bytes begin, in some case or in each, with a length that the header names. Other fields that are a struct,
# an option or a case have the lengths of their parts in them, and aren't listed.
WITH_LENGTH = {
    "tls13_handshake": ["body"],
    "tls13_client_hello": ["cipher_suites", "extensions"],
    "tls13_server_hello": ["extensions"],
    "tls13_encrypted_extensions": ["extensions"],
    "tls13_certificate_request": ["extensions"],
    "tls13_certificate": ["certificate_list"],
    "tls13_new_session_ticket": ["extensions"],
    "mls_public_message": ["auth", "membership_tag"],
    "mls_framed_content": ["body"],
    "mls_key_package": ["extensions"],
    "mls_leaf_node": ["origin", "extensions"],
    "mls_welcome": ["secrets"],
    "mls_group_secrets": ["psks"],
    "mls_group_info": ["extensions"],
    "mls_group_context": ["extensions"],
    "mls_commit": ["proposals"],
}


class MlsWireFormat(enum.IntEnum):
    """The numbers of WireFormat that have names."""

    PUBLIC_MESSAGE = 1
    PRIVATE_MESSAGE = 2
    WELCOME = 3
    GROUP_INFO = 4
    KEY_PACKAGE = 5


class MlsSenderType(enum.IntEnum):
    """The numbers of SenderType that have names."""

    MEMBER = 1
    EXTERNAL = 2
    NEW_MEMBER_PROPOSAL = 3
    NEW_MEMBER_COMMIT = 4


class MlsContentType(enum.IntEnum):
    """The numbers of ContentType that have names."""

    APPLICATION = 1
    PROPOSAL = 2
    COMMIT = 3


class MlsProposalType(enum.IntEnum):
    """The numbers of ProposalType that have names."""

    ADD = 1
    UPDATE = 2
    REMOVE = 3
    PSK = 4
    REINIT = 5
    EXTERNAL_INIT = 6
    GROUP_CONTEXT_EXTENSIONS = 7


class MlsProposalOrRefType(enum.IntEnum):
    """The numbers of ProposalOrRefType that have names."""

    PROPOSAL = 1
    REFERENCE = 2


class MlsLeafNodeSource(enum.IntEnum):
    """The numbers of LeafNodeSource that have names."""

    KEY_PACKAGE = 1
    UPDATE = 2
    COMMIT = 3


class MlsCredentialType(enum.IntEnum):
    """The numbers of CredentialType that have names."""

    BASIC = 1
    X509 = 2


class MlsExtensionType(enum.IntEnum):
    """The numbers of ExtensionType that have names."""

    APPLICATION_ID = 1
    RATCHET_TREE = 2
    REQUIRED_CAPABILITIES = 3
    EXTERNAL_PUB = 4
    EXTERNAL_SENDERS = 5


class MlsCipherSuite(enum.IntEnum):
    """The numbers of CipherSuite that have names."""

    MLS_128_DHKEMX25519_AES128GCM_SHA256_ED25519 = 1
    MLS_128_DHKEMP256_AES128GCM_SHA256_P256 = 2
    MLS_128_DHKEMX25519_CHACHA20POLY1305_SHA256_ED25519 = 3
    MLS_256_DHKEMX448_AES256GCM_SHA512_ED448 = 4
    MLS_256_DHKEMP521_AES256GCM_SHA512_P521 = 5
    MLS_256_DHKEMX448_CHACHA20POLY1305_SHA512_ED448 = 6
    MLS_256_DHKEMP384_AES256GCM_SHA384_P384 = 7


class MlsProtocolVersion(enum.IntEnum):
    """The numbers of ProtocolVersion that have names."""

    MLS10 = 1


class MlsNodeType(enum.IntEnum):
    """The numbers of NodeType that have names."""

    LEAF = 1
    PARENT = 2


class Tls13HandshakeType(enum.IntEnum):
    """The numbers of HandshakeType that have names."""

    CLIENT_HELLO = 1
    SERVER_HELLO = 2
    NEW_SESSION_TICKET = 4
    END_OF_EARLY_DATA = 5
    ENCRYPTED_EXTENSIONS = 8
    CERTIFICATE = 11
    CERTIFICATE_REQUEST = 13
    CERTIFICATE_VERIFY = 15
    FINISHED = 20
    KEY_UPDATE = 24
    MESSAGE_HASH = 254


class Tls13ContentType(enum.IntEnum):
    """The numbers of ContentType that have names."""

    CHANGE_CIPHER_SPEC = 20
    ALERT = 21
    HANDSHAKE = 22
    APPLICATION_DATA = 23
    HEARTBEAT = 24


class Tls13AlertLevel(enum.IntEnum):
    """The numbers of AlertLevel that have names."""

    WARNING = 1
    FATAL = 2


class Tls13AlertDescription(enum.IntEnum):
    """The numbers of AlertDescription that have names."""

    CLOSE_NOTIFY = 0
    UNEXPECTED_MESSAGE = 10
    BAD_RECORD_MAC = 20
    RECORD_OVERFLOW = 22
    HANDSHAKE_FAILURE = 40
    BAD_CERTIFICATE = 42
    UNSUPPORTED_CERTIFICATE = 43
    CERTIFICATE_REVOKED = 44
    CERTIFICATE_EXPIRED = 45
    CERTIFICATE_UNKNOWN = 46
    ILLEGAL_PARAMETER = 47
    UNKNOWN_CA = 48
    ACCESS_DENIED = 49
    DECODE_ERROR = 50
    DECRYPT_ERROR = 51
    PROTOCOL_VERSION = 70
    INSUFFICIENT_SECURITY = 71
    INTERNAL_ERROR = 80
    INAPPROPRIATE_FALLBACK = 86
    USER_CANCELED = 90
    MISSING_EXTENSION = 109
    UNSUPPORTED_EXTENSION = 110
    UNRECOGNIZED_NAME = 112
    BAD_CERTIFICATE_STATUS_RESPONSE = 113
    UNKNOWN_PSK_IDENTITY = 115
    CERTIFICATE_REQUIRED = 116
    NO_APPLICATION_PROTOCOL = 120


class Tls13ExtensionType(enum.IntEnum):
    """The numbers of ExtensionType that have names."""

    SERVER_NAME = 0
    MAX_FRAGMENT_LENGTH = 1
    STATUS_REQUEST = 5
    SUPPORTED_GROUPS = 10
    SIGNATURE_ALGORITHMS = 13
    USE_SRTP = 14
    HEARTBEAT = 15
    APPLICATION_LAYER_PROTOCOL_NEGOTIATION = 16
    SIGNED_CERTIFICATE_TIMESTAMP = 18
    CLIENT_CERTIFICATE_TYPE = 19
    SERVER_CERTIFICATE_TYPE = 20
    PADDING = 21
    PRE_SHARED_KEY = 41
    EARLY_DATA = 42
    SUPPORTED_VERSIONS = 43
    COOKIE = 44
    PSK_KEY_EXCHANGE_MODES = 45
    CERTIFICATE_AUTHORITIES = 47
    OID_FILTERS = 48
    POST_HANDSHAKE_AUTH = 49
    SIGNATURE_ALGORITHMS_CERT = 50
    KEY_SHARE = 51


class Tls13CipherSuite(enum.IntEnum):
    """The numbers of CipherSuite that have names."""

    TLS_AES_128_GCM_SHA256 = 4865
    TLS_AES_256_GCM_SHA384 = 4866
    TLS_CHACHA20_POLY1305_SHA256 = 4867
    TLS_AES_128_CCM_SHA256 = 4868
    TLS_AES_128_CCM_8_SHA256 = 4869


class Tls13SignatureScheme(enum.IntEnum):
    """The numbers of SignatureScheme that have names."""

    RSA_PKCS1_SHA256 = 1025
    RSA_PKCS1_SHA384 = 1281
    RSA_PKCS1_SHA512 = 1537
    ECDSA_SECP256R1_SHA256 = 1027
    ECDSA_SECP384R1_SHA384 = 1283
    ECDSA_SECP521R1_SHA512 = 1539
    RSA_PSS_RSAE_SHA256 = 2052
    RSA_PSS_RSAE_SHA384 = 2053
    RSA_PSS_RSAE_SHA512 = 2054
    ED25519 = 2055
    ED448 = 2056
    RSA_PSS_PSS_SHA256 = 2057
    RSA_PSS_PSS_SHA384 = 2058
    RSA_PSS_PSS_SHA512 = 2059
    RSA_PKCS1_SHA1 = 513
    ECDSA_SHA1 = 515


class Tls13NamedGroup(enum.IntEnum):
    """The numbers of NamedGroup that have names."""

    SECP256R1 = 23
    SECP384R1 = 24
    SECP521R1 = 25
    X25519 = 29
    X448 = 30
    FFDHE2048 = 256
    FFDHE3072 = 257
    FFDHE4096 = 258
    FFDHE6144 = 259
    FFDHE8192 = 260


class Tls13KeyUpdateRequest(enum.IntEnum):
    """The numbers of KeyUpdateRequest that have names."""

    UPDATE_NOT_REQUESTED = 0
    UPDATE_REQUESTED = 1
