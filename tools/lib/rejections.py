"""What `tlsdump` says on standard error of its stored inputs that are rejected, or that it can't read."""

# RFC 9420, section 2.1.2: a length of 63, and fewer bytes
IDENTITY_CUT_OFF = (
    'rejected at byte 15, in leaf_node.credential.identity: DecodingError("declared content is not there"): expected '
    'opaque identity<V>, its length announces 63 bytes, 5 are left'
)
# RFC 9420, section 7.2: three bytes hold one version of two, and half of another
HALF_A_VERSION = (
    'rejected at byte 28, in key_package.leaf_node.capabilities.versions[1]: '
    'DecodingError("elements do not fill the declared length"): expected ProtocolVersion: mls10 (1), 1 byte is left'
)
# What is printed of the stored runs that are rejected, by hand: the byte, the path, the error, and what was expected there.
REJECTIONS = {
    "json_rejected": HALF_A_VERSION,
    # the same bytes
    "rejected_list": HALF_A_VERSION,
    # a length of 63, and 59 bytes
    "rejected_length": (
        'rejected at byte 19, in key_package.leaf_node.credential.identity: '
        'DecodingError("declared content is not there"): expected opaque identity<V>, its length announces 63 bytes, 59 are left'
    ),
    # section 6.3: an epoch has eight bytes
    "no_message": "rejected at byte 5, in private_message.epoch: EndOfStream: expected uint64 epoch, 1 byte is left",
    # a message of 21 bytes, and one more byte
    "trailing_byte": "rejected at byte 21, in version: EndOfStream: expected ProtocolVersion: mls10 (1), 1 byte is left",
    # RFC 9420, section 6: the version is mls10, and there are five wire formats
    "json_version": 'rejected at byte 0, in version: UnknownValue(2): expected ProtocolVersion: mls10 (1), 2 (0x2) is there',
    "json_wire_format": (
        'rejected at byte 2, in wire_format: UnknownValue(9): expected WireFormat: mls_public_message (1), '
        'mls_private_message (2), mls_welcome (3), mls_group_info (4), mls_key_package (5), 9 (0x9) is there'
    ),
    # sections 7.2 and 10: a version, a suite, three keys, and then a credential
    "json_credential_type": (
        'rejected at byte 13, in leaf_node.credential.credential_type: UnknownValue(9): expected CredentialType: basic '
        '(1), x509 (2), 9 (0x9) is there'
    ),
    "json_identity_cut_off": IDENTITY_CUT_OFF,
    # the same bytes, which docs/tlsdump.svg shows
    "rejected_identity": IDENTITY_CUT_OFF,
    # section 2.1.2: a length has the fewest bytes
    "json_identity_wide_length": (
        'rejected at byte 15, in leaf_node.credential.identity: InvalidVectorLength: expected opaque identity<V>, its '
        "length isn't in the fewest bytes, or is 2^30 or more"
    ),
    # three bytes hold one version of two, and half of another
    "json_capabilities": (
        'rejected at byte 3, in versions[1]: DecodingError("elements do not fill the declared length"): expected '
        'ProtocolVersion: mls10 (1), 1 byte is left'
    ),
    # section 12.4: no proposals, and a path or none
    "json_option_tag": (
        'rejected at byte 1, in path: DecodingError("option tag is not 0 or 1"): expected 0, or 1 before UpdatePath, 2 '
        '(0x2) is there'
    ),
    # section 7.2: a number of four bytes
    "json_leaf_index": 'rejected at byte 1, in leaf_index: EndOfStream: expected uint32 leaf_index, 3 bytes are left',
    # RFC 8446, section 4: the length has the remaining bytes, and 99 is no type of a message
    "json_handshake_length": (
        'rejected at byte 1, in length: EndOfStream: expected uint24 length, its length announces 262 bytes, 2 are left'
    ),
    "json_handshake_type": 'rejected at byte 0, in msg_type: UnknownValue(99): expected HandshakeType, 99 (0x63) is there',
    # section 4.1.2: a version, 32 bytes, and a session's id of at most 32
    "json_session_id": (
        'rejected at byte 34, in legacy_session_id: InvalidVectorLength: expected opaque legacy_session_id<0..32>, its '
        'length is 33 bytes'
    ),
    # the same in a Handshake
    "rejected_session_id": (
        'rejected at byte 38, in client_hello.legacy_session_id: InvalidVectorLength: expected opaque '
        'legacy_session_id<0..32>, its length is 33 bytes'
    ),
    # the version is that of TLS 1.2
    "json_legacy_version": (
        'rejected at byte 0, in legacy_version: UnknownValue(770): expected ProtocolVersion legacy_version = 0x0303, 770 '
        '(0x302) is there'
    ),
    # section 4.6.1: two numbers of four bytes, a nonce, and a ticket of at least one byte
    "json_empty_ticket": (
        'rejected at byte 9, in ticket: InvalidVectorLength: expected opaque ticket<1..2^16-1>, its length is 0 bytes'
    ),
    # RFC 9420, section 7.6: the list has three bytes, and its first element eight
    "json_element_past_list": (
        'rejected at byte 3, in encrypted_path_secret[0].kem_output: DecodingError("elements do not fill the declared '
        'length"): expected opaque kem_output<V>, the validator rejects what begins here'
    ),
}

# What it says of each stored input that can't be read, after the program's name. After a blank at the end come the system's words.
UNREAD = {
    "no_file": "nowhere: ",
    "odd_digits": "an odd number of hex digits (5); --binary takes the bytes themselves",
    "several_types": "Certificate names several types: write mls.Certificate or tls.Certificate",
    "unknown_type": "there is no type Nothing: --list prints them",
    "wrong_digit": "line 2, column 8: 0x67 is no hex digit; --binary takes the bytes themselves, --base64 base64",
}
