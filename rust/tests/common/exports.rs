//! Written by tools/check_exports.py. Don't edit.

/// Passes to a macro each message: its name in C, the two functions of its validator, and the two
/// of its decoder.
#[allow(unused_macros)]
macro_rules! each_message {
    ($to:ident) => {
        $to! {
            "tls13_tls_plaintext": tls13::validate_tls_plaintext, tls13::validate_tls_plaintext_prefix,
                tls13_decode::decode_check_tls_plaintext, tls13_decode::decode_check_tls_plaintext_prefix;
            "tls13_tls_ciphertext": tls13::validate_tls_ciphertext, tls13::validate_tls_ciphertext_prefix,
                tls13_decode::decode_check_tls_ciphertext, tls13_decode::decode_check_tls_ciphertext_prefix;
            "tls13_alert": tls13::validate_alert, tls13::validate_alert_prefix,
                tls13_decode::decode_check_alert, tls13_decode::decode_check_alert_prefix;
            "tls13_handshake": tls13::validate_handshake, tls13::validate_handshake_prefix,
                tls13_decode::decode_check_handshake, tls13_decode::decode_check_handshake_prefix;
            "tls13_client_hello": tls13::validate_client_hello, tls13::validate_client_hello_prefix,
                tls13_decode::decode_check_client_hello, tls13_decode::decode_check_client_hello_prefix;
            "tls13_server_hello": tls13::validate_server_hello, tls13::validate_server_hello_prefix,
                tls13_decode::decode_check_server_hello, tls13_decode::decode_check_server_hello_prefix;
            "tls13_encrypted_extensions": tls13::validate_encrypted_extensions, tls13::validate_encrypted_extensions_prefix,
                tls13_decode::decode_check_encrypted_extensions, tls13_decode::decode_check_encrypted_extensions_prefix;
            "tls13_certificate_request": tls13::validate_certificate_request, tls13::validate_certificate_request_prefix,
                tls13_decode::decode_check_certificate_request, tls13_decode::decode_check_certificate_request_prefix;
            "tls13_certificate": tls13::validate_certificate, tls13::validate_certificate_prefix,
                tls13_decode::decode_check_certificate, tls13_decode::decode_check_certificate_prefix;
            "tls13_certificate_verify": tls13::validate_certificate_verify, tls13::validate_certificate_verify_prefix,
                tls13_decode::decode_check_certificate_verify, tls13_decode::decode_check_certificate_verify_prefix;
            "tls13_new_session_ticket": tls13::validate_new_session_ticket, tls13::validate_new_session_ticket_prefix,
                tls13_decode::decode_check_new_session_ticket, tls13_decode::decode_check_new_session_ticket_prefix;
            "tls13_key_update": tls13::validate_key_update, tls13::validate_key_update_prefix,
                tls13_decode::decode_check_key_update, tls13_decode::decode_check_key_update_prefix;
            "mls_message": mls::validate_message, mls::validate_message_prefix,
                mls_decode::decode_check_message, mls_decode::decode_check_message_prefix;
            "mls_public_message": mls::validate_public_message, mls::validate_public_message_prefix,
                mls_decode::decode_check_public_message, mls_decode::decode_check_public_message_prefix;
            "mls_private_message": mls::validate_private_message, mls::validate_private_message_prefix,
                mls_decode::decode_check_private_message, mls_decode::decode_check_private_message_prefix;
            "mls_framed_content": mls::validate_framed_content, mls::validate_framed_content_prefix,
                mls_decode::decode_check_framed_content, mls_decode::decode_check_framed_content_prefix;
            "mls_sender_data": mls::validate_sender_data, mls::validate_sender_data_prefix,
                mls_decode::decode_check_sender_data, mls_decode::decode_check_sender_data_prefix;
            "mls_welcome": mls::validate_welcome, mls::validate_welcome_prefix,
                mls_decode::decode_check_welcome, mls_decode::decode_check_welcome_prefix;
            "mls_group_secrets": mls::validate_group_secrets, mls::validate_group_secrets_prefix,
                mls_decode::decode_check_group_secrets, mls_decode::decode_check_group_secrets_prefix;
            "mls_group_info": mls::validate_group_info, mls::validate_group_info_prefix,
                mls_decode::decode_check_group_info, mls_decode::decode_check_group_info_prefix;
            "mls_group_context": mls::validate_group_context, mls::validate_group_context_prefix,
                mls_decode::decode_check_group_context, mls_decode::decode_check_group_context_prefix;
            "mls_commit": mls::validate_commit, mls::validate_commit_prefix,
                mls_decode::decode_check_commit, mls_decode::decode_check_commit_prefix;
            "mls_proposal": mls::validate_proposal, mls::validate_proposal_prefix,
                mls_decode::decode_check_proposal, mls_decode::decode_check_proposal_prefix;
            "mls_key_package": mls::validate_key_package, mls::validate_key_package_prefix,
                mls_decode::decode_check_key_package, mls_decode::decode_check_key_package_prefix;
            "mls_leaf_node": mls::validate_leaf_node, mls::validate_leaf_node_prefix,
                mls_decode::decode_check_leaf_node, mls_decode::decode_check_leaf_node_prefix;
            "mls_ratchet_tree": mls::validate_ratchet_tree, mls::validate_ratchet_tree_prefix,
                mls_decode::decode_check_ratchet_tree, mls_decode::decode_check_ratchet_tree_prefix;
        }
    };
}

/// Passes to a macro each call that finds fields: its name in C, its two functions, and its
/// struct's fields in order.
#[allow(unused_macros)]
macro_rules! each_located {
    ($to:ident) => {
        $to! {
            "tls13_handshake_locate_prefix": tls13::locate_handshake, tls13::locate_handshake_prefix,
                msg_type body;
            "tls13_client_hello_locate_prefix": tls13::locate_client_hello, tls13::locate_client_hello_prefix,
                legacy_version random legacy_session_id cipher_suites legacy_compression_methods extensions;
            "tls13_server_hello_locate_prefix": tls13::locate_server_hello, tls13::locate_server_hello_prefix,
                legacy_version random legacy_session_id_echo cipher_suite legacy_compression_method extensions;
            "tls13_encrypted_extensions_locate_prefix": tls13::locate_encrypted_extensions, tls13::locate_encrypted_extensions_prefix,
                extensions;
            "tls13_certificate_request_locate_prefix": tls13::locate_certificate_request, tls13::locate_certificate_request_prefix,
                certificate_request_context extensions;
            "tls13_certificate_locate_prefix": tls13::locate_certificate, tls13::locate_certificate_prefix,
                certificate_request_context certificate_list;
            "tls13_certificate_verify_locate_prefix": tls13::locate_certificate_verify, tls13::locate_certificate_verify_prefix,
                algorithm signature;
            "tls13_new_session_ticket_locate_prefix": tls13::locate_new_session_ticket, tls13::locate_new_session_ticket_prefix,
                ticket_lifetime ticket_age_add ticket_nonce ticket extensions;
            "tls13_key_update_locate_prefix": tls13::locate_key_update, tls13::locate_key_update_prefix,
                request_update;
            "tls13_tls_plaintext_locate_prefix": tls13::locate_tls_plaintext, tls13::locate_tls_plaintext_prefix,
                r#type legacy_record_version fragment;
            "tls13_tls_ciphertext_locate_prefix": tls13::locate_tls_ciphertext, tls13::locate_tls_ciphertext_prefix,
                opaque_type legacy_record_version encrypted_record;
            "tls13_alert_locate_prefix": tls13::locate_alert, tls13::locate_alert_prefix,
                level description;
            "mls_message_locate_prefix": mls::locate_message, mls::locate_message_prefix,
                version wire_format body;
            "mls_public_message_locate_prefix": mls::locate_public_message, mls::locate_public_message_prefix,
                content auth membership_tag;
            "mls_private_message_locate_prefix": mls::locate_private_message, mls::locate_private_message_prefix,
                group_id epoch content_type authenticated_data encrypted_sender_data ciphertext;
            "mls_framed_content_locate_prefix": mls::locate_framed_content, mls::locate_framed_content_prefix,
                group_id epoch sender authenticated_data content_type body;
            "mls_sender_data_locate_prefix": mls::locate_sender_data, mls::locate_sender_data_prefix,
                leaf_index generation reuse_guard;
            "mls_key_package_locate_prefix": mls::locate_key_package, mls::locate_key_package_prefix,
                version cipher_suite init_key leaf_node extensions signature;
            "mls_leaf_node_locate_prefix": mls::locate_leaf_node, mls::locate_leaf_node_prefix,
                encryption_key signature_key credential capabilities leaf_node_source origin extensions signature;
            "mls_welcome_locate_prefix": mls::locate_welcome, mls::locate_welcome_prefix,
                cipher_suite secrets encrypted_group_info;
            "mls_group_secrets_locate_prefix": mls::locate_group_secrets, mls::locate_group_secrets_prefix,
                joiner_secret path_secret psks;
            "mls_group_info_locate_prefix": mls::locate_group_info, mls::locate_group_info_prefix,
                group_context extensions confirmation_tag signer signature;
            "mls_group_context_locate_prefix": mls::locate_group_context, mls::locate_group_context_prefix,
                version cipher_suite group_id epoch tree_hash confirmed_transcript_hash extensions;
            "mls_commit_locate_prefix": mls::locate_commit, mls::locate_commit_prefix,
                proposals path;
            "mls_proposal_locate_prefix": mls::locate_proposal, mls::locate_proposal_prefix,
                proposal_type body;
        }
    };
}

/// Passes to a macro each call that finds the content after a length: its name in C, and its two
/// functions.
#[allow(unused_macros)]
macro_rules! each_content {
    ($to:ident) => {
        $to! {
            "tls_codec_opaque_v_locate_prefix": lengths::locate_opaque_v, lengths::locate_opaque_v_prefix;
            "tls_codec_opaque_u8_locate_prefix": lengths::locate_opaque_u8, lengths::locate_opaque_u8_prefix;
            "tls_codec_opaque_u16_locate_prefix": lengths::locate_opaque_u16, lengths::locate_opaque_u16_prefix;
            "tls_codec_opaque_u24_locate_prefix": lengths::locate_opaque_u24, lengths::locate_opaque_u24_prefix;
        }
    };
}

/// Passes to a macro each call that finds an element: its name in C, and the function of a list's
/// iterator.
#[allow(unused_macros)]
macro_rules! each_list {
    ($to:ident) => {
        $to! {
            "tls13_extension_next": tls13::extension_elements;
            "tls13_key_share_entry_next": tls13::key_share_entry_elements;
            "tls13_certificate_entry_next": tls13::certificate_entry_elements;
            "mls_extension_next": mls::extension_elements;
            "mls_optional_node_next": mls::optional_node_elements;
            "mls_proposal_or_ref_next": mls::proposal_or_ref_elements;
            "mls_encrypted_group_secrets_next": mls::encrypted_group_secrets_elements;
        }
    };
}
