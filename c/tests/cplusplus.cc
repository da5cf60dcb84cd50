// The headers in C++: each in any order, and called, also with NULL for no bytes.
#include <tls_codec/all.h>
#include <tls_codec/lengths.h>
#include <tls_codec/tls13_decode.h>
#include <tls_codec/mls_decode.h>
#include <tls_codec/tls13.h>
#include <tls_codec/mls.h>
#include <tls_codec/outcome.h>

#include <cstring>

int main() {
  const uint8_t alert[] = {1, 0, 0xee};
  const bool is_alert =
      tls13_alert_validate_prefix(alert, sizeof alert).taken == 2 && tls13_alert_decode_check_prefix(alert, sizeof alert).taken == 2;
  const uint8_t suite[] = {0, 1};
  const tls_codec_outcome outcome = mls_welcome_validate_prefix(suite, sizeof suite);
  const tls_codec_outcome decoded = mls_welcome_decode_check_prefix(suite, sizeof suite);
  const tls_codec_outcome none = mls_message_validate(nullptr, 0);
  const uint8_t varint[] = {0x3f, 0xee};
  const tls_codec_outcome one = tls_codec_varint_validate_prefix(varint, sizeof varint);
  const uint8_t opaque[] = {0, 2, 7, 8, 0xee};
  tls_codec_span content = {9, 9};
  const bool is_content = tls_codec_opaque_u16_locate_prefix(opaque, sizeof opaque, &content).taken == 4 && content.offset == 2 &&
                          content.size == 2 && tls_codec_opaque_u8_locate(opaque + 1, 3, &content).taken == 3 && content.offset == 1;
  const tls_codec_outcome more = tls_codec_opaque_u16_locate(opaque, sizeof opaque, &content);
  const bool is_kept = tls_codec_opaque_v_locate_prefix(opaque + 1, 2, &content).status == TLS_CODEC_DECODING_ERROR &&
                       more.status == TLS_CODEC_TRAILING_DATA && more.at == 4 && more.taken == 0 && content.offset == 1;
  const bool is_whole = tls13_alert_validate(alert, 2).taken == 2 &&
                        tls13_alert_validate(alert, sizeof alert).status == TLS_CODEC_TRAILING_DATA && tls_codec_u16(opaque) == 2 &&
                        tls_codec_varint_value(varint) == 63;
  const tls_codec_outcome rest = tls13_alert_decode_check(alert, sizeof alert);
  const bool is_decoded = tls13_alert_decode_check(alert, 2).taken == 2 && rest.status == TLS_CODEC_TRAILING_DATA && rest.at == 2 &&
                          rest.taken == 0;
  tls_codec_span left = {0, 0}, element = {9, 9};
  const bool is_null_empty = mls_message_decode_check(nullptr, 0).status == TLS_CODEC_END_OF_STREAM &&
                             tls_codec_opaque_v_locate(nullptr, 0, &content).status == TLS_CODEC_END_OF_STREAM &&
                             mls_extension_next(nullptr, 0, &left, &element).status == TLS_CODEC_END_OF_STREAM && element.offset == 9;
  const bool is_well = is_alert && is_whole && is_decoded && is_null_empty && is_content && is_kept &&
                       outcome.status == TLS_CODEC_END_OF_STREAM && outcome.at == 2 && one.taken == 1 &&
                       decoded.status == TLS_CODEC_END_OF_STREAM && decoded.at == 0 &&
                       none.status == TLS_CODEC_END_OF_STREAM &&
                       tls_codec_whole_status(one, sizeof varint) == TLS_CODEC_TRAILING_DATA &&
                       tls_codec_whole_status(one, 1) == TLS_CODEC_ACCEPTED && tls_codec_whole(one, sizeof varint).at == 1 &&
                       tls_codec_whole(one, sizeof varint).taken == 0 && tls_codec_whole(one, 1).taken == 1 &&
                       tls_codec_whole(outcome, sizeof suite).at == 2 &&
                       std::strcmp(tls_codec_status_name(none.status), "EndOfStream") == 0 &&
                       std::strcmp(tls_codec_status_sentence(none.status), "The message, or a list in it, ends within a field.") == 0;
  return is_well ? 0 : 1;
}
