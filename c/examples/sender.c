/* sender: the wire format of the MLSMessage on standard input; and of a public message the sender, the type of its content, and how many
 * bytes the signature has.
 *
 * A part is located in the span of the part around it. Offsets count from the pointer that the call was given. */
#include <inttypes.h>
#include <stdio.h>
#include <tls_codec/lengths.h>
#include <tls_codec/mls.h>

static const char *const wire_formats[] = {
    [MLS_WIRE_FORMAT_PUBLIC_MESSAGE] = "public message",
    [MLS_WIRE_FORMAT_PRIVATE_MESSAGE] = "private message",
    [MLS_WIRE_FORMAT_WELCOME] = "welcome",
    [MLS_WIRE_FORMAT_GROUP_INFO] = "group info",
    [MLS_WIRE_FORMAT_KEY_PACKAGE] = "key package",
};
static const char *const contents[] = {
    [MLS_CONTENT_TYPE_APPLICATION] = "application data",
    [MLS_CONTENT_TYPE_PROPOSAL] = "proposal",
    [MLS_CONTENT_TYPE_COMMIT] = "commit",
};

/* Says why a part is rejected. */
static int rejected(const char *part, tls_codec_outcome outcome) {
  fprintf(stderr, "%s: %s at byte %zu\n", part, tls_codec_status_name(outcome.status), outcome.at);
  return 1;
}

/* A sender has its type, and after it, if it is a member or external, an index. */
static void print_sender(const uint8_t *sender) {
  switch (sender[0]) {
  case MLS_SENDER_TYPE_MEMBER: printf("member %" PRIu32 "\n", tls_codec_u32(sender + 1)); break;
  case MLS_SENDER_TYPE_EXTERNAL: printf("external sender %" PRIu32 "\n", tls_codec_u32(sender + 1)); break;
  case MLS_SENDER_TYPE_NEW_MEMBER_PROPOSAL: puts("new member, by a proposal"); break;
  case MLS_SENDER_TYPE_NEW_MEMBER_COMMIT: puts("new member, by a commit"); break;
  }
}

static int print_public_message(const uint8_t *message, size_t length) {
  mls_public_message_fields fields;
  mls_framed_content_fields framed;
  tls_codec_span signature;
  tls_codec_outcome outcome = mls_public_message_locate(message, length, &fields);
  if (outcome.status != TLS_CODEC_ACCEPTED) return rejected("public message", outcome);
  const uint8_t *content = message + fields.content.offset, *auth = message + fields.auth.offset;
  outcome = mls_framed_content_locate(content, fields.content.size, &framed);
  if (outcome.status != TLS_CODEC_ACCEPTED) return rejected("content", outcome);
  /* of a commit the confirmation tag comes after the signature */
  outcome = tls_codec_opaque_v_locate_prefix(auth, fields.auth.size, &signature);
  if (outcome.status != TLS_CODEC_ACCEPTED) return rejected("signature", outcome);
  print_sender(content + framed.sender.offset);
  puts(contents[content[framed.content_type.offset]]);
  printf("signature of %zu bytes\n", signature.size);
  return 0;
}

int main(void) {
  static uint8_t bytes[1 << 20];
  size_t length = fread(bytes, 1, sizeof bytes, stdin);
  if (length == sizeof bytes || ferror(stdin)) {
    fprintf(stderr, "%zu bytes or more, or the read failed\n", sizeof bytes);
    return 1;
  }
  mls_message_fields fields;
  tls_codec_outcome outcome = mls_message_locate(bytes, length, &fields);
  if (outcome.status != TLS_CODEC_ACCEPTED) return rejected("message", outcome);
  uint16_t wire_format = tls_codec_u16(bytes + fields.wire_format.offset);
  puts(wire_formats[wire_format]);
  return wire_format == MLS_WIRE_FORMAT_PUBLIC_MESSAGE ? print_public_message(bytes + fields.body.offset, fields.body.size) : 0;
}
