/* hello: reads TLS records from standard input until a ClientHello is whole, and prints its extensions, a line each.
 *
 * A message may span records, and a record may have the next message too. A Handshake is whole with 4 bytes and as many as its length says:
 * only then is status 6 a rejection. */
#define _POSIX_C_SOURCE 200809L
#include <errno.h>
#include <stdio.h>
#include <string.h>
#include <tls_codec/lengths.h>
#include <tls_codec/tls13.h>
#include <unistd.h>

/* The bytes before a fragment, and how many a fragment and all messages have at most. */
enum { HEADER = 5, FRAGMENT = 1 << 14, MOST = 1 << 16 };

/* Whether all of these bytes come; waits for them. */
static int read_all(uint8_t *bytes, size_t size) {
  while (size) {
    ssize_t count = read(STDIN_FILENO, bytes, size);
    if (count < 0 && errno == EINTR) continue;
    if (count <= 0) return 0;
    bytes += count;
    size -= (size_t)count;
  }
  return 1;
}

/* Appends the fragment of the next record, if it is one of a handshake; such a fragment has a byte (RFC 8446, section 5.1). */
static int append_fragment(uint8_t *messages, size_t *size) {
  uint8_t record[HEADER + FRAGMENT];
  tls13_tls_plaintext_fields fields;
  if (!read_all(record, HEADER)) return 0;
  size_t length = tls_codec_u16(record + 3);
  if (!length || length > FRAGMENT || !read_all(record + HEADER, length)) return 0;
  if (tls13_tls_plaintext_locate(record, HEADER + length, &fields).status != TLS_CODEC_ACCEPTED) return 0;
  if (record[fields.type.offset] != TLS13_CONTENT_TYPE_HANDSHAKE || length > MOST - *size) return 0;
  memcpy(messages + *size, record + fields.fragment.offset, fields.fragment.size);
  *size += fields.fragment.size;
  return 1;
}

/* How many bytes the first message has, 0 if its length isn't there yet. */
static size_t announced(const uint8_t *bytes, size_t size) {
  return size < 4 ? 0 : 4 + (size_t)tls_codec_u24(bytes + 1);
}

/* The place of the ClientHello in a Handshake, whose body begins with its length of three bytes. */
static int find_hello(const uint8_t *message, size_t length, tls_codec_span *hello) {
  tls13_handshake_fields fields;
  if (tls13_handshake_locate(message, length, &fields).status != TLS_CODEC_ACCEPTED) return 0;
  if (message[fields.msg_type.offset] != TLS13_HANDSHAKE_TYPE_CLIENT_HELLO) return 0;
  if (tls_codec_opaque_u24_locate(message + fields.body.offset, fields.body.size, hello).status != TLS_CODEC_ACCEPTED) return 0;
  hello->offset += fields.body.offset;
  return 1;
}

/* An extension is its type of two bytes, and its data with a length. */
static int print_extension(const uint8_t *extension, size_t size) {
  tls_codec_span data;
  if (tls_codec_opaque_u16_locate(extension + 2, size - 2, &data).status != TLS_CODEC_ACCEPTED) return 0;
  printf("extension %u: %zu bytes\n", tls_codec_u16(extension), data.size);
  return 1;
}

static int print_extensions(const uint8_t *hello, size_t length) {
  tls13_client_hello_fields fields;
  tls_codec_span left, extension;
  if (tls13_client_hello_locate(hello, length, &fields).status != TLS_CODEC_ACCEPTED) return 0;
  const uint8_t *list = hello + fields.extensions.offset;
  size_t size = fields.extensions.size;
  if (tls_codec_opaque_u16_locate(list, size, &left).status != TLS_CODEC_ACCEPTED) return 0;
  while (left.size && tls13_extension_next(list, size, &left, &extension).status == TLS_CODEC_ACCEPTED)
    if (!print_extension(list + extension.offset, extension.size)) return 0;
  return !left.size;
}

static int rejected(const char *why) {
  fprintf(stderr, "%s\n", why);
  return 1;
}

int main(void) {
  static uint8_t messages[MOST];
  size_t size = 0, length = 0;
  tls_codec_span hello;
  while (!length || size < length) {
    if (length > MOST || !append_fragment(messages, &size)) return rejected("no whole message");
    length = announced(messages, size);
  }
  if (!find_hello(messages, length, &hello)) return rejected("no ClientHello");
  return print_extensions(messages + hello.offset, hello.size) ? 0 : rejected("no extension");
}
