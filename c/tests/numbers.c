/* numbers: what the readers of lengths.h say of the examples of RFC 9000, appendix A.1, of the ends of each width, and of other bytes;
 * and the numbers of a few names.
 *
 * Each number's bytes are in a block of their own size, so that a tool that watches memory sees a read past them. */
#include "rows.h"

struct number {
  const char *digits;
  uint64_t value;
};

/* The first five are those of the RFC. */
static const struct number varints[] = {
    {"c2197c5eff14e88c", 151288809941952652}, {"9d7f3e7d", 494878333}, {"7bbd", 15293}, {"25", 37}, {"4025", 37},
    {"00", 0}, {"3f", 63}, {"4040", 64}, {"7fff", 16383}, {"80004000", 16384}, {"bfffffff", 1073741823},
    {"c000000040000000", 1073741824}, {"ffffffffffffffff", 4611686018427387903},
};
static const struct number numbers[] = {
    {"0102", 258}, {"ff00", 65280}, {"010203", 66051}, {"ff0001", 16711681}, {"01020304", 16909060}, {"fffefdfc", 4294901244},
    {"0102030405060708", 72623859790382856}, {"fffefdfcfbfaf9f8", 18446460386757245432u},
};

static uint64_t number_of(const uint8_t *bytes, size_t length) {
  switch (length) {
  case 2: return tls_codec_u16(bytes);
  case 3: return tls_codec_u24(bytes);
  case 4: return tls_codec_u32(bytes);
  default: return tls_codec_u64(bytes);
  }
}

static int is_read(const struct number *it, int is_varint) {
  size_t length;
  uint8_t *bytes = bytes_of(it->digits, &length);
  uint64_t value = is_varint ? tls_codec_varint_value(bytes) : number_of(bytes, length);
  free(bytes);
  if (value != it->value) printf("%s: %" PRIu64 ", and not %" PRIu64 "\n", it->digits, value, it->value);
  return value == it->value;
}

/* Numbers of registries: RFC 8446, appendices B.3.1.3, B.3.1.4 and B.4, and RFC 9420, section 17.1. */
static int are_named(void) {
  int is_well = TLS13_SIGNATURE_SCHEME_ED25519 == 0x0807 && TLS13_NAMED_GROUP_X25519 == 0x001d &&
                TLS13_CIPHER_SUITE_TLS_AES_128_GCM_SHA256 == 0x1301 && TLS13_CIPHER_SUITE_TLS_AES_256_GCM_SHA384 == 0x1302 &&
                TLS13_CIPHER_SUITE_TLS_CHACHA20_POLY1305_SHA256 == 0x1303 && TLS13_CIPHER_SUITE_TLS_AES_128_CCM_SHA256 == 0x1304 &&
                TLS13_CIPHER_SUITE_TLS_AES_128_CCM_8_SHA256 == 0x1305 && MLS_PROTOCOL_VERSION_MLS10 == 1 &&
                MLS_CIPHER_SUITE_MLS_256_DHKEMP384_AES256GCM_SHA384_P384 == 7;
  if (!is_well) printf("a name of a registry has another number\n");
  return is_well;
}

int main(void) {
  int failed = !are_named();
  for (size_t i = 0; i < sizeof varints / sizeof *varints; i++) failed += !is_read(&varints[i], 1);
  for (size_t i = 0; i < sizeof numbers / sizeof *numbers; i++) failed += !is_read(&numbers[i], 0);
  return failed != 0;
}
