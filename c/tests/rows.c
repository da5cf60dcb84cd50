/* rows FILE: what the validator and the decoder say of each row of test_outcome or tls13.tsv, and where the fields are. Then each bit is
 * turned in its turn, and the two are compared.
 *
 * A row has a message's name, hex or `-`, what the validator is to say (`STATUS TAKEN AT DETAIL`); of test_outcome what the decoder is to
 * say, and of some accepted messages where their fields are. */
#include "rows.h"

/* The fields of any message: it has the size of the largest struct. */
union fields {
#define LOCATED(message, fields) fields message;
#include "exports.inc"
#undef LOCATED
};

/* What a call that finds fields says, and what it leaves in its struct. */
struct located {
  tls_codec_outcome outcome;
  size_t count;
  tls_codec_span spans[sizeof(union fields) / sizeof(tls_codec_span)];
};

/* Calls the message's `locate`, or its `locate_prefix`, over a struct of marks. No spans: it has neither. */
static struct located locate(const char *name, int is_whole, const uint8_t *bytes, size_t length) {
  struct located found = {{0, 0, 0, 0}, 0, {{0, 0}}};
#define LOCATED(message, fields)                                                                                   \
  if (strcmp(name, #message) == 0) {                                                                               \
    fields it;                                                                                                     \
    memset(&it, MARK, sizeof it);                                                                                  \
    found.outcome = is_whole ? message##_locate(bytes, length, &it) : message##_locate_prefix(bytes, length, &it); \
    found.count = sizeof it / sizeof(tls_codec_span);                                                              \
    memcpy(found.spans, &it, sizeof it);                                                                           \
  }
#include "exports.inc"
#undef LOCATED
  return found;
}

/* Whether the struct is as it was. */
static int is_kept(const struct located *it) { return are_marks(it->spans, it->count * sizeof(tls_codec_span)); }

/* Whether each field is after the one before it, and all of them in the message. */
static int are_in(const struct located *it, size_t taken) {
  size_t end = 0;
  for (size_t i = 0; i < it->count; i++) {
    if (it->spans[i].offset < end || it->spans[i].offset > taken || it->spans[i].size > taken - it->spans[i].offset) return 0;
    end = it->spans[i].offset + it->spans[i].size;
  }
  return end == taken;
}

/* Whether the decoder's two calls say the same, except for the rejected field's place. */
static int is_decoded_alike(const struct message *it, tls_codec_outcome outcome, const uint8_t *bytes, size_t length) {
  outcome.at = 0;
  return is_same(it->decode_check_prefix(bytes, length), outcome) && is_whole_alike(it->decode_check(bytes, length), outcome, length);
}

/* Whether the two calls that find the fields say the same as the validator, and fill alike what they accept, and else nothing. */
static int is_located_alike(const struct message *it, tls_codec_outcome outcome, const uint8_t *bytes, size_t length) {
  struct located found = locate(it->name, 0, bytes, length), whole = locate(it->name, 1, bytes, length);
  if (!found.count) return 1;
  int is_well = is_same(found.outcome, outcome) && is_whole_alike(whole.outcome, outcome, length);
  is_well &= outcome.status == TLS_CODEC_ACCEPTED ? are_in(&found, outcome.taken) : is_kept(&found);
  if (whole.outcome.status != TLS_CODEC_ACCEPTED) return is_well & is_kept(&whole);
  return is_well && memcmp(whole.spans, found.spans, found.count * sizeof(tls_codec_span)) == 0;
}

/* What has to be so of any bytes. */
static int is_sound(const struct message *it, const uint8_t *bytes, size_t length) {
  tls_codec_outcome outcome = it->validate_prefix(bytes, length);
  int is_accepted = outcome.status == TLS_CODEC_ACCEPTED;
  int is_well = is_accepted ? outcome.taken <= length && !outcome.at && !outcome.detail
                            : !outcome.taken && outcome.at <= length && outcome.status < TLS_CODEC_OUT_OF_MEMORY;
  is_well &= is_decoded_alike(it, outcome, bytes, length) && is_whole_alike(it->validate(bytes, length), outcome, length);
  return is_well && is_located_alike(it, outcome, bytes, length);
}

/* Whether a byte after the bytes of a message changes nothing of what the calls of a prefix say. */
static int is_sound_with_a_byte_more(const struct message *it, const uint8_t *bytes, size_t length) {
  tls_codec_outcome outcome = it->validate_prefix(bytes, length);
  uint8_t *more = malloc(length + 1);
  if (!more) exit(2);
  memcpy(more, bytes, length);
  more[length] = 7;
  int is_well = is_sound(it, more, length + 1);
  is_well &= outcome.status != TLS_CODEC_ACCEPTED || is_same(it->validate_prefix(more, length + 1), outcome);
  free(more);
  if (!is_well) printf("%s: with a byte after it the calls say what can't be\n", it->name);
  return is_well;
}

static int is_sound_with_each_bit_turned(const struct message *it, uint8_t *bytes, size_t length) {
  int failed = !is_sound(it, bytes, length);
  for (size_t bit = 0; bit < 8 * length; bit++) {
    turn(bytes, bit);
    failed += !is_sound(it, bytes, length);
    turn(bytes, bit);
  }
  if (failed) printf("%s: of %zu bits turned, %d say what can't be\n", it->name, 8 * length, failed);
  return failed == 0;
}

/* Whether the fields are where the row has them; a row without fields has no such column. */
static int are_placed(const struct message *it, const uint8_t *bytes, size_t length, const char *wanted) {
  char text[512] = "";
  struct located found = locate(it->name, 0, bytes, length);
  for (size_t i = 0; found.outcome.status == TLS_CODEC_ACCEPTED && i < found.count; i++) {
    size_t used = strlen(text);
    snprintf(text + used, sizeof text - used, "%s%zu+%zu", i ? " " : "", found.spans[i].offset, found.spans[i].size);
  }
  if (strcmp(text, wanted) == 0) return 1;
  printf("%s: its fields are at %s, and not at %s\n", it->name, text, wanted);
  return 0;
}

static int is_as_expected(const char *name, const char *call, tls_codec_outcome outcome, const char *wanted) {
  const char *text = text_of(outcome);
  if (strcmp(text, wanted) == 0) return 1;
  printf("%s: the %s says %s (%s), and not %s\n", name, call, text, tls_codec_status_name(outcome.status), wanted);
  return 0;
}

/* What the calls say of an alert and a byte after it, by hand. */
static int is_rest_rejected(void) {
  static const uint8_t bytes[] = {1, 0, 7};
  const struct message *it = message_of("tls13_alert");
  int is_well = is_as_expected("an alert", "validator of a prefix", it->validate_prefix(bytes, sizeof bytes), "0 2 0 0");
  is_well &= is_as_expected("an alert", "validator", it->validate(bytes, sizeof bytes), "7 0 2 0");
  is_well &= is_as_expected("an alert", "decoder of a prefix", it->decode_check_prefix(bytes, sizeof bytes), "0 2 0 0");
  is_well &= is_as_expected("an alert", "decoder", it->decode_check(bytes, sizeof bytes), "7 0 2 0");
  struct located found = locate(it->name, 0, bytes, sizeof bytes), whole = locate(it->name, 1, bytes, sizeof bytes);
  is_well &= is_as_expected("an alert", "finder of a prefix's fields", found.outcome, "0 2 0 0") & are_in(&found, 2);
  return is_well & is_as_expected("an alert", "finder of fields", whole.outcome, "7 0 2 0") & is_kept(&whole);
}

int main(int count, char **words) {
  static char line[1 << 17];
  FILE *file = count > 1 ? fopen(words[1], "r") : NULL;
  if (!file) return 2;
  int rows = 0, failed = !is_rest_rejected();
  while (fgets(line, sizeof line, file)) {
    char *name = strtok(line, "\t"), *digits = strtok(NULL, "\t"), *validated = strtok(NULL, "\t\n");
    const char *decoded = strtok(NULL, "\t\n"), *fields = decoded ? strtok(NULL, "\n") : NULL;
    const struct message *it = validated ? message_of(name) : NULL;
    if (!it) {
      printf("no such row: %s\n", line);
      return 2;
    }
    size_t length;
    uint8_t *bytes = bytes_of(digits, &length);
    rows++;
    int is_well = is_as_expected(name, "validator", it->validate_prefix(bytes, length), validated);
    is_well &= !decoded || is_as_expected(name, "decoder", it->decode_check_prefix(bytes, length), decoded);
    is_well &= !decoded || are_placed(it, bytes, length, fields ? fields : "");
    is_well &= is_sound_with_a_byte_more(it, bytes, length);
    failed += !(is_sound_with_each_bit_turned(it, bytes, length) && is_well);
    free(bytes);
  }
  fclose(file);
  printf("%d rows, %d failed\n", rows, failed);
  return failed || !rows;
}
