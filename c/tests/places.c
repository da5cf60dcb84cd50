/* places FILE: what is filled for each row of test_places or lengths.tsv: places of fields, of elements and of contents, and wire formats;
 * and that the calls without `_prefix` fill the same, or reject what comes after it.
 *
 * A row has a function's name, hex or `-`, what the last call is to say, as `STATUS TAKEN AT DETAIL`, and what it is to fill, or `-`. The
 * bytes of `NAME_next` are those of a list after its length; each of their bits is turned in its turn. What is rejected fills nothing. */
#include "rows.h"

typedef tls_codec_outcome next(const uint8_t *bytes, size_t length, tls_codec_span *left, tls_codec_span *element);

struct list {
  const char *name;
  next *next;
};

static const struct list lists[] = {
#define LISTED(element) {#element "_next", element##_next},
#include "exports.inc"
#undef LISTED
};

struct answer {
  tls_codec_outcome outcome;
  char filled[4096];
};

static const struct list *find(const char *name) {
  for (size_t i = 0; i < sizeof lists / sizeof *lists; i++)
    if (strcmp(lists[i].name, name) == 0) return &lists[i];
  return NULL;
}

static void add(struct answer *it, tls_codec_span place) {
  size_t used = strlen(it->filled);
  snprintf(it->filled + used, sizeof it->filled - used, "%s%zu+%zu", used ? " " : "", place.offset, place.size);
}

static int is_place(tls_codec_span it, size_t offset, size_t size) { return it.offset == offset && it.size == size; }

/* Goes over a list. Returns whether each call moves what is left past the element, or, if it rejects the bytes, moves nothing. */
static int go_over(next *next, const uint8_t *bytes, size_t length, struct answer *answer) {
  tls_codec_span left = {0, length}, element = {7, 8};
  do {
    tls_codec_span old = left, before = element;
    answer->outcome = next(bytes, length, &left, &element);
    size_t taken = answer->outcome.taken;
    if (answer->outcome.status != TLS_CODEC_ACCEPTED)
      return !taken && is_place(left, old.offset, old.size) && is_place(element, before.offset, before.size);
    if (!taken || taken > old.size || !is_place(element, old.offset, taken) || !is_place(left, old.offset + taken, old.size - taken))
      return 0;
    add(answer, element);
  } while (left.size);
  return 1;
}

static int is_sound_with_each_bit_turned(next *next, uint8_t *bytes, size_t length) {
  int failed = 0;
  for (size_t bit = 0; bit < 8 * length; bit++) {
    struct answer answer = {{0, 0, 0, 0}, ""};
    turn(bytes, bit);
    failed += !go_over(next, bytes, length, &answer);
    turn(bytes, bit);
  }
  return failed == 0;
}

/* Whether the call that needs all of the bytes says the same, or that some are left, and fills this number, or nothing. */
static int is_wire_format_alike(const uint8_t *bytes, size_t length, tls_codec_outcome outcome, uint16_t wire_format) {
  uint16_t found = 77;
  tls_codec_outcome whole = mls_message_wire_format(bytes, length, &found);
  return is_whole_alike(whole, outcome, length) && found == (whole.status == TLS_CODEC_ACCEPTED ? wire_format : 77);
}

/* Calls the function of this name, and the one without `_prefix`. Returns whether there is one, and the calls are sound. */
static int call(const char *name, uint8_t *bytes, size_t length, struct answer *answer) {
  const struct list *list = find(name);
  if (list) return go_over(list->next, bytes, length, answer) && is_sound_with_each_bit_turned(list->next, bytes, length);
  if (strcmp(name, "mls_message_wire_format_prefix") == 0) {
    uint16_t wire_format = 77;
    answer->outcome = mls_message_wire_format_prefix(bytes, length, &wire_format);
    if (!is_wire_format_alike(bytes, length, answer->outcome, wire_format)) return 0;
    if (answer->outcome.status != TLS_CODEC_ACCEPTED) return wire_format == 77;
    sprintf(answer->filled, "%d", wire_format);
    return 1;
  }
  if (strcmp(name, "tls_codec_varint_validate_prefix") == 0) {
    answer->outcome = tls_codec_varint_validate_prefix(bytes, length);
    return is_whole_alike(tls_codec_varint_validate(bytes, length), answer->outcome, length);
  }
#define LOCATED(message, fields)                                                                                                   \
  if (strcmp(name, #message "_locate_prefix") == 0) {                                                                              \
    fields found, whole;                                                                                                           \
    tls_codec_span places[sizeof found / sizeof(tls_codec_span)];                                                                  \
    memset(&found, MARK, sizeof found);                                                                                            \
    memset(&whole, MARK, sizeof whole);                                                                                            \
    answer->outcome = message##_locate_prefix(bytes, length, &found);                                                              \
    tls_codec_outcome outcome = message##_locate(bytes, length, &whole);                                                           \
    int is_well = is_whole_alike(outcome, answer->outcome, length);                                                                \
    is_well &= outcome.status == TLS_CODEC_ACCEPTED ? memcmp(&whole, &found, sizeof whole) == 0 : are_marks(&whole, sizeof whole); \
    if (answer->outcome.status != TLS_CODEC_ACCEPTED) return is_well && are_marks(&found, sizeof found);                           \
    memcpy(places, &found, sizeof found);                                                                                          \
    for (size_t i = 0; i < sizeof places / sizeof *places; i++) add(answer, places[i]);                                            \
    return is_well;                                                                                                                \
  }
#include "exports.inc"
#undef LOCATED
  return 0;
}

/* What is left ends where the bytes end, or begins there: no call reads past them. */
static int are_bounds_kept(void) {
  static const uint8_t bytes[] = {0, 10, 0, 0};
  tls_codec_span left = {0, 9}, element = {7, 8};
  int is_well = tls13_extension_next(bytes, 4, &left, &element).taken == 4 && is_place(element, 0, 4) && is_place(left, 4, 5);
  is_well &= tls13_extension_next(bytes, 4, &left, &element).status == TLS_CODEC_END_OF_STREAM && is_place(left, 4, 5);
  left.offset = SIZE_MAX;
  is_well &= tls13_extension_next(bytes, 4, &left, &element).status == TLS_CODEC_END_OF_STREAM && is_place(left, SIZE_MAX, 5);
  left.offset = 0, left.size = 3;
  is_well &= tls13_extension_next(bytes, 4, &left, &element).status == TLS_CODEC_END_OF_STREAM && is_place(element, 0, 4);
  if (!is_well) printf("tls13_extension_next: a place that isn't in the bytes has another outcome\n");
  return is_well;
}

/* Of each list: what is left has no bytes, or none that are in `bytes`. */
static int are_ends_kept(void) {
  static const uint8_t bytes[] = {0, 10, 0, 0};
  static const tls_codec_span ends[] = {{0, 0}, {2, 0}, {4, 0}, {4, 1}, {5, 3}, {5, SIZE_MAX}, {SIZE_MAX, SIZE_MAX}};
  int is_well = 1;
  for (size_t i = 0; i < sizeof lists / sizeof *lists; i++)
    for (size_t j = 0; j < sizeof ends / sizeof *ends; j++) {
      tls_codec_span left = ends[j], element = {7, 8};
      tls_codec_outcome outcome = lists[i].next(bytes, sizeof bytes, &left, &element);
      int is_end = strcmp(text_of(outcome), "6 0 0 0") == 0 && is_place(left, ends[j].offset, ends[j].size) && is_place(element, 7, 8);
      if (!is_end) printf("%s of no bytes: %s\n", lists[i].name, text_of(outcome));
      is_well &= is_end;
    }
  return is_well;
}

static int is_as_expected(const char *name, const char *digits, const char *wanted, const char *filled) {
  struct answer answer = {{0, 0, 0, 0}, ""};
  size_t length;
  uint8_t *bytes = bytes_of(digits, &length);
  int is_sound = call(name, bytes, length, &answer);
  free(bytes);
  const char *text = text_of(answer.outcome), *found = *answer.filled ? answer.filled : "-";
  if (is_sound && strcmp(text, wanted) == 0 && strcmp(found, filled) == 0) return 1;
  printf("%s %s: %s, %s, and not %s, %s%s\n", name, digits, text, found, wanted, filled, is_sound ? "" : "; its calls aren't sound");
  return 0;
}

int main(int count, char **words) {
  static char line[1 << 17];
  FILE *file = count > 1 ? fopen(words[1], "r") : NULL;
  if (!file) return 2;
  int rows = 0, failed = !are_bounds_kept() + !are_ends_kept();
  while (fgets(line, sizeof line, file)) {
    char *name = strtok(line, "\t"), *digits = strtok(NULL, "\t"), *wanted = strtok(NULL, "\t"), *filled = strtok(NULL, "\n");
    if (!filled) return 2;
    rows++;
    failed += !is_as_expected(name, digits, wanted, filled);
  }
  fclose(file);
  printf("%d rows, %d failed\n", rows, failed);
  return failed || !rows;
}
