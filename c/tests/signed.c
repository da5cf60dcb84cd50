/* signed FILE: what is written of the parts of each row, and the outcome.
 *
 * A row has a wire format, the hex of a FramedContent and of a GroupContext or `-`, what the call is to say, as
 * `STATUS TAKEN AT DETAIL`, and the hex of what it is to write. A buffer with a byte too few has to be left as it was. A context without
 * bytes is NULL. */
#include "rows.h"

enum { SPARE = 3 };

static int is_as_expected(char **columns) {
  uint16_t wire_format = (uint16_t)atoi(columns[0]);
  size_t content_length, context_length, size;
  uint8_t *content = bytes_of(columns[1], &content_length), *context = bytes_of(columns[2], &context_length);
  uint8_t *written = bytes_of(columns[4], &size), *out = malloc(size + SPARE);
  if (!out || !size) exit(2);
  const uint8_t *signed_context = context_length ? context : NULL;
  memset(out, MARK, size + SPARE);
  tls_codec_outcome none =
      mls_framed_content_tbs_encode(wire_format, content, content_length, signed_context, context_length, out, size - 1);
  int is_kept = none.status == TLS_CODEC_INVALID_WRITE_LENGTH && !none.taken && !none.at && !none.detail && are_marks(out, size + SPARE);
  tls_codec_outcome outcome =
      mls_framed_content_tbs_encode(wire_format, content, content_length, signed_context, context_length, out, size + SPARE);
  int is_written = memcmp(out, written, size) == 0 && are_marks(out + size, SPARE);
  free(content), free(context), free(written), free(out);
  if (is_kept && is_written && strcmp(text_of(outcome), columns[3]) == 0) return 1;
  printf("%s: %s, and not %s; written: %d; kept: %d\n", columns[4], text_of(outcome), columns[3], is_written, is_kept);
  return 0;
}

int main(int count, char **words) {
  static char line[1 << 12];
  FILE *file = count > 1 ? fopen(words[1], "r") : NULL;
  if (!file) return 2;
  int rows = 0, failed = 0;
  while (fgets(line, sizeof line, file)) {
    char *columns[5];
    for (int i = 0; i < 5; i++)
      if (!(columns[i] = strtok(i ? NULL : line, "\t\n"))) return 2;
    rows++;
    failed += !is_as_expected(columns);
  }
  fclose(file);
  printf("%d rows, %d failed\n", rows, failed);
  return failed || !rows;
}
