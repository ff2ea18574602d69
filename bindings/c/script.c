/* Performs a script by a form, line by line, for tools/libtvd: script [--refuse] FILE SCRIPT
 *
 * It prints what `tvdlg run` prints: the log after each event, and the screen at each `shot` and `colors`. With --refuse each
 * allocation is refused in turn: then a call has to say that there was no memory, or all is as ever; and nothing is left that the
 * library took. Linked with -Wl,--wrap=malloc,--wrap=realloc,--wrap=free. */
#include "tvd.h"
#include <stdio.h>

void *__real_malloc(size_t size);
void *__real_realloc(void *old, size_t size);
void __real_free(void *old);

static long asked, refused, held;

static int is_refused(void) { return ++asked == refused; }

void *__wrap_malloc(size_t size) {
  void *at = is_refused() ? NULL : __real_malloc(size);
  held += at != NULL;
  return at;
}

void *__wrap_realloc(void *old, size_t size) {
  void *at = is_refused() ? NULL : __real_realloc(old, size);
  held += at != NULL && !old;
  return at;
}

void __wrap_free(void *old) {
  held -= old != NULL;
  __real_free(old);
}

static void fail(const char *why) {
  fprintf(stderr, "script: %s\n", why);
  exit(99);
}

static char *read_file(const char *name, size_t *size) {
  FILE *file = fopen(name, "rb");
  char *text = (char *)__real_malloc((1 << 21) + 1);
  if (!file || !text) fail("no file or no memory");
  *size = fread(text, 1, 1 << 21, file);
  text[*size] = 0;
  fclose(file);
  return text;
}

/* What is printed. */
typedef struct {
  char *text;
  size_t used, size;
} output;

static void put(output *out, const void *bytes, size_t count) {
  if (out->used + count > out->size) {
    out->size = 2 * (out->used + count);
    if (!(out->text = (char *)__real_realloc(out->text, out->size))) fail("no memory");
  }
  memcpy(out->text + out->used, bytes, count);
  out->used += count;
}

/* Rooms of exactly so many bytes, so that the sanitizer sees a byte too many. Returns whether there was memory for the text. */
static int put_text(output *out, tvd_form *form, uint32_t what) {
  size_t size, again;
  char none = 7;
  uint8_t answer = tvd_do(form, what, "", 0, &none, 0, &size);
  if (answer == TVD_FORM_NO_MEMORY) return 0;
  if (size == 0) return 1;
  if (answer != TVD_FORM_NO_ROOM || none != 7) fail("a text fits into nothing");
  char *room = (char *)__real_malloc(size);
  if (!room) fail("no memory");
  answer = tvd_do(form, what, "", 0, room, size, &again);
  if (answer == TVD_FORM_DONE && again == size) put(out, room, size);
  else if (answer != TVD_FORM_NO_MEMORY) fail("another text");
  __real_free(room);
  return answer == TVD_FORM_DONE;
}

static void put_character(output *out, uint32_t n) {
  uint8_t bytes[4];
  size_t count = 0;
  if (n < 0x80) bytes[count++] = (uint8_t)n;
  else if (n < 0x800) bytes[count++] = (uint8_t)(0xc0 | n >> 6);
  else if (n < 0x10000) bytes[count++] = (uint8_t)(0xe0 | n >> 12), bytes[count++] = (uint8_t)(0x80 | (n >> 6 & 63));
  else bytes[count++] = (uint8_t)(0xf0 | n >> 18), bytes[count++] = (uint8_t)(0x80 | (n >> 12 & 63)), bytes[count++] = (uint8_t)(0x80 | (n >> 6 & 63));
  if (n >= 0x80) bytes[count++] = (uint8_t)(0x80 | (n & 63));
  put(out, bytes, count);
}

/* The screen as `shot` or `colors` has it. */
static int put_screen(output *out, tvd_form *form, int is_shot) {
  static tvd_cell cells[132 * 60];
  uint8_t shape[2];
  size_t used;
  char head[32];
  if (tvd_do(form, TVD_SHAPE, "", 0, shape, 2, &used) != TVD_FORM_DONE) return 0;
  if (tvd_do(form, TVD_SCREEN, "", 0, cells, sizeof cells, &used) != TVD_FORM_DONE) return 0;
  if (used != 4u * shape[0] * shape[1]) fail("another count of cells");
  put(out, head, (size_t)snprintf(head, sizeof head, "%s %d %d\n", is_shot ? "shot" : "colors", shape[0], shape[1]));
  for (int row = 0; row < shape[1]; row++) {
    put(out, ":", 1);
    for (int column = 0; column < shape[0]; column++) {
      const tvd_cell *cell = &cells[row * shape[0] + column];
      if (is_shot) put_character(out, cell->character[0] | (uint32_t)cell->character[1] << 8 | (uint32_t)cell->character[2] << 16);
      else put(out, head, (size_t)snprintf(head, sizeof head, "%02x", cell->colours));
    }
    put(out, ":\n", 2);
  }
  return 1;
}

/* Performs a line with one event. Returns whether there was memory. */
static int perform(output *out, tvd_form *form, const char *line, size_t size) {
  size_t used;
  switch (tvd_act(form, TVD_LINE, line, size, &used)) {
  case TVD_FORM_NO_MEMORY: return 0;
  case TVD_FORM_EVENT:
  case TVD_FORM_OVER: return put_text(out, form, TVD_LOG);
  default: fail("a line is refused");
  }
  return 0;
}

/* Types the characters between quotes one by one. */
static int type(output *out, tvd_form *form, const char *at) {
  char line[16] = "type \"";
  for (at = strchr(at, '"') + 1; *at != '"';) {
    size_t count = 1 + (*at == '\\');
    while ((at[count] & 0xc0) == 0x80) count++;
    memcpy(line + 6, at, count);
    line[6 + count] = '"';
    if (!perform(out, form, line, 7 + count)) return 0;
    at += count;
  }
  return 1;
}

/* Performs the script. Returns whether there was memory for all of it. */
static int run(output *out, tvd_form *form, const char *script) {
  int has_memory = put_text(out, form, TVD_LOG);
  for (const char *line = script, *end; has_memory && *line; line = *end ? end + 1 : end) {
    end = line + strcspn(line, "\n");
    const char *word = line + strspn(line, " \t\r");
    if (word >= end || *word == '#') continue;
    if (!strncmp(word, "shot", 4) || !strncmp(word, "colors", 6)) has_memory = put_screen(out, form, *word == 's');
    else if (!strncmp(word, "type", 4)) has_memory = type(out, form, word);
    else has_memory = perform(out, form, line, (size_t)(end - line));
  }
  return has_memory;
}

/* Opens the description and performs the script. */
static int play(output *out, void *room, const char *text, size_t size, const char *script) {
  size_t used;
  tvd_form *form = (tvd_form *)room;
  out->used = 0;
  tvd_open(form, text, size);
  uint8_t answer = tvd_act(form, TVD_STATUS, "", 0, &used);
  int has_memory = answer == TVD_FORM_DONE && run(out, form, script);
  tvd_close(form);
  if (held) fail("memory is left");
  if (answer != TVD_FORM_DONE && answer != TVD_FORM_NO_MEMORY) fail("no sound description");
  return has_memory;
}

int main(int argc, char **argv) {
  int refuses = argc > 1 && !strcmp(argv[1], "--refuse");
  if (argc != 3 + refuses) fail("usage: script [--refuse] FILE SCRIPT");
  size_t size, script_size;
  char *text = read_file(argv[1 + refuses], &size), *script = read_file(argv[2 + refuses], &script_size);
  void *room = __real_malloc(tvd_size());
  output out = {0}, again = {0};
  if (!room) fail("no memory");
  if (!play(&out, room, text, size, script)) fail("no memory");
  long count = asked;
  for (refused = 1; refuses && refused <= count; refused++) {
    asked = 0;
    if (play(&again, room, text, size, script) && (again.used != out.used || memcmp(again.text, out.text, out.used)))
      fail("refused memory, but not told of it");
  }
  refused = 0;
  fwrite(out.text, 1, out.used, stdout);
  __real_free(room), __real_free(text), __real_free(script), __real_free(out.text), __real_free(again.text);
  return 0;
}
