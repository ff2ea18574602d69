/* Does what tvdlg does, by the library, for tools/libtvd: driver [--refuse] NAME NAME2 [WORD..]
 *
 * The files of the two names are read, and the words handed on. It prints what the library tells, and ends with its status; with
 * another room the library has to tell the same. With --refuse each allocation is refused in turn: the status is 3 then, or all is as
 * ever; and nothing is left that the library took. Linked with -Wl,--wrap=malloc,--wrap=realloc,--wrap=free. */
#include "tvd.h"
#include <stdio.h>

void *__real_malloc(size_t size);
void *__real_realloc(void *old, size_t size);
void __real_free(void *old);

static long asked, refused, held;

static int is_refused(void) { return ++asked == refused; }

void *__wrap_malloc(size_t size) {
  void *at = is_refused() ? NULL : __real_malloc(size);
  held += at != NULL;
  return at;
}

void *__wrap_realloc(void *old, size_t size) {
  void *at = is_refused() ? NULL : __real_realloc(old, size);
  held += at != NULL && !old;
  return at;
}

void __wrap_free(void *old) {
  held -= old != NULL;
  __real_free(old);
}

static void fail(const char *why) {
  fprintf(stderr, "driver: %s\n", why);
  exit(99);
}

static char *read_file(const char *name, size_t *size) {
  FILE *file = *name ? fopen(name, "rb") : NULL;
  char *text = (char *)__real_malloc(1 << 21);
  if (!text) fail("no memory");
  *size = file ? fread(text, 1, 1 << 21, file) : 0;
  if (file) fclose(file);
  return text;
}

/* A call: its words and files, and what it told in rooms of their size. */
typedef struct {
  char *words, *names[2], *texts[2], *out, *err;
  size_t words_size, sizes[2], out_size, err_size, out_used, err_used;
  int status;
} call;

static void tell(call *c) {
  asked = 0;
  c->status = tvd_tell(c->words, c->words_size, c->names[0], strlen(c->names[0]), c->texts[0], c->sizes[0], c->names[1],
                       strlen(c->names[1]), c->texts[1], c->sizes[1], c->out, c->out_size, &c->out_used, c->err,
                       c->err_size, &c->err_used);
  if (held) fail("memory is left");
}

/* Rooms of exactly so many bytes, so that the sanitizer sees a byte too many. */
static void make_room(call *c, size_t out_size, size_t err_size) {
  __real_free(c->out);
  __real_free(c->err);
  c->out_size = out_size;
  c->err_size = err_size;
  if (!(c->out = (char *)__real_malloc(out_size)) || !(c->err = (char *)__real_malloc(err_size))) fail("no memory");
  memset(c->out, 7, out_size);
  memset(c->err, 7, err_size);
}

static int is_untouched(const char *room, size_t size) {
  for (size_t i = 0; i < size; i++)
    if (room[i] != 7) return 0;
  return 1;
}

/* One byte too few leaves the room as it was. */
static void try_narrow(const call *whole) {
  call c = *whole;
  c.out = c.err = NULL;
  make_room(&c, whole->out_used - (whole->out_used > 0), whole->err_used - (whole->err_used > 0));
  tell(&c);
  if (c.status != whole->status || c.out_used != whole->out_used || c.err_used != whole->err_used) fail("another count");
  if (!is_untouched(c.out, c.out_size) || !is_untouched(c.err, c.err_size)) fail("a room that was too little is changed");
  __real_free(c.out);
  __real_free(c.err);
}

/* A larger room is changed at its front alone. */
static void try_wide(const call *whole) {
  call c = *whole;
  c.out = c.err = NULL;
  make_room(&c, whole->out_used + 3, whole->err_used + 3);
  tell(&c);
  if (c.status != whole->status || c.out_used != whole->out_used || c.err_used != whole->err_used) fail("another count");
  if (memcmp(c.out, whole->out, c.out_used) || memcmp(c.err, whole->err, c.err_used)) fail("another text");
  if (!is_untouched(c.out + c.out_used, 3) || !is_untouched(c.err + c.err_used, 3)) fail("a room is changed behind its text");
  __real_free(c.out);
  __real_free(c.err);
}

static void refuse_each(const call *whole, long count) {
  call c = *whole;
  c.out = c.err = NULL;
  make_room(&c, whole->out_used + 100, whole->err_used + 100);
  for (refused = 1; refused <= count; refused++) {
    tell(&c);
    int is_same = c.status == whole->status && c.out_used == whole->out_used && c.err_used == whole->err_used &&
                  !memcmp(c.out, whole->out, c.out_used) && !memcmp(c.err, whole->err, c.err_used);
    if (c.status != 3 && !is_same) fail("refused memory, but not told of it");
  }
  refused = 0;
  __real_free(c.out);
  __real_free(c.err);
}

int main(int argc, char **argv) {
  int refuses = argc > 1 && !strcmp(argv[1], "--refuse");
  call c = {0};
  if (argc < 3 + refuses) fail("usage: driver [--refuse] NAME NAME2 [WORD..]");
  argv += 1 + refuses;
  for (int i = 0; i < 2; i++) c.texts[i] = read_file(c.names[i] = argv[i], &c.sizes[i]);
  for (char **word = argv + 2; *word; word++) c.words_size += strlen(*word) + 1;
  if (!(c.words = (char *)__real_malloc(c.words_size + 1))) fail("no memory");
  c.words_size = 0;
  for (char **word = argv + 2; *word; c.words_size += strlen(*word++) + 1) strcpy(c.words + c.words_size, *word);
  make_room(&c, 0, 0);
  tell(&c);
  make_room(&c, c.out_used, c.err_used);
  tell(&c);
  long count = asked;
  if (c.out_used != c.out_size || c.err_used != c.err_size) fail("another count");
  try_narrow(&c);
  try_wide(&c);
  if (refuses) refuse_each(&c, count);
  fwrite(c.out, 1, c.out_used, stdout);
  fwrite(c.err, 1, c.err_used, stderr);
  __real_free(c.words), __real_free(c.texts[0]), __real_free(c.texts[1]), __real_free(c.out), __real_free(c.err);
  return c.status;
}
