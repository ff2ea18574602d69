/* tvd.h: what the program tvdlg does with files, done with texts in memory; and descriptions at work. C11 or C++; link
 * libtvd.a, libtvd.o or -ltvd. */
#ifndef TVD_H
#define TVD_H
#include <stddef.h>
#include <stdint.h>
#include <stdlib.h>
#include <string.h>
#ifdef __cplusplus
extern "C" {
#endif

/* Does what `tvdlg WORDS` does where the files `name` and `name2` hold `text` and `text2` and no other
 * file can be read or made, and returns tvdlg's status: 0 done; 1 faults, a refusal or a bad text; 2 usage; 3 a file or
 * memory failed; 4 nothing more came from the user, at once, for `play`.
 *
 * Each of the words, behind the program's name, ends with a NUL byte, the last one too. A file whose name is empty isn't there.
 * What tvdlg writes on standard output becomes the front of `out`, if it fits, and `*out_used` says how many bytes it has.
 * Where that is more than `out_size`, the room is as it was. So it is with `err` and what tvdlg writes on standard error.
 * Another call with more room gives the same, which is only tested.
 *
 * What the library keeps is proved: `Tells` of crates/tvd/specs/Telling.antt, and that the call is safe and returns, whatever
 * bytes it is given. That rests on what its caller keeps, and nothing checks:
 * - No pointer is null, also where there are 0 bytes: pass "". Each is good for its bytes until the call returns.
 * - Nothing that is written (`out`, `err` and the two counts) overlaps another of them, or what is read.
 * - `malloc`, `realloc` and `free` of the program come from one allocator, which aligns as C asks.
 * - It isn't called from a signal handler, or from the forked child of a process with threads.
 * It keeps nothing between calls, so several threads may be in calls at once. */
uint8_t tvd_tell(const void *words, size_t words_size, const void *name, size_t name_size, const void *text,
                 size_t text_size, const void *name2, size_t name2_size, const void *text2, size_t text2_size,
                 void *out, size_t out_size, size_t *out_used, void *err, size_t err_size, size_t *err_used);

enum { TVD_DONE, TVD_FAULTY, TVD_USAGE, TVD_FAILED, TVD_LEFT };

/* Below are functions over it that take room by `malloc`. They are not proved. */

/* A file: its name, and its text of so many bytes. */
typedef struct {
  const char *name;
  const void *text;
  size_t size;
} tvd_file;

/* What came of a call. A NUL byte stands behind each text. The texts are null where there was no memory: status 3. */
typedef struct {
  int status;
  char *out, *err;
  size_t out_used, err_used;
} tvd_told;

static inline void tvd_free(tvd_told *told) {
  free(told->out);
  free(told->err);
  told->out = told->err = NULL;
}

/* Does what the words ask for, of which a null pointer is the last. `beside` may be null. */
static inline tvd_told tvd_ask(const char *const *words, const tvd_file *file, const tvd_file *beside) {
  static const tvd_file none = {"", "", 0};
  tvd_told told = {TVD_FAILED, NULL, NULL, 4095, 4095};
  size_t size = 0, out_size = 0, err_size = 0;
  char *line;
  if (!file) file = &none;
  if (!beside) beside = &none;
  for (const char *const *word = words; *word; word++) size += strlen(*word) + 1;
  if (!(line = (char *)malloc(size + 1))) return told;
  size = 0;
  for (const char *const *word = words; *word; size += strlen(*word++) + 1) strcpy(line + size, *word);
  do {
    tvd_free(&told);
    out_size = told.out_used;
    err_size = told.err_used;
    told.out = (char *)malloc(out_size + 1);
    told.err = (char *)malloc(err_size + 1);
    told.status = TVD_FAILED;
    if (!told.out || !told.err) {
      tvd_free(&told);
      break;
    }
    told.status = tvd_tell(line, size, file->name, strlen(file->name), file->text, file->size, beside->name,
                           strlen(beside->name), beside->text, beside->size, told.out, out_size, &told.out_used,
                           told.err, err_size, &told.err_used);
  } while (told.out_used > out_size || told.err_used > err_size);
  if (told.out) told.out[told.out_used] = told.err[told.err_used] = 0;
  free(line);
  return told;
}

/* `tvdlg check` of a description, which messages call `form`. */
static inline tvd_told tvd_check(const void *text, size_t size) {
  const char *words[] = {"check", "form", NULL};
  tvd_file file = {"form", text, size};
  return tvd_ask(words, &file, NULL);
}

/* `tvdlg explain`. */
static inline tvd_told tvd_explain(const void *text, size_t size) {
  const char *words[] = {"explain", "form", NULL};
  tvd_file file = {"form", text, size};
  return tvd_ask(words, &file, NULL);
}

/* A command on a description and the text beside it, which messages call `beside`. */
static inline tvd_told tvd_both(const char *command, const void *text, size_t size, const void *beside, size_t beside_size) {
  const char *words[] = {command, "form", "beside", NULL};
  tvd_file file = {"form", text, size}, second = {"beside", beside, beside_size};
  return tvd_ask(words, &file, &second);
}

/* `tvdlg accept` with a certificate. */
static inline tvd_told tvd_accept(const void *text, size_t size, const void *certificate, size_t certificate_size) {
  return tvd_both("accept", text, size, certificate, certificate_size);
}

/* `tvdlg run` of a script. */
static inline tvd_told tvd_run(const void *text, size_t size, const void *script, size_t script_size) {
  return tvd_both("run", text, size, script, script_size);
}

/* `tvdlg picture` after a script. */
static inline tvd_told tvd_picture(const void *text, size_t size, const void *script, size_t script_size) {
  return tvd_both("picture", text, size, script, script_size);
}

/* ---- a description at work
 *
 * A form is a room of tvd_size() bytes, aligned as malloc aligns. tvd_open begins a run of a description there, tvd_do
 * does or shows one thing, and tvd_close ends the run: then the room is the caller's again. Between them only the library
 * reads and writes it. What they keep is proved too (`HeldAfter` of crates/tvd/specs/Doors.antt). Beside what tvd_tell
 * asks of its caller:
 * - A form is opened once before it is closed, and closed once. Nothing else is done with one that isn't open.
 * - One thread at a time uses a form. */
typedef struct tvd_form tvd_form;

size_t tvd_size(void);
void tvd_open(tvd_form *at, const void *text, size_t size);
uint8_t tvd_do(tvd_form *at, uint32_t asked, const void *input, size_t input_size, void *room, size_t room_size,
               size_t *used);
void tvd_close(tvd_form *at);

/* What is asked of a form. Of a text `*used` says how many bytes it has, and it becomes the front of the room if it fits. */
enum {
  TVD_STATUS,  /* whether a sound description was opened */
  TVD_BYTES,   /* take bytes of a terminal, up to the first with which something is done; `*used` says how many were taken */
  TVD_PAUSE,   /* take notice that for a tenth of a second no byte came: ESC alone was the key */
  TVD_LINE,    /* perform the one event of a script's line */
  TVD_COMMAND, /* give the command of the number that is the one byte of the input */
  TVD_LOG,     /* the log of the last event, or of the start */
  TVD_SCREEN,  /* the cells of the screen, row by row: tvd_cell */
  TVD_SHAPE,   /* two bytes: columns and rows */
  TVD_FOCUS,   /* the name of the control that has the focus, empty where none has */
  TVD_RECORD   /* the fields with which the dialog of the name opens next, as they are logged at an end */
};

/* What a form answers. */
enum {
  TVD_FORM_DONE,      /* it is done, and no event came of it */
  TVD_FORM_EVENT,     /* an event was performed: the log and the screen may be others */
  TVD_FORM_REFUSED,   /* nothing can be made of what was asked */
  TVD_FORM_NO_MEMORY, /* there was no memory for it, and nothing has changed */
  TVD_FORM_NO_ROOM,   /* the room is too small for the text, and is as it was */
  TVD_FORM_LEFT,      /* the user leaves, by Ctrl-\, or by Ctrl-C unless a status item has that key */
  TVD_FORM_OVER,      /* as an event, but nothing can happen any more, except by a command of the program's own */
  TVD_FORM_UNSOUND,   /* no sound description was opened */
  TVD_FORM_REFRESH    /* the whole screen is to be shown anew, as by Ctrl-L, unless a status item has the key */
};

/* A cell: the number of its character, the least byte first, and its colours: 4 bits of the character's, 3 behind it. */
typedef struct {
  uint8_t character[3], colours;
} tvd_cell;

/* Below are functions over these, which are not proved. */

/* Opens a description. Null where that can't be; `*answer` says why. */
static inline tvd_form *tvd_new(const void *text, size_t size, uint8_t *answer) {
  tvd_form *form = (tvd_form *)malloc(tvd_size());
  char none = 0;
  size_t used;
  *answer = TVD_FORM_NO_MEMORY;
  if (!form) return NULL;
  tvd_open(form, text, size);
  *answer = tvd_do(form, TVD_STATUS, "", 0, &none, 0, &used);
  if (*answer == TVD_FORM_DONE) return form;
  tvd_close(form);
  free(form);
  return NULL;
}

static inline void tvd_end(tvd_form *form) {
  tvd_close(form);
  free(form);
}

/* Something is done that shows no text. */
static inline uint8_t tvd_act(tvd_form *form, uint32_t asked, const void *input, size_t size, size_t *used) {
  char none = 0;
  return tvd_do(form, asked, input, size, &none, 0, used);
}

static inline uint8_t tvd_line(tvd_form *form, const char *line) {
  size_t used;
  return tvd_act(form, TVD_LINE, line, strlen(line), &used);
}

static inline uint8_t tvd_command(tvd_form *form, uint8_t number) {
  size_t used;
  return tvd_act(form, TVD_COMMAND, &number, 1, &used);
}

static inline uint8_t tvd_bytes(tvd_form *form, const void *bytes, size_t size, size_t *taken) {
  return tvd_act(form, TVD_BYTES, bytes, size, taken);
}

static inline uint8_t tvd_pause(tvd_form *form) {
  size_t used;
  return tvd_act(form, TVD_PAUSE, "", 0, &used);
}

/* A text that is asked for, with a NUL byte behind it, for the caller to free. Null where there is none; `*answer` says why. */
static inline char *tvd_text(tvd_form *form, uint32_t asked, const char *name, size_t *size, uint8_t *answer) {
  size_t room = 255;
  for (char *text = NULL;; room = *size) {
    free(text);
    *answer = TVD_FORM_NO_MEMORY;
    if (!(text = (char *)malloc(room + 1))) return NULL;
    *answer = tvd_do(form, asked, name, strlen(name), text, room, size);
    if (*answer == TVD_FORM_NO_ROOM) continue;
    if (*answer == TVD_FORM_DONE) return text[*size] = 0, text;
    free(text);
    return NULL;
  }
}

#ifdef __cplusplus
}
#endif
#endif
