/* Plays a description in this terminal, and prints its log at the end: cc form.c libtvd.a -o form */
#include "tvd.h"
#include <poll.h>
#include <stdio.h>
#include <termios.h>
#include <unistd.h>

static char text[262145], log_text[1 << 20];
static size_t logged;

/* A character in UTF-8. */
static void put_character(const uint8_t number[3]) {
  unsigned n = number[0] | (unsigned)number[1] << 8 | (unsigned)number[2] << 16;
  if (n >= 0x10000) putchar((int)(0xf0 | n >> 18)), putchar((int)(0x80 | (n >> 12 & 63)));
  else if (n >= 0x800) putchar((int)(0xe0 | n >> 12));
  if (n >= 0x800) putchar((int)(0x80 | (n >> 6 & 63)));
  else if (n >= 0x80) putchar((int)(0xc0 | n >> 6));
  putchar((int)(n >= 0x80 ? 0x80 | (n & 63) : n));
}

/* Shows the screen after an answer, and keeps what an event logged. */
static void show(tvd_form *form, uint8_t got) {
  static const int order[8] = {0, 4, 2, 6, 1, 5, 3, 7};
  static tvd_cell cells[132 * 60];
  uint8_t shape[2], answer;
  size_t used, size;
  tvd_do(form, TVD_SHAPE, "", 0, shape, 2, &used);
  tvd_do(form, TVD_SCREEN, "", 0, cells, sizeof cells, &used);
  for (int row = 0; row < shape[1]; row++) {
    printf("\033[%d;1H", row + 1);
    for (int column = 0; column < shape[0]; column++) {
      const tvd_cell *cell = &cells[row * shape[0] + column];
      int front = cell->colours & 15, behind = cell->colours >> 4 & 7;
      printf("\033[%d;%dm", order[front & 7] + (front > 7 ? 90 : 30), order[behind] + 40);
      put_character(cell->character);
    }
  }
  fflush(stdout);
  char *lines = got == TVD_FORM_EVENT || got == TVD_FORM_OVER ? tvd_text(form, TVD_LOG, "", &size, &answer) : NULL;
  if (lines && logged + size <= sizeof log_text) memcpy(log_text + logged, lines, size), logged += size;
  free(lines);
}

/* Takes what comes from the user, until the user leaves or nothing can happen any more. */
static void play(tvd_form *form) {
  struct pollfd input = {0, POLLIN, 0};
  for (uint8_t answer = TVD_FORM_EVENT; answer != TVD_FORM_LEFT && answer != TVD_FORM_OVER;) {
    char bytes[64];
    ssize_t count = poll(&input, 1, 100) > 0 ? read(0, bytes, sizeof bytes) : -1;
    if (count == 0) return;
    if (count < 0 && (answer = tvd_pause(form)) != TVD_FORM_DONE) show(form, answer);
    for (size_t at = 0, taken; count > 0 && at < (size_t)count && answer != TVD_FORM_LEFT && answer != TVD_FORM_OVER; at += taken)
      if ((answer = tvd_bytes(form, bytes + at, (size_t)count - at, &taken)) != TVD_FORM_DONE) show(form, answer);
  }
}

int main(int argc, char **argv) {
  FILE *file = argc == 2 ? fopen(argv[1], "rb") : NULL;
  if (!file) return fprintf(stderr, "usage: form FILE\n"), TVD_USAGE;
  uint8_t answer;
  tvd_form *form = tvd_new(text, fread(text, 1, sizeof text, file), &answer);
  if (!form) return fprintf(stderr, "form: %s can't be opened: see tvdlg explain\n", argv[1]), TVD_FAULTY;
  struct termios was, raw;
  if (tcgetattr(0, &was)) return fprintf(stderr, "form: standard input is no terminal\n"), TVD_FAILED;
  raw = was;
  raw.c_lflag &= ~(tcflag_t)(ICANON | ECHO | ISIG | IEXTEN);
  raw.c_iflag &= ~(tcflag_t)(IXON | ICRNL);
  tcsetattr(0, TCSANOW, &raw);
  printf("\033[?1049h\033[?1002h\033[?1006h\033[?25l");
  show(form, TVD_FORM_EVENT);
  play(form);
  printf("\033[0m\033[?25h\033[?1006l\033[?1002l\033[?1049l"), fflush(stdout);
  tcsetattr(0, TCSANOW, &was);
  tvd_end(form);
  fwrite(log_text, 1, logged, stdout);
  return TVD_DONE;
}
