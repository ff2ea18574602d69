/* Checks a description, as `tvdlg check FILE` does: cc check.c libtvd.a -o check */
#include "tvd.h"
#include <stdio.h>

static char text[262145];

int main(int argc, char **argv) {
  FILE *file = argc == 2 ? fopen(argv[1], "rb") : NULL;
  if (!file) {
    fprintf(stderr, "usage: check FILE\n");
    return TVD_USAGE;
  }
  size_t size = fread(text, 1, sizeof text, file);
  fclose(file);
  tvd_told told = tvd_check(text, size);
  if (told.out) {
    fwrite(told.out, 1, told.out_used, stdout);
    fwrite(told.err, 1, told.err_used, stderr);
  }
  tvd_free(&told);
  return told.status;
}
