"""Runs a built program and refuses it one of its allocations, for tools/starve and tools/refusals.

A library that stands before the C library's `malloc` counts and refuses. It is made by `cc`, for a program that is linked dynamically.
"""
import os
import subprocess

BEFORE_MALLOC = r"""
#include <stdio.h>
#include <stdlib.h>
void *__libc_malloc(size_t), *__libc_realloc(void *, size_t), *__libc_memalign(size_t, size_t);
static long made;
static int is_refused(void) {
  const char *number = getenv("REFUSED");
  return ++made == (number ? atol(number) : 0);
}
void *malloc(size_t size) { return is_refused() ? NULL : __libc_malloc(size); }
void *realloc(void *old, size_t size) { return is_refused() ? NULL : __libc_realloc(old, size); }
void *memalign(size_t align, size_t size) { return is_refused() ? NULL : __libc_memalign(align, size); }
void *aligned_alloc(size_t align, size_t size) { return memalign(align, size); }
int posix_memalign(void **to, size_t align, size_t size) { return (*to = memalign(align, size)) ? 0 : 12; }
__attribute__((destructor)) static void tell(void) {
  long count = made;
  FILE *to = getenv("COUNTED") ? fopen(getenv("COUNTED"), "w") : NULL;
  if (to) { fprintf(to, "%ld\n", count); fclose(to); }
}
"""


class Refusing:
    """A program before whose `malloc` the library stands. The library is made in a folder of the caller's."""

    def __init__(self, program, room):
        self.program, self.room = program, room
        (room / "before.c").write_text(BEFORE_MALLOC)
        subprocess.run(["cc", "-O1", "-shared", "-fPIC", "-o", "before.so", "before.c"], cwd=room, check=True)

    def run(self, words, refused=0, folder=".", given=b""):
        """How the program ends, with so many an allocation refused, and how many it asked for; None where it couldn't tell."""
        counted = self.room / "counted"
        counted.unlink(missing_ok=True)
        beside = dict(os.environ, LD_PRELOAD=str(self.room / "before.so"), REFUSED=str(refused), COUNTED=str(counted))
        ended = subprocess.run([self.program, *words], cwd=folder, env=beside, input=given, capture_output=True, timeout=60)
        return ended, int(counted.read_text()) if counted.exists() else None
