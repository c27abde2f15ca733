"""A library that stands before the C library, by which tests let calls of memory and of files fail."""
import pathlib
import subprocess

HEAD = r"""
#define _GNU_SOURCE
#include <dlfcn.h>
#include <errno.h>
#include <fcntl.h>
#include <stdarg.h>
#include <stdlib.h>
#include <string.h>
#include <unistd.h>

// The call of that name in the C library.
#define REAL(name) ((__typeof__(&name))(real_##name ? real_##name : (real_##name = dlsym(RTLD_NEXT, #name))))
static void *real_malloc, *real_realloc, *real_open, *real_read, *real_write;
"""
MEMORY = r"""
void *malloc(size_t n) { return no_memory() ? NULL : REAL(malloc)(n); }
void *realloc(void *p, size_t n) { return no_memory() ? NULL : REAL(realloc)(p, n); }
"""
OPEN = r"""
int open(const char *name, int flags, ...) {
    va_list more;
    va_start(more, flags);
    int mode = va_arg(more, int);
    va_end(more);
    if (no_file(name)) { errno = EIO; return -1; }
    return REAL(open)(name, flags, mode);
}
"""


def library(room: pathlib.Path, *texts: str) -> pathlib.Path:
    """Compiles the texts in C, behind HEAD, into a folder."""
    source, made = room / "preload.c", room / "preload.so"
    source.write_text(HEAD + "".join(texts), encoding="ascii")
    subprocess.run(["gcc", "-O2", "-shared", "-fPIC", "-Wno-unused-variable", "-o", made, source, "-ldl"], check=True)
    return made
