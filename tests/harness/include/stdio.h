/* The part of <stdio.h> that the C programs here use, for a compiler that comes without headers. */
#ifndef SHIM_STDIO_H
#define SHIM_STDIO_H

#include <stddef.h>

#ifdef __cplusplus
extern "C" {
#endif

typedef struct shim_file FILE;
extern FILE *stdin, *stdout;

int printf(const char *format, ...);
int putchar(int byte);
int puts(const char *line);
int fflush(FILE *to);
size_t fread(void *to, size_t size, size_t count, FILE *from);
size_t fwrite(const void *from, size_t size, size_t count, FILE *to);

#ifdef __cplusplus
}
#endif

#endif
