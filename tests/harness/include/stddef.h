/* The part of <stddef.h> that the C programs here use, for a compiler that comes without headers. */
#ifndef SHIM_STDDEF_H
#define SHIM_STDDEF_H

typedef __SIZE_TYPE__ size_t;
#ifdef __cplusplus
#define NULL nullptr
#else
#define NULL ((void *)0)
#endif

#endif
