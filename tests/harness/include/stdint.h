/* The part of <stdint.h> that the C programs here use, for a compiler that comes without headers. */
#ifndef SHIM_STDINT_H
#define SHIM_STDINT_H

typedef __UINT8_TYPE__ uint8_t;
typedef __INT32_TYPE__ int32_t;
typedef __UINT32_TYPE__ uint32_t;
typedef __UINT64_TYPE__ uint64_t;

#endif
