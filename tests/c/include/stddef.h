/* Only what the header and the tests use, from the compiler's own types: the toolchain's compiler brings no headers. */
#ifndef STDDEF_H
#define STDDEF_H

typedef __SIZE_TYPE__ size_t;
#define offsetof(type, field) __builtin_offsetof(type, field)

#endif
