/* The kit's clang brings no C headers: the one type that include/nevelknop.h and the C tests need. */
#ifndef STDDEF_H
#define STDDEF_H
typedef __SIZE_TYPE__ size_t;
#endif
