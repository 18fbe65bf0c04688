/* How to print a number of eight bytes, for a compiler that comes without its own headers. */
#ifndef FREESTANDING_INTTYPES_H
#define FREESTANDING_INTTYPES_H
#include <stdint.h>
#define PRIu64 "lu"
#endif
