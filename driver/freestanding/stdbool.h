/* Truth values, for a compiler that comes without its own headers. */
#ifndef FREESTANDING_STDBOOL_H
#define FREESTANDING_STDBOOL_H
#define bool _Bool
#define true 1
#define false 0
#endif
