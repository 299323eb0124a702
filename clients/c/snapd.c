/* The functions of both headers as a library, for programs that are compiled with SNAPD_LINKED. */
#define _POSIX_C_SOURCE 200809L
#define SNAPD_IMPLEMENTATION
#include "snapd_segment.h"
