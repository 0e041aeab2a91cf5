/*
 * The functions of the headers as symbols of libhvpm.a and libhvpm.so, for other languages, and for programs
 * in C that don't take them inline.
 */
#define HVPM_INLINE __attribute__((visibility("default")))

#include "hvpm.h"

#include "hvpm_guest.h"
#include "hvpm_pages.h"
#include "hvpm_route.h"
