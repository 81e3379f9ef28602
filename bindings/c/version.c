/* The version of the library: the one function in it that is C, and not proved. bindings/build.sh puts it into the archive. */
#include "twkb.h"

/* By the first word the build script of the crate for Rust finds the version in the archive. */
static const char named[] = "libtwkb " TWKB_VERSION;

const char *twkb_version(void) { return named + sizeof "libtwkb"; }
