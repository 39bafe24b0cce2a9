/* What the library says of itself. */
#include "hibitset.h"

const uint64_t hibitset_abi_0 = 0;

const char *hibitset_version(void) { return HIBITSET_VERSION; }
