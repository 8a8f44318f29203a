/* The version of the library: C, which the installed library has beside the proved functions. */
#include "rippleplank.h"

const char *rp_version(void)
{
    return RP_VERSION;
}
