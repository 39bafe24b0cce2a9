/* processor.c: whether the processor has what the library is compiled for. It is called before any function of it. */
#include "core.h"

/* What is asked for. The library is made for level x86-64-v2. */
#ifndef PROCESSOR_HAS
#define PROCESSOR_HAS(feature) __builtin_cpu_supports(feature)
#endif

bool processor_fits(void) {
    __builtin_cpu_init();
    if (PROCESSOR_HAS("ssse3") && PROCESSOR_HAS("sse4.1") && PROCESSOR_HAS("sse4.2") && PROCESSOR_HAS("popcnt")) {
        return true;
    }
    PyErr_SetString(PyExc_ImportError, "hibitset needs a processor of level x86-64-v2, with SSE 4.2 and POPCNT");
    return false;
}
