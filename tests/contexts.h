// The contexts of call chains: what the values from PERF_CONTEXT_MAX (-4095) on stand for, as in the kernel's perf_event.h.
#ifndef CONTEXTS_H
#define CONTEXTS_H
#include "dewikura.h"

static uint32_t context_of(uint64_t value)
{
    switch ((int64_t)value) {
    case -32: return DEWIKURA_CONTEXT_HYPERVISOR;
    case -128: return DEWIKURA_CONTEXT_KERNEL;
    case -512: return DEWIKURA_CONTEXT_USER;
    case -2048: return DEWIKURA_CONTEXT_GUEST;
    case -2176: return DEWIKURA_CONTEXT_GUEST_KERNEL;
    case -2560: return DEWIKURA_CONTEXT_GUEST_USER;
    default: return DEWIKURA_CONTEXT_UNKNOWN;
    }
}

#endif
