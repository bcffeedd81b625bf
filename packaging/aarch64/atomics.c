/* What clang calls for atomics on aarch64, where a processor may have later instructions for them. libgcc has these
 * for glibc alone; here they are for each processor and each C library. */
#include <stdint.h>

uint64_t __aarch64_cas8_acq_rel(uint64_t expected, uint64_t wanted, uint64_t *at);
uint64_t __aarch64_ldadd8_acq_rel(uint64_t more, uint64_t *at);

uint64_t __aarch64_cas8_acq_rel(uint64_t expected, uint64_t wanted, uint64_t *at)
{
    __atomic_compare_exchange_n(at, &expected, wanted, 0, __ATOMIC_ACQ_REL, __ATOMIC_ACQUIRE);
    return expected;
}

uint64_t __aarch64_ldadd8_acq_rel(uint64_t more, uint64_t *at)
{
    return __atomic_fetch_add(at, more, __ATOMIC_ACQ_REL);
}
