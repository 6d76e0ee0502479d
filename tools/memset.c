/* What a compiler calls to fill memory with a byte. tools/archive puts it into the archive of the engine, where it is known to
 * that archive alone, so that the engine needs no other library. */
#include <stddef.h>
#include <stdint.h>

__attribute__((visibility("hidden"))) void *memset(void *to, int byte, size_t n) {
    void *at = to;
    uint64_t word = (uint8_t)byte * UINT64_C(0x0101010101010101);
    size_t words = n / 8;
    size_t rest = n % 8;
    __asm__ volatile("rep stosq" : "+D"(at), "+c"(words) : "a"(word) : "memory");
    __asm__ volatile("rep stosb" : "+D"(at), "+c"(rest) : "a"(word) : "memory");
    return to;
}
