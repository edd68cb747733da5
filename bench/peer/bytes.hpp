// The peer: counts and finds one byte in at most 256 bytes, sixteen at a time.
#pragma once
#include "tree.hpp"

namespace peer {

typedef char Sixteen __attribute__((vector_size(16)));

// One bit for each of sixteen bytes: whether it is this one.
inline u32 equal_bits(const u8* p, u8 byte) {
    Sixteen s;
    std::memcpy(&s, p, 16);
    return (u32)__builtin_ia32_pmovmskb128((Sixteen)(s == (Sixteen{} + (char)byte)));
}

// How often a byte occurs in n bytes.
inline u32 times(const u8* p, u32 n, u8 byte) {
    u32 x = 0, found = 0;
    for (; x + 16 <= n; x += 16) found += (u32)__builtin_popcount(equal_bits(p + x, byte));
    for (; x < n; x++) found += p[x] == byte;
    return found;
}

// The place of the j-th such byte, from 1; n if there is none.
inline u32 nth(const u8* p, u32 n, u8 byte, u64 j) {
    u32 x = 0;
    for (; x + 16 <= n; x += 16) {
        u32 bits = equal_bits(p + x, byte), found = (u32)__builtin_popcount(bits);
        if (j <= found) {
            while (--j) bits &= bits - 1;
            return x + (u32)__builtin_ctz(bits);
        }
        j -= found;
    }
    for (; x < n; x++)
        if (p[x] == byte && --j == 0) return x;
    return n;
}

} // namespace peer
