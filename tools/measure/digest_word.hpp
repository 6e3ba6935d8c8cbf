// The number that a hash option makes of octets: the last four octets of the MD5 digest of the octets in upper case, as
// a signed number without its sign (RFC 3652, section 3.1.3).
#pragma once

#include <openssl/md5.h>

#include <cstddef>
#include <cstdint>
#include <string_view>

inline uint32_t word_of(std::string_view octets) {
    unsigned char upper[4096], digest[16];
    for (size_t at = 0; at < octets.size(); at++) {
        unsigned char octet = octets[at];
        upper[at] = octet >= 'a' && octet <= 'z' ? octet - 32 : octet;
    }
    MD5(upper, octets.size(), digest);
    uint32_t word = uint32_t(digest[12]) << 24 | digest[13] << 16 | digest[14] << 8 | digest[15];
    return word & 0x80000000u ? 0u - word : word;
}
