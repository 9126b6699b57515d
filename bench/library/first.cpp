// A first call from C++: the double SHA-256 of "abc", and the fault of a block without bytes.
#include "cbrelay.h"

#include <cstdio>
#include <string>

namespace {

std::string text(cbrelay_status status)
{
    std::string made(17, '\0');
    std::size_t len = 0;
    // a string's characters are bytes
    cbrelay_fault_text(status, reinterpret_cast<uint8_t *>(&made[0]), made.size(), &len);
    made.resize(len);
    return made;
}

} // namespace

int main()
{
    const uint8_t bytes[] = {'a', 'b', 'c'};
    cbrelay_hash hash;
    cbrelay_sha256d(bytes, sizeof bytes, &hash);
    for (std::size_t i = 0; i < sizeof hash.bytes; i++)
        std::printf("%02x", hash.bytes[i]);
    std::printf(" %s\n", text(cbrelay_block_check(nullptr, 0)).c_str());
    return 0;
}
