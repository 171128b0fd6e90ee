// Reads declarations once and checks inputs that nobody promised, in C++: a refusal is an exception.
//
//   ./build-library library && c++ -std=c++17 -Ilibrary/include examples/check.cc library/liboncrpc.a -o check && ./check
#include <cstdio>

#include "oncrpc.hpp"

static void check(oncrpc::Declarations &declarations, oncrpc::Bytes input) {
    try {
        const auto found = declarations.check("pair", input);
        std::printf("a value of %zu bytes%s\n", found.used, found.more_follows ? ", and more" : "");
    } catch (const oncrpc::Error &error) {
        std::printf("%s, at %zu\n", error.what(), error.at());
    }
}

int main() {
    auto declarations = oncrpc::Declarations::read("struct pair { int left; bool right; };");
    const std::uint8_t input[] = {0, 0, 0, 1, 0, 0, 0, 1, 0, 0, 0, 2};
    check(declarations, input);
    check(declarations, {input, 8});
    check(declarations, {input, 7});
    check(declarations, {input + 4, 8});
    check(declarations, {});
}
