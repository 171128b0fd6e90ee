// oncrpc.hpp with exceptions and without them, in one program: how many answers were wrong.
#include <cstdio>

unsigned wrong_by_throwing();
unsigned wrong_by_returning();

int main() {
    const unsigned wrong = wrong_by_throwing() + wrong_by_returning();
    std::printf("wrong %u\n", wrong);
    return wrong != 0;
}
