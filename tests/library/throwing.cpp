// A program that asks for exceptions gets them: throwing DEPLOYMENT. Prints what it caught.
#define DDSCHECK_EXCEPTIONS
#include "ddscheck.hpp"

#include <cstdio>

namespace {

void use(ddscheck::Guard &guard)
{
    const size_t writer = ddscheck::require(guard.writer("ping_w")), key = ddscheck::require(guard.key("ping", "k"));
    for (int writes = 0;; writes++) {
        std::printf("%d\n", writes);
        ddscheck::require(guard.write(writer, key));
    }
}

} // namespace

int main(int count, char **words)
{
    if (count != 2) {
        return 4;
    }
    ddscheck::Guard guard;
    try {
        ddscheck::require(guard.open_file("/nowhere", "a1"));
    } catch (const std::runtime_error &error) {
        std::printf("%s\n", error.what());
    }
    ddscheck::require(guard.open_file(words[1], "a1"));
    try {
        (void)ddscheck::require(guard.reader("none"));
    } catch (const ddscheck::Error &error) {
        std::printf("%d %s\n", error.status(), error.what());
    }
    try {
        use(guard);
    } catch (const ddscheck::Error &error) {
        std::printf("%d %s\n", error.status(), error.what());
    }
    return 0;
}
