// The guard in C++ gives back what it holds, wherever it is moved, and its check says what that in C says: owned DEPLOYMENT CERTIFICATE.
#include "ddscheck.hpp"

#include <cstdio>
#include <string>
#include <type_traits>

namespace {

std::string read_file(const char *path)
{
    std::string bytes;
    if (std::FILE *file = std::fopen(path, "rb")) {
        for (int byte = std::fgetc(file); byte != EOF; byte = std::fgetc(file)) {
            bytes.push_back(static_cast<char>(byte));
        }
        (void)std::fclose(file);
    }
    return bytes;
}

ddscheck::Guard opened(std::string_view deployment)
{
    ddscheck::Guard guard;
    (void)guard.open(deployment, "a1");
    return guard;
}

void print(const char *what, ddscheck_status status) { std::printf("%s %s\n", what, ddscheck_status_name(status)); }

// The queries of a guard that may not change.
void ask(const ddscheck::Guard &guard)
{
    const auto writer = guard.writer("ping_w"), reader = guard.reader("pong_r"), key = guard.key("ping", "k"), none = guard.rule("none");
    std::printf("%d %d %d %d\n", writer.has_value(), reader.has_value(), key.has_value(), none.has_value());
    std::printf("%lu %lu\n", static_cast<unsigned long>(guard.permits(*writer, *key).value_or(9)), static_cast<unsigned long>(guard.spare(*reader, *key).value_or(9)));
    print("may_write", guard.may_write(*writer, *key));
}

} // namespace

int main(int count, char **words)
{
    static_assert(!std::is_copy_constructible_v<ddscheck::Guard> && !std::is_copy_assignable_v<ddscheck::Guard>);
    static_assert(std::is_nothrow_move_constructible_v<ddscheck::Guard> && std::is_nothrow_move_assignable_v<ddscheck::Guard>);
    static_assert(std::is_nothrow_destructible_v<ddscheck::Guard>);
    if (count != 3) {
        return 4;
    }
    const std::string deployment = read_file(words[1]), certificate = read_file(words[2]);
    ddscheck::Guard first = opened(deployment), second = opened(deployment);
    ask(first);
    second = std::move(first); // what second held is given back
    print("moved from", first.may_write(0, 0));
    ask(second);
    print("an empty text", first.open({}, {}));
    print("a file", first.open_file(words[1], "a1"));
    second.close();
    print("closed", second.may_write(0, 0));
    char text[64];
    const ddscheck::Checked whole = ddscheck::check(deployment, certificate, text, sizeof text);
    print("check", whole.status);
    std::printf("%d %lu\n%s", whole.verdict, static_cast<unsigned long>(whole.length), text);
    const ddscheck::Checked alone = ddscheck::check(deployment, certificate);
    std::printf("%d %lu\n", alone.verdict, static_cast<unsigned long>(alone.length));
    return 0;
}
