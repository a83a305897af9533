// The guard of ddscheck.h as a C++ class, and its check, for C++17 and later. They throw nothing, so they need no exceptions: calls answer a ddscheck_status,
// look-ups a number where there is one. With DDSCHECK_EXCEPTIONS defined before the #include there are `require` and `Error`, too.
//
// Threads: as in ddscheck.h, any thread may call, one at a time for each guard.
#ifndef DDSCHECK_HPP
#define DDSCHECK_HPP

#include "ddscheck_file.h"

#include <optional>
#include <string_view>
#include <utility>

#ifdef DDSCHECK_EXCEPTIONS
#include <stdexcept>
#endif

namespace ddscheck {

#ifdef DDSCHECK_EXCEPTIONS
// A status that isn't DDSCHECK_OK; its name is what what() gives.
class Error : public std::runtime_error {
public:
    explicit Error(ddscheck_status status) : std::runtime_error(ddscheck_status_name(status)), status_(status) {}
    [[nodiscard]] ddscheck_status status() const noexcept { return status_; }

private:
    ddscheck_status status_;
};

// Throws an Error for each status but DDSCHECK_OK.
inline void require(ddscheck_status status)
{
    if (status != DDSCHECK_OK) {
        throw Error(status);
    }
}

// The number that a look-up found; an Error of DDSCHECK_UNKNOWN_NAME where there's none.
template <typename Number>
[[nodiscard]] Number require(std::optional<Number> found)
{
    if (!found) {
        throw Error(DDSCHECK_UNKNOWN_NAME);
    }
    return *found;
}
#endif

// The first byte of a text, and some byte of one without any: the library is never given NULL.
inline const char *bytes_of(std::string_view text) noexcept { return text.data() == nullptr ? "" : text.data(); }

// What came of a check. `verdict` and `length` say something where `status` is DDSCHECK_OK.
struct Checked {
    ddscheck_status status;
    ddscheck_verdict verdict;
    size_t length;
};

// Checks a deployment by a certificate, as ddscheck_check does: `text` gets as much of what `ddscheck check` prints as there is room for, with a zero at its
// end. Without a text only the verdict is told, and the length that the text would have.
[[nodiscard]] inline Checked check(std::string_view deployment, std::string_view certificate, char *text = nullptr, size_t room = 0) noexcept
{
    Checked checked{DDSCHECK_OK, DDSCHECK_BAD_FILE, 0};
    checked.status =
        ddscheck_check(bytes_of(deployment), deployment.size(), bytes_of(certificate), certificate.size(), &checked.verdict, text, room, &checked.length);
    return checked;
}

// A guard of one application. The destructor gives back what it holds. It is moved and never copied.
class Guard {
public:
    Guard() noexcept = default;
    ~Guard() { close(); }

    Guard(const Guard &) = delete;
    Guard &operator=(const Guard &) = delete;

    Guard(Guard &&other) noexcept : guard_(std::exchange(other.guard_, ddscheck_guard DDSCHECK_GUARD_CLOSED)) {}
    Guard &operator=(Guard &&other) noexcept
    {
        if (this != &other) {
            close();
            guard_ = std::exchange(other.guard_, ddscheck_guard DDSCHECK_GUARD_CLOSED);
        }
        return *this;
    }

    // By the bytes of the deployment file, or by its path. A guard that is open stays as it is.
    [[nodiscard]] ddscheck_status open(std::string_view deployment, std::string_view application) noexcept
    {
        return ddscheck_open_guard(bytes_of(deployment), deployment.size(), bytes_of(application), application.size(), &guard_);
    }
    [[nodiscard]] ddscheck_status open_file(const char *path, const char *application) noexcept { return ddscheck_open_file(path, application, &guard_); }
    // The same, and where the answer is DDSCHECK_FAULT the fault is told.
    [[nodiscard]] ddscheck_status open_file(const char *path, const char *application, ddscheck_fault &fault) noexcept
    {
        return ddscheck_open_file_explained(path, application, &guard_, &fault);
    }

    void close() noexcept { (void)ddscheck_close(&guard_); }

    [[nodiscard]] std::optional<size_t> writer(std::string_view name) const noexcept
    {
        size_t number = 0;
        const ddscheck_status status = ddscheck_find_writer(&guard_, bytes_of(name), name.size(), &number);
        return told(status, number);
    }
    [[nodiscard]] std::optional<size_t> reader(std::string_view name) const noexcept
    {
        size_t number = 0;
        const ddscheck_status status = ddscheck_find_reader(&guard_, bytes_of(name), name.size(), &number);
        return told(status, number);
    }
    [[nodiscard]] std::optional<size_t> rule(std::string_view name) const noexcept
    {
        size_t number = 0;
        const ddscheck_status status = ddscheck_find_rule(&guard_, bytes_of(name), name.size(), &number);
        return told(status, number);
    }
    [[nodiscard]] std::optional<size_t> key(std::string_view topic, std::string_view name) const noexcept
    {
        size_t number = 0;
        const ddscheck_status status = ddscheck_find_key(&guard_, bytes_of(topic), topic.size(), bytes_of(name), name.size(), &number);
        return told(status, number);
    }

    ddscheck_status take(size_t reader, size_t key) noexcept { return ddscheck_take(&guard_, reader, key); }
    [[nodiscard]] ddscheck_status write(size_t writer, size_t key) noexcept { return ddscheck_write(&guard_, writer, key); }
    ddscheck_status undo_write(size_t writer, size_t key) noexcept { return ddscheck_undo_write(&guard_, writer, key); }
    [[nodiscard]] ddscheck_status may_write(size_t writer, size_t key) const noexcept { return ddscheck_may_write(&guard_, writer, key); }
    ddscheck_status fire(size_t rule) noexcept { return ddscheck_fire(&guard_, rule); }

    // Nothing where the writer or the reader isn't the application's.
    [[nodiscard]] std::optional<uint64_t> permits(size_t writer, size_t key) const noexcept
    {
        uint64_t count = 0;
        const ddscheck_status status = ddscheck_permits(&guard_, writer, key, &count);
        return told(status, count);
    }
    [[nodiscard]] std::optional<uint64_t> spare(size_t reader, size_t key) const noexcept
    {
        uint64_t count = 0;
        const ddscheck_status status = ddscheck_spare(&guard_, reader, key, &count);
        return told(status, count);
    }

    // The guard as the calls of C take it.
    [[nodiscard]] ddscheck_guard *get() noexcept { return &guard_; }

private:
    template <typename Number>
    static std::optional<Number> told(ddscheck_status status, Number number) noexcept
    {
        return status == DDSCHECK_OK ? std::optional<Number>(number) : std::nullopt;
    }

    ddscheck_guard guard_ = DDSCHECK_GUARD_CLOSED;
};

} // namespace ddscheck

#endif
