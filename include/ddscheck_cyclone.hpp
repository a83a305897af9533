// ddscheck_dds_open of ddscheck_cyclone.h for the guard of ddscheck.hpp.
#ifndef DDSCHECK_CYCLONE_HPP
#define DDSCHECK_CYCLONE_HPP

#include "ddscheck.hpp"
#include "ddscheck_cyclone.h"

#include <initializer_list>

namespace ddscheck {

// What came of opening a guard beside entities. Where `status` isn't DDSCHECK_OK, and an end was looked at, `difference` has it.
struct Opened {
    ddscheck_status status;
    ddscheck_dds_difference difference;
};

// Opens a guard where the QoS of each end is that of the deployment file.
[[nodiscard]] inline Opened open(Guard &guard, const char *path, const char *application, std::initializer_list<ddscheck_dds_name> ends) noexcept
{
    Opened opened{DDSCHECK_OK, {"", "", 0, 0}};
    opened.status = ddscheck_dds_open(path, application, guard.get(), ends.begin(), ends.size(), &opened.difference);
    return opened;
}

} // namespace ddscheck

#endif
