// That the header stands alone in C++17, without exceptions.
#include "ddscheck.hpp"

bool includes_header();

bool includes_header()
{
    ddscheck::Guard guard;
    ddscheck::Guard other = std::move(guard);
    other = ddscheck::Guard();
    return other.may_write(0, 0) == DDSCHECK_NOT_OPEN && !other.permits(0, 0);
}
