# The libraries for C and C++, as targets to link:
#
#   ddscheck::ddscheck   the guard and the check
#   ddscheck::guard      the guard alone
#
# A target is there if its library is: where ./ddscheck --install or the Debian package has put it, or in the clone.

cmake_policy(VERSION 3.17)

function(_ddscheck_add_library target archive)
  set(module "${CMAKE_CURRENT_FUNCTION_LIST_DIR}")
  set(places "${module}/../../../lib/${CMAKE_LIBRARY_ARCHITECTURE}" "${module}/../../../lib"
    "${module}/../crates/dds_guard_c/out")
  find_library(DDSCHECK_${target}_LIBRARY NAMES "${archive}" PATHS ${places} NO_DEFAULT_PATH NO_CMAKE_FIND_ROOT_PATH)
  find_path(DDSCHECK_INCLUDE_DIR NAMES ddscheck.h PATHS "${module}/../../../include" "${module}/../include"
    NO_DEFAULT_PATH NO_CMAKE_FIND_ROOT_PATH)
  mark_as_advanced(DDSCHECK_${target}_LIBRARY DDSCHECK_INCLUDE_DIR)
  if(DDSCHECK_${target}_LIBRARY AND DDSCHECK_INCLUDE_DIR AND NOT TARGET ddscheck::${target})
    add_library(ddscheck::${target} STATIC IMPORTED GLOBAL)
    set_target_properties(ddscheck::${target} PROPERTIES IMPORTED_LOCATION "${DDSCHECK_${target}_LIBRARY}"
      INTERFACE_INCLUDE_DIRECTORIES "${DDSCHECK_INCLUDE_DIR}")
  endif()
endfunction()

_ddscheck_add_library(ddscheck libddscheck.a)
_ddscheck_add_library(guard libddscheck-guard.a)
