# Adds tests of a deployment to CTest:
#
#   ddscheck_add_test(NAME name DEPLOYMENT file [CERTIFICATE file] [DENY errors|notes|all] [ALLOW note ..])
#
# The test name.lint runs `ddscheck lint --deny notes`, or what DENY says, and lets the notes after ALLOW pass. With a
# certificate name.check runs `ddscheck check --explain`. Paths are relative to the CMakeLists.txt that calls this. The
# program is DDSCHECK_PROGRAM, or else the one beside this module or on the PATH.

cmake_policy(VERSION 3.17)

# Sets DDSCHECK_PROGRAM, or ends with what to do. The program runs here also if what's built is for another machine.
function(_ddscheck_find_program)
  set(module "${CMAKE_CURRENT_FUNCTION_LIST_DIR}")
  find_program(DDSCHECK_PROGRAM ddscheck HINTS "${module}/.." "${module}/../../../bin" NO_CMAKE_FIND_ROOT_PATH
    DOC "The program ddscheck, which checks DDS deployments")
  if(NOT DDSCHECK_PROGRAM)
    message(FATAL_ERROR "ddscheck isn't found: put its folder on the PATH, or give -DDDSCHECK_PROGRAM=FILE")
  endif()
endfunction()

function(ddscheck_add_test)
  cmake_parse_arguments(PARSE_ARGV 0 given "" "NAME;DEPLOYMENT;CERTIFICATE;DENY" "ALLOW")
  if(given_UNPARSED_ARGUMENTS)
    message(FATAL_ERROR "ddscheck_add_test doesn't know ${given_UNPARSED_ARGUMENTS}")
  endif()
  # an empty value is a mistake in a variable, and without its certificate a test would pass that shouldn't
  foreach(keyword IN ITEMS NAME DEPLOYMENT CERTIFICATE DENY ALLOW)
    if(keyword IN_LIST ARGN AND "${given_${keyword}}" STREQUAL "")
      message(FATAL_ERROR "ddscheck_add_test needs a value after ${keyword}")
    endif()
  endforeach()
  if(NOT DEFINED given_NAME OR NOT DEFINED given_DEPLOYMENT)
    message(FATAL_ERROR "ddscheck_add_test needs a NAME and a DEPLOYMENT")
  endif()
  if(NOT DEFINED given_DENY)
    set(given_DENY notes)
  endif()
  if(NOT given_DENY MATCHES "^(errors|notes|all)$")
    message(FATAL_ERROR "ddscheck_add_test takes errors, notes or all after DENY, not ${given_DENY}")
  endif()
  if(DEFINED given_ALLOW AND given_DENY STREQUAL "errors")
    message(FATAL_ERROR "ddscheck_add_test takes ALLOW with DENY notes or DENY all")
  endif()
  _ddscheck_find_program()

  get_filename_component(files "${given_DEPLOYMENT}" ABSOLUTE)
  if(DEFINED given_CERTIFICATE)
    get_filename_component(certificate "${given_CERTIFICATE}" ABSOLUTE)
    list(APPEND files "${certificate}")
    add_test(NAME "${given_NAME}.check" COMMAND "${DDSCHECK_PROGRAM}" check --explain ${files})
  endif()
  set(options --deny "${given_DENY}")
  if(DEFINED given_ALLOW)
    string(REPLACE ";" "," notes "${given_ALLOW}")
    list(APPEND options --allow "${notes}")
  endif()
  add_test(NAME "${given_NAME}.lint" COMMAND "${DDSCHECK_PROGRAM}" lint ${options} ${files})
endfunction()
