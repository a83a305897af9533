# What find_package(ddscheck) reads: the tests, and where they're installed or built beside this, the libraries.
include("${CMAKE_CURRENT_LIST_DIR}/DdscheckAddTest.cmake")
include("${CMAKE_CURRENT_LIST_DIR}/DdscheckLibraries.cmake" OPTIONAL)
