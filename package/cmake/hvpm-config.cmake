# find_package(hvpm): the targets hvpm::hvpm, over the shared library, and hvpm::static.
get_filename_component(_hvpm_prefix "${CMAKE_CURRENT_LIST_DIR}/../../.." ABSOLUTE)

if(NOT TARGET hvpm::hvpm)
  add_library(hvpm::hvpm SHARED IMPORTED)
  set_target_properties(hvpm::hvpm PROPERTIES
    IMPORTED_LOCATION "${_hvpm_prefix}/lib/libhvpm.so.@SERIES@"
    IMPORTED_SONAME "libhvpm.so.@SERIES@"
    INTERFACE_INCLUDE_DIRECTORIES "${_hvpm_prefix}/include"
    INTERFACE_COMPILE_DEFINITIONS "HVPM_NO_INLINE")

  add_library(hvpm::static STATIC IMPORTED)
  set_target_properties(hvpm::static PROPERTIES
    IMPORTED_LOCATION "${_hvpm_prefix}/lib/libhvpm.a"
    INTERFACE_INCLUDE_DIRECTORIES "${_hvpm_prefix}/include"
    INTERFACE_COMPILE_DEFINITIONS "HVPM_NO_INLINE")
endif()

unset(_hvpm_prefix)
