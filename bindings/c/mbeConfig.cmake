# Defines the targets mbe::mbe, the shared library, and mbe::static, the static library.
get_filename_component(_mbe_lib "${CMAKE_CURRENT_LIST_DIR}/../.." ABSOLUTE)
get_filename_component(_mbe_include "${_mbe_lib}/../include" ABSOLUTE)
if(NOT EXISTS "${_mbe_include}/mbe.h")
  # Debian keeps libraries one folder deeper: lib/x86_64-linux-gnu.
  get_filename_component(_mbe_include "${_mbe_lib}/../../include" ABSOLUTE)
endif()
if(NOT TARGET mbe::mbe)
  add_library(mbe::mbe SHARED IMPORTED)
  set_target_properties(mbe::mbe PROPERTIES
    IMPORTED_LOCATION "${_mbe_lib}/libmbe.so.1"
    IMPORTED_SONAME "libmbe.so.1"
    INTERFACE_INCLUDE_DIRECTORIES "${_mbe_include}")
  add_library(mbe::static STATIC IMPORTED)
  set_target_properties(mbe::static PROPERTIES
    IMPORTED_LOCATION "${_mbe_lib}/libmbe.a"
    INTERFACE_LINK_LIBRARIES m
    INTERFACE_INCLUDE_DIRECTORIES "${_mbe_include}")
endif()
unset(_mbe_lib)
unset(_mbe_include)
