# The C library for CMake: find_package(gix_glob) and target_link_libraries(PROGRAM gix_glob::gix_glob), which is the shared library where
# BUILD_SHARED_LIBS is on, and else the static one; gix_glob::static and gix_glob::shared are each.
get_filename_component(_gix_glob_libdir "${CMAKE_CURRENT_LIST_DIR}/../.." ABSOLUTE)
get_filename_component(_gix_glob_includedir "${_gix_glob_libdir}/../include" ABSOLUTE)

if(NOT TARGET gix_glob::static)
  add_library(gix_glob::static STATIC IMPORTED)
  set_target_properties(gix_glob::static PROPERTIES
    IMPORTED_LOCATION "${_gix_glob_libdir}/libgix_glob_c.a"
    INTERFACE_INCLUDE_DIRECTORIES "${_gix_glob_includedir}")

  add_library(gix_glob::shared SHARED IMPORTED)
  set_target_properties(gix_glob::shared PROPERTIES
    IMPORTED_LOCATION "${_gix_glob_libdir}/@SONAME@"
    IMPORTED_SONAME "@SONAME@"
    INTERFACE_INCLUDE_DIRECTORIES "${_gix_glob_includedir}")

  add_library(gix_glob::gix_glob INTERFACE IMPORTED)
  if(BUILD_SHARED_LIBS)
    set_property(TARGET gix_glob::gix_glob PROPERTY INTERFACE_LINK_LIBRARIES gix_glob::shared)
  else()
    set_property(TARGET gix_glob::gix_glob PROPERTY INTERFACE_LINK_LIBRARIES gix_glob::static)
  endif()
endif()

foreach(_gix_glob_file libgix_glob_c.a @SONAME@)
  if(NOT EXISTS "${_gix_glob_libdir}/${_gix_glob_file}")
    set(gix_glob_FOUND FALSE)
    set(gix_glob_NOT_FOUND_MESSAGE "there is no ${_gix_glob_libdir}/${_gix_glob_file}")
  endif()
endforeach()
unset(_gix_glob_file)
unset(_gix_glob_libdir)
unset(_gix_glob_includedir)
