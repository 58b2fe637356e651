# find_package(tftp 0.1 REQUIRED), then target_link_libraries(program tftp::tftp), or tftp::archive for a program that takes
# the library into itself. What is installed may be moved as a whole: all is found from where this file is.
get_filename_component(tftp_libdir "${CMAKE_CURRENT_LIST_DIR}/../.." ABSOLUTE)
set(tftp_prefix "${tftp_libdir}")
while(NOT EXISTS "${tftp_prefix}/include/tftp.h")
  get_filename_component(tftp_above "${tftp_prefix}" DIRECTORY)
  if(tftp_above STREQUAL tftp_prefix)
    set(tftp_FOUND FALSE)
    set(tftp_NOT_FOUND_MESSAGE "there is no include/tftp.h above ${tftp_libdir}")
    return()
  endif()
  set(tftp_prefix "${tftp_above}")
endwhile()
if(EXISTS "${tftp_libdir}/libtftp.so.1" AND NOT TARGET tftp::tftp)
  add_library(tftp::tftp SHARED IMPORTED)
  set_target_properties(tftp::tftp PROPERTIES IMPORTED_LOCATION "${tftp_libdir}/libtftp.so.1"
    IMPORTED_SONAME libtftp.so.1 INTERFACE_INCLUDE_DIRECTORIES "${tftp_prefix}/include")
endif()
if(NOT TARGET tftp::archive)
  add_library(tftp::archive STATIC IMPORTED)
  set_target_properties(tftp::archive PROPERTIES IMPORTED_LOCATION "${tftp_libdir}/libtftp.a"
    INTERFACE_INCLUDE_DIRECTORIES "${tftp_prefix}/include")
endif()
