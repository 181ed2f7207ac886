# The targets of libtpmsim: tpmsim::tpmsim, the shared library; tpmsim::static, the same as an archive; and
# tpmsim::kept, devices in folders. tools/install.sh replaces @INCLUDES@ with the headers' folder relative to this file.
if(TARGET tpmsim::tpmsim)
  return()
endif()
get_filename_component(_tpmsim_libraries "${CMAKE_CURRENT_LIST_DIR}/../.." ABSOLUTE)
get_filename_component(_tpmsim_headers "${CMAKE_CURRENT_LIST_DIR}/@INCLUDES@" ABSOLUTE)
add_library(tpmsim::tpmsim SHARED IMPORTED)
set_target_properties(tpmsim::tpmsim PROPERTIES
  IMPORTED_LOCATION "${_tpmsim_libraries}/libtpmsim.so.0"
  IMPORTED_SONAME libtpmsim.so.0
  INTERFACE_INCLUDE_DIRECTORIES "${_tpmsim_headers}")
add_library(tpmsim::static STATIC IMPORTED)
set_target_properties(tpmsim::static PROPERTIES
  IMPORTED_LOCATION "${_tpmsim_libraries}/libtpmsim.a"
  INTERFACE_INCLUDE_DIRECTORIES "${_tpmsim_headers}")
add_library(tpmsim::kept SHARED IMPORTED)
set_target_properties(tpmsim::kept PROPERTIES
  IMPORTED_LOCATION "${_tpmsim_libraries}/libtpmsim-kept.so.0"
  IMPORTED_SONAME libtpmsim-kept.so.0
  INTERFACE_LINK_LIBRARIES tpmsim::tpmsim
  INTERFACE_INCLUDE_DIRECTORIES "${_tpmsim_headers}")
