# find_package(exifnorm) defines the target exifnorm::exifnorm, the shared library and its headers.
if(NOT TARGET exifnorm::exifnorm)
  add_library(exifnorm::exifnorm SHARED IMPORTED)
  get_filename_component(exifnorm_headers "${CMAKE_CURRENT_LIST_DIR}/@INCLUDE@" ABSOLUTE)
  get_filename_component(exifnorm_library "${CMAKE_CURRENT_LIST_DIR}/../../libexifnorm.so.1" ABSOLUTE)
  set_target_properties(exifnorm::exifnorm PROPERTIES
    IMPORTED_LOCATION "${exifnorm_library}" INTERFACE_INCLUDE_DIRECTORIES "${exifnorm_headers}")
endif()
