# Which versions find_package(exifnorm VERSION) may ask for: those with the same first number that are not newer.
set(PACKAGE_VERSION "@VERSION@")
string(REGEX MATCH "^[0-9]+" exifnorm_major "${PACKAGE_VERSION}")
if(PACKAGE_FIND_VERSION_MAJOR EQUAL exifnorm_major AND NOT PACKAGE_FIND_VERSION VERSION_GREATER PACKAGE_VERSION)
  set(PACKAGE_VERSION_COMPATIBLE TRUE)
endif()
if(PACKAGE_FIND_VERSION VERSION_EQUAL PACKAGE_VERSION)
  set(PACKAGE_VERSION_EXACT TRUE)
endif()
