# find_package(bekstaudi): the targets bekstaudi::bekstaudi, the shared library, and
# bekstaudi::static. c/build writes the version. The folders are found from where this file is.
get_filename_component(_bekstaudi_prefix "${CMAKE_CURRENT_LIST_DIR}/../../.." ABSOLUTE)

foreach(_bekstaudi_kind IN ITEMS bekstaudi static)
  if(_bekstaudi_kind STREQUAL "static")
    set(_bekstaudi_type STATIC)
    set(_bekstaudi_file "${_bekstaudi_prefix}/lib/libbekstaudi.a")
  else()
    set(_bekstaudi_type SHARED)
    set(_bekstaudi_file "${_bekstaudi_prefix}/lib/libbekstaudi.so.@VERSION@")
  endif()
  if(NOT TARGET bekstaudi::${_bekstaudi_kind})
    add_library(bekstaudi::${_bekstaudi_kind} ${_bekstaudi_type} IMPORTED)
    set_target_properties(bekstaudi::${_bekstaudi_kind} PROPERTIES
      IMPORTED_LOCATION "${_bekstaudi_file}"
      INTERFACE_INCLUDE_DIRECTORIES "${_bekstaudi_prefix}/include")
  endif()
endforeach()

unset(_bekstaudi_kind)
unset(_bekstaudi_type)
unset(_bekstaudi_file)
unset(_bekstaudi_prefix)
