# find_package(bac): the imported library bac::bac.
get_filename_component(BAC_PREFIX_ "${CMAKE_CURRENT_LIST_DIR}/../../.." ABSOLUTE)
if(NOT TARGET bac::bac)
  add_library(bac::bac STATIC IMPORTED)
  set_target_properties(bac::bac PROPERTIES
    IMPORTED_LOCATION "${BAC_PREFIX_}/lib/libbac_c.a"
    INTERFACE_INCLUDE_DIRECTORIES "${BAC_PREFIX_}/include")
endif()
unset(BAC_PREFIX_)
