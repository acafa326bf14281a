# find_package(string_cache CONFIG) gives string_cache::shared and string_cache::static, and string_cache::string_cache, which is the first.
get_filename_component(_string_cache_prefix "${CMAKE_CURRENT_LIST_DIR}/../../.." ABSOLUTE)

if(NOT TARGET string_cache::shared)
  add_library(string_cache::shared SHARED IMPORTED)
  set_target_properties(string_cache::shared PROPERTIES
    IMPORTED_LOCATION "${_string_cache_prefix}/lib/libstring_cache.so.@VERSION@"
    IMPORTED_SONAME "libstring_cache.so.@MAJOR@"
    INTERFACE_INCLUDE_DIRECTORIES "${_string_cache_prefix}/include")
  add_library(string_cache::static STATIC IMPORTED)
  set_target_properties(string_cache::static PROPERTIES
    IMPORTED_LOCATION "${_string_cache_prefix}/lib/libstring_cache.a"
    INTERFACE_INCLUDE_DIRECTORIES "${_string_cache_prefix}/include")
  add_library(string_cache::string_cache INTERFACE IMPORTED)
  set_target_properties(string_cache::string_cache PROPERTIES INTERFACE_LINK_LIBRARIES string_cache::shared)
endif()
unset(_string_cache_prefix)
