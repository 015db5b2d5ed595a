# jinnychair::static links the archive, jinnychair::shared the shared library, and jinnychair::jinnychair the one of them that BUILD_SHARED_LIBS asks for.
get_filename_component(_jinnychair "${CMAKE_CURRENT_LIST_DIR}/../../.." ABSOLUTE)
if(NOT TARGET jinnychair::jinnychair)
  add_library(jinnychair::static STATIC IMPORTED)
  set_target_properties(jinnychair::static PROPERTIES
    IMPORTED_LOCATION "${_jinnychair}/lib/libcapi.a"
    IMPORTED_LINK_INTERFACE_LANGUAGES C
    INTERFACE_INCLUDE_DIRECTORIES "${_jinnychair}/include")
  add_library(jinnychair::shared SHARED IMPORTED)
  set_target_properties(jinnychair::shared PROPERTIES
    IMPORTED_LOCATION "${_jinnychair}/lib/libjinnychair.so.@VERSION@"
    IMPORTED_SONAME libjinnychair.so.@VERSION@
    INTERFACE_INCLUDE_DIRECTORIES "${_jinnychair}/include")
  add_library(jinnychair::jinnychair INTERFACE IMPORTED)
  if(BUILD_SHARED_LIBS)
    set_target_properties(jinnychair::jinnychair PROPERTIES INTERFACE_LINK_LIBRARIES jinnychair::shared)
  else()
    set_target_properties(jinnychair::jinnychair PROPERTIES INTERFACE_LINK_LIBRARIES jinnychair::static)
  endif()
endif()
unset(_jinnychair)
