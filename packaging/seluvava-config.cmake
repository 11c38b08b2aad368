# Seluvava @VERSION@ as two targets: seluvava::seluvava is the shared library, seluvava::static the archive.
if(TARGET seluvava::seluvava)
    return()
endif()
get_filename_component(_seluvava "${CMAKE_CURRENT_LIST_DIR}/../../.." ABSOLUTE)

add_library(seluvava::seluvava SHARED IMPORTED)
set_target_properties(seluvava::seluvava PROPERTIES
    IMPORTED_LOCATION "${_seluvava}/lib/libseluvava.so.@VERSION@"
    IMPORTED_SONAME "libseluvava.so.@INTERFACE@"
    INTERFACE_INCLUDE_DIRECTORIES "${_seluvava}/include")

add_library(seluvava::static STATIC IMPORTED)
set_target_properties(seluvava::static PROPERTIES
    IMPORTED_LOCATION "${_seluvava}/lib/libseluvava.a"
    INTERFACE_INCLUDE_DIRECTORIES "${_seluvava}/include")
unset(_seluvava)
