# find_package(jsonptr 0.3) defines jsonptr::jsonptr, the shared library, and jsonptr::static, the static one.
get_filename_component(_jsonptr_prefix "${CMAKE_CURRENT_LIST_DIR}/../../.." ABSOLUTE)
if(NOT TARGET jsonptr::jsonptr)
    add_library(jsonptr::jsonptr SHARED IMPORTED)
    set_target_properties(jsonptr::jsonptr PROPERTIES
        IMPORTED_LOCATION "${_jsonptr_prefix}/lib/@FILE@"
        IMPORTED_SONAME "@SONAME@"
        INTERFACE_INCLUDE_DIRECTORIES "${_jsonptr_prefix}/include")
endif()
if(NOT TARGET jsonptr::static)
    add_library(jsonptr::static STATIC IMPORTED)
    set_target_properties(jsonptr::static PROPERTIES
        IMPORTED_LOCATION "${_jsonptr_prefix}/lib/libjsonptr.a"
        INTERFACE_INCLUDE_DIRECTORIES "${_jsonptr_prefix}/include")
endif()
unset(_jsonptr_prefix)
