# find_package(peghayrick): the imported target peghayrick::peghayrick. Relocatable: the prefix is where this file stands.
get_filename_component(peghayrick_prefix "${CMAKE_CURRENT_LIST_DIR}/../../.." ABSOLUTE)

if(NOT EXISTS "${peghayrick_prefix}/lib/libpeghayrick.a" OR NOT EXISTS "${peghayrick_prefix}/include/peghayrick.h")
    set(peghayrick_FOUND FALSE)
    set(peghayrick_NOT_FOUND_MESSAGE "libpeghayrick.a or peghayrick.h is missing under ${peghayrick_prefix}: install peghayrick again")
    unset(peghayrick_prefix)
    return()
endif()

if(NOT TARGET peghayrick::peghayrick)
    add_library(peghayrick::peghayrick STATIC IMPORTED)
    set_target_properties(peghayrick::peghayrick PROPERTIES
        IMPORTED_LOCATION "${peghayrick_prefix}/lib/libpeghayrick.a"
        INTERFACE_INCLUDE_DIRECTORIES "${peghayrick_prefix}/include")
endif()
unset(peghayrick_prefix)
