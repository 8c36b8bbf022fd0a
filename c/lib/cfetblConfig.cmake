# cfetblConfig.cmake: find_package(cfetbl) gives two targets: cfetbl::cfetbl is the library, and cfetbl::ut the calls and the handlers for stubs,
# which are compiled in with the headers of the cFE that the test is built with. Stubs that the test wants are linked before cfetbl::cfetbl.
get_filename_component(_cfetbl_prefix "${CMAKE_CURRENT_LIST_DIR}/../../.." ABSOLUTE)
include(CMakeFindDependencyMacro)
find_dependency(Threads)
if(NOT TARGET cfetbl::cfetbl)
    add_library(cfetbl::cfetbl STATIC IMPORTED)
    set_target_properties(cfetbl::cfetbl PROPERTIES
        IMPORTED_LOCATION "${_cfetbl_prefix}/lib/libcfetbl.a"
        INTERFACE_INCLUDE_DIRECTORIES "${_cfetbl_prefix}/include"
        INTERFACE_LINK_LIBRARIES Threads::Threads)
    add_library(cfetbl::ut INTERFACE IMPORTED)
    set_target_properties(cfetbl::ut PROPERTIES
        INTERFACE_SOURCES "${_cfetbl_prefix}/share/cfetbl/cfetbl.c;${_cfetbl_prefix}/share/cfetbl/cfetbl_ut.c"
        INTERFACE_COMPILE_DEFINITIONS CFETBL_WITH_CFE
        INTERFACE_INCLUDE_DIRECTORIES "${_cfetbl_prefix}/include"
        INTERFACE_LINK_LIBRARIES cfetbl::cfetbl)
endif()
unset(_cfetbl_prefix)
