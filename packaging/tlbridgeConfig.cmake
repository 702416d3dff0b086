# tlbridge::tlbridge is the shared library, tlbridge::static the archive, and tlbridge_SV_DIR has the SystemVerilog sources. The library
# has the pairs of widths @PAIRS@.
get_filename_component(tlbridge_PREFIX "${CMAKE_CURRENT_LIST_DIR}/../../.." ABSOLUTE)
set(tlbridge_SV_DIR "${tlbridge_PREFIX}/share/tlbridge/sv")

if(NOT TARGET tlbridge::tlbridge)
    add_library(tlbridge::tlbridge SHARED IMPORTED)
    set_target_properties(tlbridge::tlbridge PROPERTIES
        IMPORTED_LOCATION "${tlbridge_PREFIX}/lib/libtlbridge.so.@INTERFACE@"
        IMPORTED_SONAME "libtlbridge.so.@INTERFACE@"
        INTERFACE_INCLUDE_DIRECTORIES "${tlbridge_PREFIX}/include")
    add_library(tlbridge::static STATIC IMPORTED)
    set_target_properties(tlbridge::static PROPERTIES
        IMPORTED_LOCATION "${tlbridge_PREFIX}/lib/libtlbridge.a"
        INTERFACE_INCLUDE_DIRECTORIES "${tlbridge_PREFIX}/include")
endif()
