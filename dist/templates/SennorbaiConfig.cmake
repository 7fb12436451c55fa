# find_package(Sennorbai) gives Sennorbai::osc, the archive, whose bytes the gate compares with what it has proved, and
# Sennorbai::osc_shared, the shared library of the same code, where that was installed.
if(TARGET Sennorbai::osc)
    return()
endif()
get_filename_component(sennorbai_lib "${CMAKE_CURRENT_LIST_DIR}" REALPATH)
get_filename_component(sennorbai_lib "${sennorbai_lib}/../.." ABSOLUTE)
get_filename_component(sennorbai_include "${sennorbai_lib}/../include/sennorbai" ABSOLUTE)
add_library(Sennorbai::osc STATIC IMPORTED)
set_target_properties(Sennorbai::osc PROPERTIES
    IMPORTED_LOCATION "${sennorbai_lib}/libosc.a"
    INTERFACE_INCLUDE_DIRECTORIES "${sennorbai_include}")
if(EXISTS "${sennorbai_lib}/libosc.so.@VERSION@")
    add_library(Sennorbai::osc_shared SHARED IMPORTED)
    set_target_properties(Sennorbai::osc_shared PROPERTIES
        IMPORTED_LOCATION "${sennorbai_lib}/libosc.so.@VERSION@"
        IMPORTED_SONAME "@SONAME@"
        INTERFACE_INCLUDE_DIRECTORIES "${sennorbai_include}")
endif()
unset(sennorbai_lib)
unset(sennorbai_include)
