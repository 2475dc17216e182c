# The library and the tool for CMake: find_package(lanyardrove) gives the targets lanyardrove::lanyardrove and lanyardrove::tool.
get_filename_component(_lanyardrove_prefix "${CMAKE_CURRENT_LIST_DIR}/../../.." ABSOLUTE)
if(NOT TARGET lanyardrove::lanyardrove)
  add_library(lanyardrove::lanyardrove STATIC IMPORTED)
  set_target_properties(lanyardrove::lanyardrove PROPERTIES
    IMPORTED_LOCATION "${_lanyardrove_prefix}/lib/liblanyardrove.a"
    INTERFACE_INCLUDE_DIRECTORIES "${_lanyardrove_prefix}/include")
  add_executable(lanyardrove::tool IMPORTED)
  set_target_properties(lanyardrove::tool PROPERTIES IMPORTED_LOCATION "${_lanyardrove_prefix}/bin/lanyardrove")
endif()
unset(_lanyardrove_prefix)
