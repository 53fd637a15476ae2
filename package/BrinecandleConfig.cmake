# find_package(Brinecandle VERSION REQUIRED)
# target_link_libraries(firmware PRIVATE Brinecandle::brinecandle)
get_filename_component(Brinecandle_ROOT_DIR "${CMAKE_CURRENT_LIST_DIR}/../../.." ABSOLUTE)
if(NOT TARGET Brinecandle::brinecandle)
  add_library(Brinecandle::brinecandle STATIC IMPORTED)
  set_target_properties(Brinecandle::brinecandle PROPERTIES
    IMPORTED_LOCATION "${Brinecandle_ROOT_DIR}/lib/libbrinecandle.a"
    INTERFACE_INCLUDE_DIRECTORIES "${Brinecandle_ROOT_DIR}/include")
endif()
