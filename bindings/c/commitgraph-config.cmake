# The targets commitgraph::commitgraph, the shared library, and commitgraph::static.
get_filename_component(prefix "${CMAKE_CURRENT_LIST_DIR}/../../.." ABSOLUTE)
if(NOT TARGET commitgraph::commitgraph)
  add_library(commitgraph::commitgraph SHARED IMPORTED)
  set_target_properties(commitgraph::commitgraph PROPERTIES
    IMPORTED_LOCATION "${prefix}/lib/libcommitgraph.so.1"
    IMPORTED_SONAME libcommitgraph.so.1
    INTERFACE_INCLUDE_DIRECTORIES "${prefix}/include")
  add_library(commitgraph::static STATIC IMPORTED)
  set_target_properties(commitgraph::static PROPERTIES
    IMPORTED_LOCATION "${prefix}/lib/libcommitgraph.a"
    INTERFACE_INCLUDE_DIRECTORIES "${prefix}/include")
endif()
unset(prefix)
