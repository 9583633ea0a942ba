# find_package(rtcp) gives the targets rtcp::rtcp (the archive) and rtcp::shared.
get_filename_component(rtcp_prefix "${CMAKE_CURRENT_LIST_DIR}/../../.." ABSOLUTE)
foreach(kind STATIC SHARED)
  if(kind STREQUAL STATIC)
    set(rtcp_target rtcp::rtcp)
    set(rtcp_file librtcp.a)
  else()
    set(rtcp_target rtcp::shared)
    set(rtcp_file librtcp.so.0)
  endif()
  if(NOT TARGET ${rtcp_target})
    add_library(${rtcp_target} ${kind} IMPORTED)
    set_target_properties(${rtcp_target} PROPERTIES
      IMPORTED_LOCATION "${rtcp_prefix}/lib/${rtcp_file}"
      INTERFACE_INCLUDE_DIRECTORIES "${rtcp_prefix}/include")
  endif()
endforeach()
