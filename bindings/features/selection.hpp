/// @file selection.hpp Faces and edges by where they lie, exactly.
#pragma once
#include "surroundings.hpp"

namespace gwb_session::selection {

using namespace machining;

/// Whether a query of faces asks for something.
bool is_query(const gwb_face_query &query);
bool is_query(const gwb_edge_query &query);

/// The faces for which all holds that is asked, rising. Refused: NoSolid.
std::vector<Face> faces(const Bench &bench, const gwb_face_query &query);

/// The edges for which all holds that is asked, rising. Refused: NoFace, NoSolid.
std::vector<Edge> edges(const Bench &bench, const gwb_edge_query &query);

} // namespace gwb_session::selection
