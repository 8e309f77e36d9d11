//! Stand-in. The published file is not at hand; no compared function needs it.
pub struct SourcemapVisualizer;
