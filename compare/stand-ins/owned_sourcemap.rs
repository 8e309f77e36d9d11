//! Stand-in. The published file is not at hand; no compared function needs it.
use crate::SourceMap;

#[derive(Debug, Clone, Default)]
pub struct OwnedSourceMap(pub SourceMap<'static>);

impl SourceMap<'_> {
    pub fn into_owned_sourcemap(self) -> OwnedSourceMap {
        OwnedSourceMap(self.into_owned())
    }
}
