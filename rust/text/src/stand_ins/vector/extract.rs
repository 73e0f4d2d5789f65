//! i_overlay's extraction of vectors: named by the text, never asked for here.

use super::edge::{DataVectorEdge, VectorShape};
use crate::core::extract::BooleanExtractionBuffer;
use crate::core::graph::OverlayGraph;
use crate::core::integer::OverlayInt;
use crate::core::overlay_rule::OverlayRule;

impl<I: OverlayInt> OverlayGraph<'_, I> {
    pub(crate) fn extract_vector_shapes(
        &self,
        _: OverlayRule,
        _: &mut BooleanExtractionBuffer<I>,
    ) -> Vec<VectorShape<I>> {
        unreachable!("vectors are not asked for");
    }

    pub(crate) fn extract_separate_vectors(&self) -> Vec<DataVectorEdge<I>> {
        unreachable!("vectors are not asked for");
    }
}
