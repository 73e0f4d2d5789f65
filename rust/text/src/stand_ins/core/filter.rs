//! i_overlay's link filter: a link stays if the rule fills exactly one of its sides. Also fills that make a rule say what a
//! graph's tops and states say.

use crate::core::extract::VisitState;
use crate::core::link::{OverlayLink, OverlayLinkFilter};
use crate::core::overlay_rule::OverlayRule;
use crate::int::number::int::IntNumber;
use crate::segm::segment::{ALL, CLIP_BOTTOM, CLIP_TOP, SUBJ_BOTTOM, SUBJ_TOP, SegmentFill};

impl<I: IntNumber, D> OverlayLinkFilter for [OverlayLink<I, D>] {
    fn filter_by_overlay_into(&self, overlay_rule: OverlayRule, buffer: &mut Vec<VisitState>) {
        buffer.clear();
        buffer.extend(self.iter().map(|link| VisitState::new(is_skipped(overlay_rule, link.fill))));
    }
}

/// Both sides are filled, or neither.
pub(crate) fn is_skipped(rule: OverlayRule, fill: SegmentFill) -> bool {
    let above = fills(rule, fill & SUBJ_TOP != 0, fill & CLIP_TOP != 0);
    let below = fills(rule, fill & SUBJ_BOTTOM != 0, fill & CLIP_BOTTOM != 0);
    above == below
}

/// One of the fills for which the rule fills the sides as asked; `choice` takes turns among them.
pub(crate) fn fill_for(rule: OverlayRule, above: bool, below: bool, choice: usize) -> SegmentFill {
    let fits = |&fill: &SegmentFill| {
        fills(rule, fill & SUBJ_TOP != 0, fill & CLIP_TOP != 0) == above
            && fills(rule, fill & SUBJ_BOTTOM != 0, fill & CLIP_BOTTOM != 0) == below
    };
    let fitting = (0..=ALL).filter(fits);
    fitting.clone().nth(choice % fitting.count()).expect("every rule fills some sides and leaves others")
}

/// Whether the rule fills a side that the subject, the clip, both or neither cover.
fn fills(rule: OverlayRule, subject: bool, clip: bool) -> bool {
    match rule {
        OverlayRule::Subject => subject,
        OverlayRule::Clip => clip,
        OverlayRule::Intersect => subject && clip,
        OverlayRule::Union => subject || clip,
        OverlayRule::Difference => subject && !clip,
        OverlayRule::InverseDifference => clip && !subject,
        OverlayRule::Xor => subject != clip,
    }
}
