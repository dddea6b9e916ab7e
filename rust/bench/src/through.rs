//! Times calls from a picture to a picture: makes one state and one row of the table for each.

use crate::time::{row, Pair, Row};
use imgproc::Refusal;
use qr_lab_image::{Gray8View, Gray8ViewMut};
use qr_lab_imgproc::ImgProcResult;

pub struct Lent<W, T> {
    pub pair: Pair,
    /// Our workspace, of the needed length.
    pub workspace: Vec<W>,
    /// The Rust's workspace.
    pub theirs: T,
}

/// Times our call and the Rust's on one pair of pictures. Each keeps its own workspace from call to call.
pub fn pictures<W: Default + Clone, T: Default>(
    name: String, room: impl Fn(usize, usize) -> usize, ours: impl Fn(&mut Pair, &mut [W]) -> Result<(), Refusal>,
    rust: impl Fn(Gray8View<'_>, Gray8ViewMut<'_>, &mut T) -> ImgProcResult<()>,
) -> Row {
    row(
        name,
        |w, h| Lent { pair: Pair::new(w, h), workspace: vec![W::default(); room(w, h)], theirs: T::default() },
        |lent| ours(&mut lent.pair, &mut lent.workspace).expect("accepted"),
        |lent| {
            let Pair { src, dst, g } = &mut lent.pair;
            let src = Gray8View::new(src, g.width, g.height, g.stride).expect("a good layout");
            let dst = Gray8ViewMut::new(dst, g.width, g.height, g.stride).expect("a good layout");
            rust(src, dst, &mut lent.theirs).expect("accepted");
        },
        |lent| &lent.pair.dst,
    )
}
