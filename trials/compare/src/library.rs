//! The library's calls on slices, with every figure that they hand back.

use gaxwethi::raw::*;

pub fn density(top: &[u16], bottom: &[u16]) -> Density {
    // SAFETY: pointers and lengths are those of live slices; so it is below.
    unsafe { gaxwethi_density(top.as_ptr(), top.len(), bottom.as_ptr(), bottom.len()) }
}

pub fn need(top: &[u16], bottom: &[u16]) -> Need {
    unsafe { gaxwethi_need(top.as_ptr(), top.len(), bottom.as_ptr(), bottom.len()) }
}

pub fn route(top: &[u16], bottom: &[u16], layout: &mut [u16]) -> Routed {
    let (n, m, len) = (top.len(), bottom.len(), layout.len());
    unsafe { gaxwethi_route(top.as_ptr(), n, bottom.as_ptr(), m, layout.as_mut_ptr(), len) }
}

pub fn check(top: &[u16], bottom: &[u16], w: usize, t: usize, layout: &[u16]) -> Checked {
    let (n, m, len) = (top.len(), bottom.len(), layout.len());
    unsafe { gaxwethi_check(top.as_ptr(), n, bottom.as_ptr(), m, w, t, layout.as_ptr(), len) }
}

pub fn report(top: &[u16], bottom: &[u16], figures: &mut [u32]) -> u16 {
    let (n, m, len) = (top.len(), bottom.len(), figures.len());
    unsafe { gaxwethi_report(top.as_ptr(), n, bottom.as_ptr(), m, figures.as_mut_ptr(), len) }
}

pub fn report_drawing(
    top: &[u16],
    bottom: &[u16],
    w: usize,
    t: usize,
    layout: &[u16],
    figures: &mut [u32],
) -> Checked {
    let (n, m, len, count) = (top.len(), bottom.len(), layout.len(), figures.len());
    let (top, bottom, layout) = (top.as_ptr(), bottom.as_ptr(), layout.as_ptr());
    let figures = figures.as_mut_ptr();
    unsafe { gaxwethi_report_drawing(top, n, bottom, m, w, t, layout, len, figures, count) }
}

pub fn column(len: usize, w: usize, t: usize, c: usize) -> Part {
    unsafe { gaxwethi_column(len, w, t, c) }
}

pub fn list(record: &[u8], text: &mut [u8; TEXT]) -> Listed {
    unsafe { gaxwethi_list(record.as_ptr(), record.len(), text.as_mut_ptr()) }
}

pub fn canonical(top: &[u16], bottom: &[u16], bytes: &mut [u8]) -> Canonical {
    let (n, m, len) = (top.len(), bottom.len(), bytes.len());
    unsafe { gaxwethi_canonical(top.as_ptr(), n, bottom.as_ptr(), m, bytes.as_mut_ptr(), len) }
}

pub fn widest(top: &mut [u16], bottom: &mut [u16]) -> Widest {
    let (n, m) = (top.len(), bottom.len());
    unsafe { gaxwethi_widest(top.as_mut_ptr(), n, bottom.as_mut_ptr(), m) }
}
