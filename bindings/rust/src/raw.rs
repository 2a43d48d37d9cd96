//! The library's own calls, as `include/gaxwethi.h` has them. Slices pass as a
//! pointer, which is never null, and a length in elements.

/// The size of the text that [`gaxwethi_list`] is lent.
pub const TEXT: usize = 131_072;

#[repr(C)]
#[derive(Clone, Copy, Debug, PartialEq, Eq)]
pub struct Density {
    pub number: u16,
    pub density: usize,
}

#[repr(C)]
#[derive(Clone, Copy, Debug, PartialEq, Eq)]
pub struct Need {
    pub number: u16,
    pub length: usize,
}

#[repr(C)]
#[derive(Clone, Copy, Debug, PartialEq, Eq)]
pub struct Routed {
    pub number: u16,
    pub density: usize,
    pub tracks: usize,
    pub width: usize,
}

#[repr(C)]
#[derive(Clone, Copy, Debug, PartialEq, Eq)]
pub struct Checked {
    pub number: u16,
    pub place: usize,
    pub column: usize,
    pub row: usize,
}

#[repr(C)]
#[derive(Clone, Copy, Debug, PartialEq, Eq)]
pub struct Part {
    pub offset: usize,
    pub length: usize,
}

#[repr(C)]
#[derive(Clone, Copy, Debug, PartialEq, Eq)]
pub struct Listed {
    pub number: u16,
    pub length: usize,
}

#[repr(C)]
#[derive(Clone, Copy, Debug, PartialEq, Eq)]
pub struct Canonical {
    pub number: u16,
    pub length: usize,
}

#[repr(C)]
#[derive(Clone, Copy, Debug, PartialEq, Eq)]
pub struct Widest {
    pub number: u16,
    pub added: usize,
}

#[repr(C)]
#[derive(Clone, Copy, Debug, PartialEq, Eq)]
pub struct Started {
    pub number: u16,
    pub tracks: usize,
    pub length: usize,
}

#[repr(C)]
#[derive(Clone, Copy, Debug, PartialEq, Eq)]
pub struct Stepped {
    pub number: u16,
    pub drawn: usize,
    pub finished: bool,
}

/// The state of a driven sweep, `gaxwethi_sweep` of the header. Every state may be
/// lent: what is promised holds for one that the call before left, but each call
/// ends on any.
#[repr(C)]
#[derive(Clone, Debug, PartialEq, Eq)]
pub struct State {
    pub columns: usize,
    pub tracks: usize,
    pub drawn: usize,
    pub top: [u16; 256],
    pub bottom: [u16; 256],
    pub first: [u16; 257],
    pub last: [u16; 257],
    pub strands: [u16; 512],
    pub free: [u64; 8],
    pub low: [u16; 257],
    pub high: [u16; 257],
    pub many: [u16; 257],
    pub extended: [u64; 8],
}

impl Default for State {
    /// Zeros, as for the channel without columns.
    fn default() -> State {
        State::filled(0, 0, 0)
    }
}

impl State {
    /// A made-up state: its three sizes, the numbers of its nets and tracks, and the
    /// words of its sets.
    pub fn filled(size: usize, number: u16, word: u64) -> State {
        State {
            columns: size,
            tracks: size,
            drawn: size,
            top: [number; 256],
            bottom: [number; 256],
            first: [number; 257],
            last: [number; 257],
            strands: [number; 512],
            free: [word; 8],
            low: [number; 257],
            high: [number; 257],
            many: [number; 257],
            extended: [word; 8],
        }
    }

    /// `gaxwethi_start` of the header.
    pub fn start(&mut self, top: &[u16], bottom: &[u16]) -> Started {
        // SAFETY: pointers and lengths are those of live slices, and the members have
        // the sizes that the library expects. So it is below too.
        unsafe {
            gaxwethi_sweep_start(
                top.as_ptr(),
                top.len(),
                bottom.as_ptr(),
                bottom.len(),
                &mut self.columns,
                &mut self.tracks,
                &mut self.drawn,
                self.top.as_mut_ptr(),
                self.bottom.as_mut_ptr(),
                self.first.as_mut_ptr(),
                self.last.as_mut_ptr(),
                self.strands.as_mut_ptr(),
                self.free.as_mut_ptr(),
                self.low.as_mut_ptr(),
                self.high.as_mut_ptr(),
                self.many.as_mut_ptr(),
                self.extended.as_mut_ptr(),
            )
        }
    }

    /// `gaxwethi_step` of the header.
    pub fn step(&mut self, layout: &mut [u16], k: usize) -> Stepped {
        unsafe {
            gaxwethi_sweep_step(
                self.columns,
                self.tracks,
                &mut self.drawn,
                self.top.as_ptr(),
                self.bottom.as_ptr(),
                self.first.as_ptr(),
                self.last.as_ptr(),
                self.strands.as_mut_ptr(),
                self.free.as_mut_ptr(),
                self.low.as_mut_ptr(),
                self.high.as_mut_ptr(),
                self.many.as_mut_ptr(),
                self.extended.as_mut_ptr(),
                layout.as_mut_ptr(),
                layout.len(),
                k,
            )
        }
    }

    /// `gaxwethi_place` of the header.
    pub fn place(
        &mut self,
        net: u16,
        column1: usize,
        side1: u16,
        column2: usize,
        side2: u16,
    ) -> u16 {
        unsafe {
            gaxwethi_sweep_place(
                self.columns,
                self.tracks,
                self.drawn,
                self.top.as_mut_ptr(),
                self.bottom.as_mut_ptr(),
                self.first.as_mut_ptr(),
                self.last.as_mut_ptr(),
                net,
                column1,
                side1,
                column2,
                side2,
            )
        }
    }
}

/// A board, `gaxwethi_board` of the header. Every board may be lent: what is promised
/// holds for one that the call before left, but each call ends on any, and a refused
/// change leaves any.
#[repr(C)]
#[derive(Clone, Debug, PartialEq, Eq)]
pub struct Board {
    pub columns: usize,
    pub top: [u16; 256],
    pub bottom: [u16; 256],
    pub counts: [u16; 256],
}

impl Default for Board {
    /// Zeros, as for the channel without columns.
    fn default() -> Board {
        Board::filled(0, 0, 0)
    }
}

impl Board {
    /// A made-up board: its columns, the number at all terminals, the count at all gaps.
    pub fn filled(columns: usize, number: u16, count: u16) -> Board {
        Board { columns, top: [number; 256], bottom: [number; 256], counts: [count; 256] }
    }

    /// `gaxwethi_new_board` of the header.
    pub fn start(&mut self, n: usize) -> u16 {
        let [top, bottom, counts] =
            [&mut self.top, &mut self.bottom, &mut self.counts].map(|row| row.as_mut_ptr());
        // SAFETY: the members have the sizes that the library expects. So it is below too.
        unsafe { gaxwethi_board_start(n, &mut self.columns, top, bottom, counts) }
    }

    /// `gaxwethi_add_net` of the header.
    pub fn add(&mut self, net: u16, column1: usize, side1: u16, column2: usize, side2: u16) -> u16 {
        unsafe {
            gaxwethi_board_add(
                self.columns,
                self.top.as_mut_ptr(),
                self.bottom.as_mut_ptr(),
                self.counts.as_mut_ptr(),
                net,
                column1,
                side1,
                column2,
                side2,
            )
        }
    }

    /// `gaxwethi_drop_net` of the header.
    pub fn drop(&mut self, net: u16) -> u16 {
        unsafe {
            gaxwethi_board_drop(
                self.columns,
                self.top.as_mut_ptr(),
                self.bottom.as_mut_ptr(),
                self.counts.as_mut_ptr(),
                net,
            )
        }
    }

    /// `gaxwethi_density_of_board` of the header.
    pub fn density(&self) -> u16 {
        unsafe { gaxwethi_board_density(self.columns, self.counts.as_ptr()) }
    }

    /// `gaxwethi_count_at_gap` of the header.
    pub fn count(&self, gap: usize) -> u16 {
        unsafe { gaxwethi_board_count(self.columns, self.counts.as_ptr(), gap) }
    }
}

extern "C" {
    pub fn gaxwethi_density(top: *const u16, n: usize, bottom: *const u16, m: usize) -> Density;

    pub fn gaxwethi_need(top: *const u16, n: usize, bottom: *const u16, m: usize) -> Need;

    pub fn gaxwethi_route(
        top: *const u16,
        n: usize,
        bottom: *const u16,
        m: usize,
        layout: *mut u16,
        len: usize,
    ) -> Routed;

    pub fn gaxwethi_check(
        top: *const u16,
        n: usize,
        bottom: *const u16,
        m: usize,
        w: usize,
        t: usize,
        layout: *const u16,
        len: usize,
    ) -> Checked;

    pub fn gaxwethi_report(
        top: *const u16,
        n: usize,
        bottom: *const u16,
        m: usize,
        figures: *mut u32,
        len: usize,
    ) -> u16;

    pub fn gaxwethi_report_drawing(
        top: *const u16,
        n: usize,
        bottom: *const u16,
        m: usize,
        w: usize,
        t: usize,
        layout: *const u16,
        len: usize,
        figures: *mut u32,
        count: usize,
    ) -> Checked;

    pub fn gaxwethi_column(len: usize, w: usize, t: usize, c: usize) -> Part;

    pub fn gaxwethi_list(record: *const u8, len: usize, text: *mut u8) -> Listed;

    pub fn gaxwethi_canonical(
        top: *const u16,
        n: usize,
        bottom: *const u16,
        m: usize,
        bytes: *mut u8,
        len: usize,
    ) -> Canonical;

    pub fn gaxwethi_sweep_start(
        top: *const u16,
        n: usize,
        bottom: *const u16,
        m: usize,
        columns: *mut usize,
        tracks: *mut usize,
        drawn: *mut usize,
        upper: *mut u16,
        lower: *mut u16,
        first: *mut u16,
        last: *mut u16,
        strands: *mut u16,
        free: *mut u64,
        low: *mut u16,
        high: *mut u16,
        many: *mut u16,
        extended: *mut u64,
    ) -> Started;

    pub fn gaxwethi_sweep_step(
        columns: usize,
        tracks: usize,
        drawn: *mut usize,
        upper: *const u16,
        lower: *const u16,
        first: *const u16,
        last: *const u16,
        strands: *mut u16,
        free: *mut u64,
        low: *mut u16,
        high: *mut u16,
        many: *mut u16,
        extended: *mut u64,
        layout: *mut u16,
        len: usize,
        k: usize,
    ) -> Stepped;

    pub fn gaxwethi_sweep_place(
        columns: usize,
        tracks: usize,
        drawn: usize,
        upper: *mut u16,
        lower: *mut u16,
        first: *mut u16,
        last: *mut u16,
        net: u16,
        column1: usize,
        side1: u16,
        column2: usize,
        side2: u16,
    ) -> u16;

    pub fn gaxwethi_board_start(
        n: usize,
        columns: *mut usize,
        top: *mut u16,
        bottom: *mut u16,
        counts: *mut u16,
    ) -> u16;

    pub fn gaxwethi_board_add(
        columns: usize,
        top: *mut u16,
        bottom: *mut u16,
        counts: *mut u16,
        net: u16,
        column1: usize,
        side1: u16,
        column2: usize,
        side2: u16,
    ) -> u16;

    pub fn gaxwethi_board_drop(
        columns: usize,
        top: *mut u16,
        bottom: *mut u16,
        counts: *mut u16,
        net: u16,
    ) -> u16;

    pub fn gaxwethi_board_density(columns: usize, counts: *const u16) -> u16;

    pub fn gaxwethi_board_count(columns: usize, counts: *const u16, gap: usize) -> u16;

    pub fn gaxwethi_widest(top: *mut u16, n: usize, bottom: *mut u16, m: usize) -> Widest;
}
