//! The paper's channels A to K through the safe calls.

use gaxwethi::*;

/// Density, tracks and width of a channel whose drawing passes the checker.
fn routed(top: &[u16], bottom: &[u16]) -> Result<(usize, usize, usize), Refusal> {
    let mut layout = vec![9; need(top, bottom)?];
    let drawn = route(top, bottom, &mut layout)?;
    assert_eq!(density(top, bottom), Ok(drawn.density));
    assert_eq!(layout.len(), drawn.entries());
    assert_eq!(check(top, bottom, drawn.width, drawn.tracks, &layout), Ok(()));
    Ok((drawn.density, drawn.tracks, drawn.width))
}

#[test]
fn channels_to_try() {
    assert_eq!(routed(&[], &[]), Ok((0, 0, 0)));
    assert_eq!(routed(&[5], &[5]), Ok((0, 0, 1)));
    assert_eq!(routed(&[1, 1], &[0, 0]), Ok((1, 1, 2)));
    assert_eq!(routed(&[1, 2], &[2, 1]), Ok((2, 2, 3)));
    assert_eq!(routed(&[1, 1, 0], &[0, 2, 2]), Ok((1, 1, 3)));
    assert_eq!(routed(&[1, 1, 1], &[0, 0, 0]), Ok((1, 1, 3)));
    assert_eq!(routed(&[1, 1, 1], &[2, 2, 2]), Ok((2, 3, 3)));
    assert_eq!(routed(&[1, 2, 1], &[2, 1, 2]), Ok((2, 3, 4)));
    assert_eq!(routed(&[1], &[0]), Err(Refusal::SinglePin));
    assert_eq!(routed(&[257, 257], &[0, 0]), Err(Refusal::NetNumber));
    assert_eq!(routed(&[256, 256], &[0, 0]), Ok((1, 1, 2)));
}

#[test]
fn empty_columns() {
    // A net is joined where there is no pin, in channels of each sweep: the first is
    // one column wider than if it ran straight, the others one narrower.
    assert_eq!(routed(&[3, 1, 2, 0, 4, 4], &[2, 0, 1, 0, 0, 3]), Ok((3, 3, 7)));
    assert_eq!(routed(&[2, 4, 0], &[4, 2, 0]), Ok((2, 2, 3)));
    assert_eq!(routed(&[4, 4, 5, 0], &[5, 0, 4, 0]), Ok((2, 3, 4)));
    assert_eq!(routed(&[1, 2, 1, 0], &[0, 2, 2, 0]), Ok((2, 3, 4)));
}

#[test]
fn slice_of_case_d() {
    let mut short = [9; 14];
    assert_eq!(route(&[1, 2], &[2, 1], &mut short), Err(Refusal::LayoutTooShort));
    assert_eq!(short, [9; 14]);
    assert!(route(&[1, 2], &[2, 1], &mut [9; 15]).is_ok());
}

#[test]
fn slice_without_added_columns() {
    // On 2 tracks in 2 columns, where document 01's formula has 15 entries.
    let (top, bottom) = ([1, 1], [2, 2]);
    assert_eq!(need(&top, &bottom), Ok(10));
    let mut short = [9; 9];
    assert_eq!(route(&top, &bottom, &mut short), Err(Refusal::LayoutTooShort));
    assert_eq!(short, [9; 9]);
    let drawing = [2, 0, 1, 2, 1, 2, 0, 1, 0, 0];
    for length in 10..=16 {
        let mut layout = vec![9; length];
        let figures = Figures { density: 2, tracks: 2, width: 2 };
        assert_eq!(route(&top, &bottom, &mut layout), Ok(figures));
        assert_eq!(layout[..10], drawing);
        assert!(layout[10..].iter().all(|&entry| entry == 9));
    }
}

#[test]
fn faults_have_a_place() {
    let fault = |refusal, place| Err(Fault { refusal, place, column: 0, row: 0 });
    assert_eq!(check(&[5], &[5], 1, 0, &[5]), Ok(()));
    assert_eq!(check(&[5], &[5], 0, 0, &[]), fault(Refusal::Width, 0));
    assert_eq!(check(&[5], &[5], 1, 1, &[5, 5, 4]), fault(Refusal::Entry, 2));
    assert_eq!(check(&[5], &[5], 1, 1, &[5, 5, 5]), fault(Refusal::LastColumn, 2));
    let pieces = check(&[1, 1], &[0, 0], 2, 1, &[0, 1, 0, 0, 1, 0]);
    assert_eq!(pieces, fault(Refusal::Pieces, 1));
    let words = "refused 16: a net in more than one piece, net 1";
    assert_eq!(pieces.unwrap_err().to_string(), words);
}

/// The number and the place of a fault.
fn refused(top: &[u16], bottom: &[u16], w: usize, t: usize, layout: &[u16]) -> (u16, usize) {
    let fault = check(top, bottom, w, t, layout).unwrap_err();
    (fault.refusal.number(), fault.place)
}

#[test]
fn three_faults_of_a_pin_edge() {
    // Two nets and a column without pins, in four columns: the last is past column n.
    let row = [1, 2, 0];
    let drawing = [1, 1, 0, 2, 2, 0, 0, 0, 0, 0, 0, 0];
    assert_eq!(check(&row, &row, 4, 1, &drawing), Ok(()));
    let with = |changes: &[(usize, u16)]| {
        let mut layout = drawing;
        changes.iter().for_each(|&(place, entry)| layout[place] = entry);
        refused(&row, &row, 4, 1, &layout)
    };
    for place in [0, 1, 3, 4] {
        assert_eq!(with(&[(place, 0)]), (14, place));
        assert_eq!(with(&[(place, 3 - drawing[place])]), (19, place));
    }
    for place in [6, 7, 9, 10] {
        assert_eq!(with(&[(place, 1)]), (20, place));
    }
    // The lowest faulty position chooses the number.
    assert_eq!(with(&[(1, 2), (3, 0), (6, 1)]), (19, 1));
    assert_eq!(with(&[(3, 0), (4, 1), (9, 1)]), (14, 3));
    assert_eq!(with(&[(7, 2), (9, 1), (8, 1)]), (20, 7));
}

#[test]
fn bottom_pin_first_without_tracks() {
    // A column's top pin, bottom pin and edge, before columns that are right.
    let column = |top: u16, bottom: u16, edge: u16| {
        let row = |pin: u16| [pin, 1, 2];
        refused(&row(top), &row(bottom), 3, 0, &row(edge))
    };
    // The edge is not the bottom pin.
    assert_eq!(column(0, 1, 0), (14, 0));
    assert_eq!(column(1, 2, 0), (14, 0));
    assert_eq!(column(0, 1, 2), (19, 0));
    assert_eq!(column(1, 2, 1), (19, 0));
    assert_eq!(column(1, 0, 2), (20, 0));
    assert_eq!(column(1, 0, 1), (20, 0));
    // It is, and is not the top pin.
    assert_eq!(column(1, 0, 0), (14, 0));
    assert_eq!(column(1, 2, 2), (19, 0));
    assert_eq!(column(0, 2, 2), (20, 0));
    // Past column n.
    assert_eq!(refused(&[1, 2], &[1, 2], 4, 0, &[1, 2, 0, 1]), (20, 3));
}

#[test]
fn faults_in_words() {
    let words = |row: &[u16], layout: &[u16]| {
        let w = layout.len();
        check(row, row, w, 0, layout).unwrap_err().to_string()
    };
    assert_eq!(words(&[1, 2], &[1, 0]), "refused 14: a pin without a wire, entry 1");
    assert_eq!(words(&[1, 2], &[1, 1]), "refused 19: a pin with another net's wire, entry 1");
    assert_eq!(words(&[1], &[1, 1]), "refused 20: a wire at a terminal without a pin, entry 1");
}

#[test]
fn loose_ends_have_a_column_and_a_row() {
    // Net 1 on track 2, with a stub from track 2 to track 1 in column 2.
    let stub = [0, 0, 1, 0, 1, 0, 1, 1, 0, 0];
    let loose = check(&[1, 1], &[0, 0], 2, 2, &stub);
    assert_eq!(loose, Err(Fault { refusal: Refusal::LooseEnd, place: 1, column: 2, row: 1 }));
    let words = "refused 17: a loose end, net 1 at column 2, row 1";
    assert_eq!(loose.unwrap_err().to_string(), words);
    // A loop over both tracks has none.
    let around = [0, 1, 1, 1, 1, 0, 1, 1, 0, 0];
    assert_eq!(check(&[1, 1], &[0, 0], 2, 2, &around), Ok(()));
    assert_eq!(check(&[], &[], 0, 2, &[]), Ok(()));
}

/// What stands in a table before a call.
const KEPT: NetRecord = NetRecord { first: 6, last: 7, pins: 8, length: 9 };

#[test]
fn report_of_case_f() {
    let mut table = vec![KEPT; 257];
    report(&[1, 1, 1], &[0, 0, 0], &mut table).unwrap();
    assert_eq!(table[0], NetRecord { first: 1, last: 3, pins: 3, length: 0 });
    assert!(table[1..256].iter().all(|record| *record == NetRecord::default()));
    assert_eq!(table[256], KEPT);
    assert_eq!(report(&[], &[], &mut table[..255]), Err(Refusal::TableTooShort));
}

/// Case D as the paper lists it.
const DRAWING_D: [u16; 15] = [2, 0, 1, 2, 1, 1, 2, 2, 1, 1, 0, 1, 0, 0, 0];

#[test]
fn lengths_of_case_d() {
    let mut table = vec![KEPT; 257];
    report_drawing(&[1, 2], &[2, 1], 3, 2, &DRAWING_D, &mut table).unwrap();
    // Verticals in columns 1, 2 and 3; track 2 from column 1; both tracks from 2.
    assert_eq!(table[0], NetRecord { first: 1, last: 2, pins: 2, length: 6 });
    // A vertical and track 1 in column 1; two verticals in column 2.
    assert_eq!(table[1], NetRecord { first: 1, last: 2, pins: 2, length: 4 });
    assert!(table[2..256].iter().all(|record| *record == NetRecord::default()));
    assert_eq!(table[256], KEPT);
}

#[test]
fn refused_reports_on_drawings() {
    let refused = |bottom: &[u16], w, layout: &[u16], records| {
        let mut table = vec![KEPT; records];
        let fault = report_drawing(&[1, 2], bottom, w, 2, layout, &mut table).unwrap_err();
        assert_eq!(table, vec![KEPT; records]);
        (fault.refusal.number(), fault.place, fault.column, fault.row)
    };
    assert_eq!(refused(&[2], 0, &[], 255), (4, 0, 0, 0));
    assert_eq!(refused(&[2, 1], 1, &DRAWING_D, 255), (9, 0, 0, 0));
    assert_eq!(refused(&[2, 1], 1, &DRAWING_D, 256), (10, 0, 0, 0));
    let with = |place: usize, entry| {
        let mut layout = DRAWING_D;
        layout[place] = entry;
        layout
    };
    assert_eq!(refused(&[2, 1], 3, &with(1, 3), 256), (13, 1, 0, 0));
    assert_eq!(refused(&[2, 1], 3, &with(11, 0), 256), (16, 1, 0, 0));
    assert_eq!(refused(&[2, 1], 3, &with(1, 2), 257), (17, 2, 1, 2));
}

#[test]
fn columns_and_listing_of_case_d() {
    let mut layout = [0; 15];
    let drawn = route(&[1, 2], &[2, 1], &mut layout).unwrap();
    assert_eq!(column(&layout, drawn.width, drawn.tracks, 1), [2, 0, 1, 2, 1]);
    assert_eq!(column(&layout, drawn.width, drawn.tracks, 4), []);
    let record = [12, 0, 1, 0, 2, 0, 1, 0, 2, 0, 2, 0, 1, 0];
    let text = "density 2 tracks 2 width 3\n1: 2 0 1 | 2 1\n2: 1 2 2 | 1 1\n3: 0 1 0 | 0 0\n";
    assert_eq!(list(&record).as_deref(), Ok(text));
    assert_eq!(list(&record[..13]), Err(Refusal::RecordLength));
}

/// The record of a channel.
fn record(top: &[u16], bottom: &[u16]) -> Vec<u8> {
    let head = [4 + 4 * top.len() as u16, 1, top.len() as u16];
    let words = head.iter().chain(top).chain(bottom);
    words.flat_map(|word| word.to_le_bytes()).collect()
}

#[test]
fn refused_listings() {
    assert_eq!(list(&[]), Err(Refusal::RecordLength));
    assert_eq!(list(&[2, 0, 2, 0]), Err(Refusal::RecordKind));
    assert_eq!(list(&[2, 0, 1, 0]), Err(Refusal::RecordBody));
    assert_eq!(list(&record(&[0; 65], &[0; 65])), Err(Refusal::TooManyColumns));
    assert_eq!(list(&record(&[257, 257], &[0, 0])), Err(Refusal::NetNumber));
    assert_eq!(list(&record(&[1], &[0])), Err(Refusal::SinglePin));
    assert_eq!(list(&record(&[], &[])).as_deref(), Ok("density 0 tracks 0 width 0\n"));
    assert!(list(&record(&[0; 64], &[0; 64])).is_ok());
}

/// What is left of a text that is full of one byte, and the answer.
fn text_after(record: &[u8]) -> (raw::Listed, Vec<u8>) {
    let mut text = vec![0xa5; raw::TEXT];
    // SAFETY: the slices live through the call; the text has the library's size.
    let r = unsafe { raw::gaxwethi_list(record.as_ptr(), record.len(), text.as_mut_ptr()) };
    (r, text)
}

#[test]
fn text_around_a_listing() {
    let (drawn, text) = text_after(&record(&[5], &[5]));
    let listing = b"density 0 tracks 0 width 1\n1: 5 |\n";
    assert_eq!(drawn, raw::Listed { number: 0, length: listing.len() });
    assert!(text.starts_with(listing));
    assert!(text[listing.len()..].iter().all(|&byte| byte == 0xa5));
    let (refused, text) = text_after(&record(&[1], &[0]));
    assert_eq!(refused, raw::Listed { number: 7, length: 0 });
    assert!(text.iter().all(|&byte| byte == 0xa5));
}

#[test]
fn canonical_record_of_case_d() {
    let mut bytes = [0xa5; 15];
    assert_eq!(canonical(&[9, 4], &[4, 9], &mut bytes), Ok(14));
    assert_eq!(bytes[..14], record(&[1, 2], &[2, 1]));
    assert_eq!(bytes[14], 0xa5);
    let mut short = [0xa5; 13];
    let refused = canonical(&[9, 4], &[4, 9], &mut short);
    assert_eq!(refused, Err(Refusal::OutputTooShort));
    assert_eq!(refused.unwrap_err().to_string(), "refused 18: output slice too short");
    assert_eq!(canonical(&[9, 4], &[4, 4], &mut short), Err(Refusal::SinglePin));
    assert_eq!(short, [0xa5; 13]);
}

#[test]
fn canonical_record_of_256_nets() {
    let row: Vec<u16> = (1..=256).rev().collect();
    let renamed: Vec<u16> = (1..=256).collect();
    let mut bytes = [0; 1030];
    assert_eq!(canonical(&row, &row, &mut bytes), Ok(1030));
    assert_eq!(bytes[..], record(&renamed, &renamed));
}

#[test]
fn numbers_of_refusals() {
    for (number, refusal) in (1..).zip(Refusal::ALL) {
        assert_eq!(refusal.number(), number);
        assert_eq!(Refusal::from_number(number), Some(refusal));
    }
    assert_eq!(Refusal::from_number(0), None);
    assert_eq!(Refusal::ALL.len(), 24);
    assert_eq!(Refusal::from_number(25), None);
}
