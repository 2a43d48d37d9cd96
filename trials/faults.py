#!/usr/bin/env python3
"""Tries out the trials: plants one fault after the other in the baseline,
which stands in for the library, and sees that the trials find each of them.

    python3 trials/faults.py            all faults, after a run without any
    python3 trials/faults.py LABEL ...  only these
"""

import os
import pathlib
import shutil
import subprocess
import sys

HERE = pathlib.Path(__file__).resolve().parent
WORK = HERE / "target" / "faults"
CHANNELS = "20000"

ROWS, CHECK, REPORT, LIST = (f"baseline/src/{x}.rs" for x in ("rows", "check", "report", "list"))
ROUTE, RECORD, BOARD, WIDEST = (f"baseline/src/{x}.rs" for x in ("route", "record", "board", "widest"))
TWO, MANY, THREE, STEPS = (f"baseline/src/route/{x}.rs" for x in ("two_pin", "many_pin", "three_pin", "steps"))
CALLS = "standin/src/lib.rs"


def highest(family):
    """The fault that an empty column joins the highest-numbered net, in channels of one family."""
    return f"let last = self.stretched.members().last().filter(|_| self.family == Family::{family});\n" \
        "        match last.or(self.stretched.lowest()) {"


# Refusal 6 of an added net, with the start of what follows, and of a dropped one.
REFUSED_6 = "        if net == 0 || net > 256 {\n            return Err(6);\n        }\n        "
ADDED_6, DROPPED_6 = REFUSED_6 + "if self.rows", REFUSED_6 + "let rows"

# Label, file, text, text with the fault.
FAULTS = [
    ("column limit", ROWS, "top.len() > most", "top.len() > most + 1"),
    ("single pin in column 1", ROWS, "net.pins == 1)", "net.pins == 1 && net.first > 1)"),
    ("density in columns", ROWS, "change[net.last as usize] -= 1",
     "change[(net.last as usize + 1).min(256)] -= 1"),
    ("last gap left out", ROWS, ".take(n)", ".take(n.saturating_sub(1))"),
    ("pieces never counted", CHECK, "count > 1)", "count > 500)"),
    ("highest broken net", CHECK, ".position(|&count|", ".rposition(|&count|"),
    ("a cycle taken for a join", CHECK, "if a != b {", "if a != b || a > 0 {"),
    ("a touch taken for a crossing", CHECK, "left.0 == right && up != right", "left.0 == right"),
    ("loose ends passed", CHECK, "if some_single(edges) {", "if some_single(edges) && row > t {"),
    ("loose ends on row 1", CHECK, "if some_single(edges) {", "if some_single(edges) && row > 1 {"),
    ("loose ends on row t", CHECK, "if some_single(edges) {", "if some_single(edges) && row < t {"),
    ("loose ends in column 1", CHECK, "if some_single(edges) {", "if some_single(edges) && column > 1 {"),
    ("loose ends in column w", CHECK, "if some_single(edges) {", "if some_single(edges) && column < w {"),
    ("stubs from the right", CHECK, "(d != 0) & !(ad | bd | cd)", "(d != 0) & false"),
    ("a branch taken for a loose end", CHECK, "count(net) == 1).min()", "count(net) != 2).min()"),
    ("highest loose net", CHECK, "net < loose.net", "net > loose.net"),
    ("last loose end", CHECK, "net < loose.net", "net <= loose.net"),
    ("loose ends by row first", CHECK, "net < loose.net", "(net, row) < (loose.net, loose.row)"),
    ("higher of two nets at a point", CHECK, "count(net) == 1).min()", "count(net) == 1).max()"),
    ("loose ends before pieces", CHECK, "count > 1)", "count > 1).filter(|_| loose.is_none())"),
    ("row of a loose end from 0", CHECK, "place: net.into(), column, row }", "place: net.into(), column, row: row - 1 }"),
    ("column on another refusal", CHECK, "Checked { number, place, ..", "Checked { number, place, column: place, .."),
    ("net 256 always known", CHECK, "x == 0 || nets", "x == 0 || x == 256 || nets"),
    ("top edges past n", CHECK, "if column[t] != pin(top, c)", "if c < top.len() && column[t] != pin(top, c)"),
    ("14 for another net", CHECK, "_ => 19,", "_ => 14,"),
    ("19 for a pin without a wire", CHECK, "(_, 0) => 14,", "(_, 0) => 19,"),
    ("19 for an empty terminal", CHECK, "(0, _) => 20,", "(0, _) => 19,"),
    ("14 past column n", CHECK, "refused(pin_fault(pin(bottom, c), column[0]), c * each)",
     "refused(if c < top.len() { pin_fault(pin(bottom, c), column[0]) } else { 14 }, c * each)"),
    ("14 at the top past column n", CHECK, "refused(pin_fault(pin(top, c), column[t]), c * each + t)",
     "refused(if c < top.len() { pin_fault(pin(top, c), column[t]) } else { 14 }, c * each + t)"),
    ("top pin first without tracks", CHECK, "if column[0] != pin(bottom, c) {",
     "if column[0] != pin(bottom, c) && (t > 0 || column[t] == pin(top, c)) {"),
    ("bottom pin alone without tracks", CHECK, "if column[t] != pin(top, c) {", "if t > 0 && column[t] != pin(top, c) {"),
    ("fault of the next pin edge", CHECK, "pin_fault(pin(bottom, c), column[0])", "pin_fault(pin(top, c), column[t])"),
    ("place of the top pin", CHECK, "c * each + t)", "c * each + t.min(1))"),
    ("last horizontal edge", CHECK, "layout.len().min(t)", "layout.len().min(t.saturating_sub(1))"),
    ("place in the last column", CHECK, "(15, end + place)", "(15, place)"),
    ("width 512", CHECK, "|| w > 511", "|| w > 512"),
    ("tracks 511", CHECK, "if t > 511", "if t > 510"),
    ("last column hidden", CHECK, "(1..=w).contains", "(1..w).contains"),
    ("offset of an empty part", CHECK, "        (0, 0)\n    }", "        (len.min(1), 0)\n    }"),
    ("pins over nine", REPORT, "net.last, net.pins]", "net.last, net.pins.min(9)]"),
    ("table one number short", REPORT, "< 4 * 256 {", "< 4 * 256 - 1 {"),
    ("257th record written", REPORT, ".skip(1)", ".cycle().skip(1).take(257)"),
    ("length without a drawing", REPORT, "&[0; 257]", "&[1; 257]"),
    ("length of vertical edges", REPORT, "&lengths(layout)",
     "&lengths(&layout.chunks(2 * t + 1).flat_map(|column| &column[..=t]).copied().collect::<Vec<_>>())"),
    ("length without pin edges", REPORT, "&lengths(layout)",
     "&lengths(&layout.chunks(2 * t + 1).flat_map(|column| column.iter().enumerate()"
     ".filter(|(y, _)| *y != 0 && *y != t)).map(|(_, net)| *net).collect::<Vec<_>>())"),
    ("length without the last column", REPORT, "&lengths(layout)", "&lengths(&layout[..layout.len().saturating_sub(2 * t + 1)])"),
    ("length without the last entries", REPORT, "layout.chunks(4)", "layout.chunks_exact(4)"),
    ("length of 16 bits", REPORT, "pins, length]", "pins, length & 0xffff]"),
    ("length of net 256", REPORT, "table[net as usize] += 1", "table[net as usize % 256] += 1"),
    ("no report on an empty drawing", REPORT, "if checked.number == 0 {", "if checked.number == 0 && !layout.is_empty() {"),
    ("refused drawing's table written", REPORT, "if checked.number == 0 {", "if matches!(checked.number, 0 | 17) {"),
    ("9 after the drawing", REPORT, "Err(number) => return Checked::refused(number, 0),",
     "Err(number) => return match crate::check(top, bottom, w, t, layout) {\n"
     "            Checked { number: 0, .. } => Checked::refused(number, 0),\n            other => other,\n        },"),
    ("place of a report dropped", REPORT, "    checked\n}", "    Checked { place: 0, ..checked }\n}"),
    ("row of a report dropped", REPORT, "    checked\n}", "    Checked { row: 0, ..checked }\n}"),
    ("kind by one byte", LIST, "words[1] != 1", "words[1] & 255 != 1"),
    ("record of 1,031 bytes", LIST, "4..=1030", "4..=1031"),
    ("65 columns listed", LIST, "&bottom, 64)", "&bottom, 65)"),
    ("blank after the bar", LIST, "writeln!(text).unwrap()",
     'writeln!(text, "{}", if t == 0 { " " } else { "" }).unwrap()'),
    ("a byte after the text", LIST, "    Ok(room - rest.len())", "    rest[0] = 0;\n    Ok(room - rest.len())"),
    ("a zero byte at the end of the text", LIST, "    Ok(room - rest.len())",
     "    rest[rest.len() - 1] = 0;\n    Ok(room - rest.len())"),
    ("length of the text with one more", LIST, "Ok(room - rest.len())", "Ok(room - rest.len() + 1)"),
    ("refused listing written", LIST, "    listing(record, &mut rest)?;",
     '    if let Err(number) = listing(record, &mut rest) {\n'
     '        writeln!(rest, "refused {number}").unwrap();\n        return Err(number);\n    }'),
    ("refused rows written", LIST, "    nets(&top, &bottom, 64)?;",
     "    nets(&top, &bottom, 64).inspect_err(|_| text[99] = 0)?;"),
    ("length on refusal", CALLS, "Listed { number, length: 0 }", "Listed { number, length: 10 }"),
    ("number of a refused listing", CALLS, "Listed { number, length: 0 }", "Listed { number: number.min(6), length: 0 }"),
    ("need by the formula", ROUTE, "&nets).need())", "&nets).formula())"),
    ("formula still asked for", ROUTE, " && layout.len() < channel.need()", ""),
    ("formula one column short", ROUTE, "self.entries(self.tracks / 2)", "self.entries((self.tracks / 2).saturating_sub(1))"),
    ("slice too short taken", ROUTE, "layout.len() < channel.need()", "layout.len() + 1 < channel.need()"),
    ("slice of the need refused", ROUTE, "layout.len() < channel.need()", "layout.len() <= channel.need()"),
    ("dry run without the added columns", ROUTE, "sweep.stretched.len()", "0"),
    ("dry run with one added column at most", ROUTE, "sweep.stretched.len()", "sweep.stretched.len().min(1)"),
    ("dry run with one added column twice", ROUTE, "sweep.stretched.len()",
     "sweep.stretched.len() + sweep.stretched.lowest().is_some() as usize"),
    ("dry run without the last column", ROUTE, "for (p, q) in self.columns() {",
     "for (p, q) in self.columns().take(self.top.len().saturating_sub(1)) {"),
    ("refused slice written", ROUTE, "return Err(8);", "layout.fill(0);\n        return Err(8);"),
    ("first entry written before the refusal", ROUTE, "return Err(8);",
     "layout.iter_mut().take(1).for_each(|entry| *entry = 0);\n        return Err(8);"),
    ("last entry written before the refusal", ROUTE, "return Err(8);",
     "layout.iter_mut().rev().take(1).for_each(|entry| *entry = 0);\n        return Err(8);"),
    ("8 before the rows", CALLS, "baseline::route(top, bottom, layout)",
     "baseline::route(top, bottom, layout).map_err(|number| if len == 0 { 8 } else { number })"),
    ("figure on refusal", CALLS, "Routed { number, density: 0", "Routed { number, density: 1"),
    ("entries after the drawing", ROUTE, "        width\n    }",
     "        columns.next().map(|rest| rest.fill(0));\n        width\n    }"),
    ("unjoined at the end", ROUTE, "sweep.stretched.lowest() {",
     "sweep.stretched.lowest().filter(|_| self.family == Family::ManyPin) {"),
    ("added columns in another order", ROUTE, "sweep.stretched.lowest() {",
     "sweep.stretched.lowest().map(|net| sweep.stretched.lowest_but(net).unwrap_or(net)) {"),
    ("empty column, no net joined", ROUTE, "match self.stretched.lowest() {", "match self.stretched.lowest().filter(|_| false) {"),
    ("empty column, rule in two-pin channels only", ROUTE, "match self.stretched.lowest() {",
     "match self.stretched.lowest().filter(|_| self.family == Family::TwoPin) {"),
    ("empty column, rule not in two-pin channels", ROUTE, "match self.stretched.lowest() {",
     "match self.stretched.lowest().filter(|_| self.family != Family::TwoPin) {"),
    ("empty column, rule not in three-pin channels", ROUTE, "match self.stretched.lowest() {",
     "match self.stretched.lowest().filter(|_| self.family != Family::ThreePin) {"),
    ("empty column, rule not in many-pin channels", ROUTE, "match self.stretched.lowest() {",
     "match self.stretched.lowest().filter(|_| self.family != Family::ManyPin) {"),
    ("empty column, highest number in two-pin channels", ROUTE, "match self.stretched.lowest() {", highest("TwoPin")),
    ("empty column, highest number in three-pin channels", ROUTE, "match self.stretched.lowest() {", highest("ThreePin")),
    ("empty column, highest number in many-pin channels", ROUTE, "match self.stretched.lowest() {", highest("ManyPin")),
    ("empty column, wide net joined", ROUTE, "match self.stretched.lowest() {",
     "match self.stretched.lowest().or_else(|| self.wide.lowest()) {"),
    ("empty column, wide net before a stretched one", ROUTE, "match self.stretched.lowest() {",
     "match self.stretched.lowest().map(|net| self.wide.lowest().unwrap_or(net)) {"),
    ("empty column, two nets done", ROUTE, "Some(join) => self.join_stretched(join as u16, 0, 0),",
     "Some(join) => {\n"
     "                let verticals = self.join_stretched(join as u16, 0, 0);\n"
     "                self.stretched.lowest().map(|next| self.join_stretched(next as u16, 0, 0));\n"
     "                verticals\n            }"),
    ("empty column, joined up to the second strand", ROUTE, "Some(join) => self.join_stretched(join as u16, 0, 0),",
     "Some(join) => {\n"
     "                let (low, second) = (self.strands[join].low, self.second(join as u16));\n"
     "                self.join_stretched(join as u16, 0, 0);\n"
     "                Three(0, low, join as u16, second, 0)\n            }"),
    ("empty column, joined net leaves on a track", ROUTE, "Some(join) => self.join_stretched(join as u16, 0, 0),",
     "Some(join) => {\n"
     "                let low = self.strands[join].low;\n"
     "                let verticals = self.join_stretched(join as u16, 0, 0);\n"
     "                self.add(low, join as u16);\n"
     "                verticals\n            }"),
    ("empty column, joined net still stretched", ROUTE, "Some(join) => self.join_stretched(join as u16, 0, 0),",
     "Some(join) => {\n"
     "                let verticals = self.join_stretched(join as u16, 0, 0);\n"
     "                self.stretched.insert(join);\n"
     "                verticals\n            }"),
    ("empty column, joined net still double", ROUTE, "Some(join) => self.join_stretched(join as u16, 0, 0),",
     "Some(join) => self.join_for_pins(join as u16, 0, 0),"),
    ("empty column, pairs ended", ROUTE, "=> self.empty_column(),",
     "=> {\n"
     "                self.mates = [0; 257];\n"
     "                (1..=256).for_each(|net| self.lone.put(net, self.strands[net].count == 2));\n"
     "                self.empty_column()\n            }"),
    ("empty column, drawn straight in the dry run", ROUTE, "for (p, q) in self.columns() {",
     "for (p, q) in self.columns() {\n"
     "            if p | q == 0 {\n                sweep.c += 1;\n                continue;\n            }"),
    ("column with a top pin taken for an empty one", ROUTE, "p | q == 0", "q == 0"),
    ("column with a bottom pin taken for an empty one", ROUTE, "p | q == 0", "p == 0"),
    ("two-pin column by a later one", TWO, "match self.stretched.lowest() {",
     "match self.stretched.members().last().filter(|_| self.nets[p as usize].last % 2 == 0).or(self.stretched.lowest()) {"),
    ("free tracks exchanged", ROUTE, "self.add(f, q);\n                self.add(g, p);",
     "self.add(g, q);\n                self.add(f, p);"),
    ("free track beside a stretched net", MANY,
     "if let Some(join) = join {\n            return self.join_for_pins(join as u16, p, q);",
     "if let Some(join) = join.filter(|_| self.kind(p) != Starts) {\n"
     "            return self.join_for_pins(join as u16, p, q);"),
    ("wide before stretched", MANY,
     "let join = self.stretched.lowest().or_else(|| self.wide.lowest());\n        if p == q",
     "let join = self.wide.lowest().or_else(|| self.stretched.lowest());\n        if p == q"),
    ("wide from four strands", ROUTE, "(true, 3..)", "(true, 4..)"),
    ("second highest strand", ROUTE, "(low + 1..high).find", "(low + 1..high).rfind"),
    ("both end, other order", ROUTE, "        } else {\n            self.end_top(p, q)",
     "        } else {\n            self.end_bottom(p, q)"),
    ("both end, highest for lowest", ROUTE, "(self.strands[p as usize].low, self.strands[q as usize].high)",
     "(self.strands[p as usize].high, self.strands[q as usize].high)"),
    ("top ends, highest given", ROUTE, "let low = self.strands[p as usize].low;",
     "let low = self.strands[p as usize].high;"),
    ("bottom ends, lowest given", ROUTE, "let high = self.strands[q as usize].high;",
     "let high = self.strands[q as usize].low;"),
    ("rule 4, top", ROUTE, "if f < s.high {", "if f < s.low {"),
    ("rule 4, bottom", ROUTE, "if s.low < f {", "if s.high < f {"),
    ("rule 5, top with two", MANY, "if ps.count > 1 {", "if ps.count > 2 {"),
    ("rule 5, bottom with two", MANY, "if qs.count > 1 {", "if qs.count > 2 {"),
    ("rule 5, free track", MANY, "self.add(f, p);\n        self.add(m, q);\n        Three",
     "self.add(f, q);\n        self.add(m, p);\n        Three"),
    ("both pins, highest kept", MANY, "self.add(strands.low, p);", "self.add(strands.high, p);"),
    ("both pins, rule 2 left out", MANY, "if let Some(join) = join {\n                return",
     "if let Some(join) = join.filter(|_| false) {\n                return"),
    ("a net of four pins taken", ROWS, "over(3) ||", "over(4) ||"),
    ("first two pins in one column taken", ROWS, ".any(together) {", ".any(together) && false {"),
    ("last two pins in one column not taken", ROWS, "net.first == column", "net.last == column"),
    ("two-pin net in one column not taken", ROWS, "net.pins == 3", "net.pins < 4"),
    ("3d/2 rounded up", ROUTE, "3 * density / 2", "(3 * density).div_ceil(2)"),
    ("nothing between two nets filled", ROUTE, "vertical[stop..high].fill(0);", "vertical[stop..high].fill(middle);"),
    ("last two pins, net not ended", THREE, "self.drop_net(p);\n        Three(p", "Three(p"),
    ("a stretched net left to the end", THREE, "match self.stretched.lowest() {", "match self.stretched.lowest().filter(|_| false) {"),
    ("a stretched net joined for starting pins only", THREE, "match self.stretched.lowest() {",
     "match self.stretched.lowest().filter(|_| kinds.0 != Continues && kinds.1 != Continues) {"),
    ("a stretched net joined where a pin ends", THREE, "(Ends, Ends) => self.end_one",
     "_ if self.stretched.lowest().is_some() => {\n"
     "                let join = self.stretched.lowest().unwrap();\n"
     "                self.join_stretched(join as u16, p, q)\n            }\n"
     "            (Ends, Ends) => self.end_one"),
    ("a joined net still double", THREE, "Some(join) => self.join_stretched(", "Some(join) => self.join_for_pins("),
    ("two ending nets, the single one ends", THREE, "(qs.count, p) < (ps.count, q)", "(ps.count, p) < (qs.count, q)"),
    ("two ending nets, the higher number ends", THREE, "(qs.count, p) < (ps.count, q)", "(qs.count, q) < (ps.count, p)"),
    ("two ending nets, the top one ends", THREE, "qs.high < ps.low || top_first", "qs.high < ps.low || top_first || p != 0"),
    ("l < m not direct", THREE, "if l < m =>", "if l < m && false =>"),
    ("two continuing nets, the longer one double", THREE, "(self.last(p), p) < (self.last(q), q)",
     "(self.last(q), p) < (self.last(p), q)"),
    ("two continuing nets, the higher number double", THREE, "(self.last(p), p) < (self.last(q), q)",
     "(self.last(p), q) < (self.last(q), p)"),
    ("two continuing nets not paired, top double", THREE, "            self.pair(p, q);\n", ""),
    ("two continuing nets not paired, bottom double", THREE, "            self.pair(q, p);\n", ""),
    ("D ends first", THREE, "(self.nets[net].last, Reverse(net))", "(Reverse(self.nets[net].last), Reverse(net))"),
    ("D of a tie has the highest number", THREE, "(self.nets[net].last, Reverse(net))", "(self.nets[net].last, net)"),
    ("M has the highest number", THREE, "self.lone.lowest_but(latest as usize).map(",
     "self.lone.members().filter(|&net| net != latest as usize).last().map("),
    ("D beside a continuing pin though there is M", THREE, "self.other(latest).or(Some(latest))", "Some(latest)"),
    ("D and M not paired", THREE, "            self.pair(other, double);\n", ""),
    ("a reduced net still double", THREE, "        self.mark(double);\n", ""),
    ("top net no shorter than the double one, second strand", THREE, "self.last(p) < self.last(double)",
     "self.last(p) <= self.last(double)"),
    ("bottom net no shorter than the double one, second strand", THREE, "self.last(q) < self.last(double)",
     "self.last(q) <= self.last(double)"),
    ("top net and the double one not paired", THREE, "        self.pair(p, double);\n", ""),
    ("bottom net and the double one not paired", THREE, "        self.pair(q, double);\n", ""),
    ("a top pin below the reduced net", THREE, "self.add(low, net);\n            self.add(high, p);",
     "self.add(high, net);\n            self.add(low, p);"),
    ("three-way, free track lowest", THREE, "[f, low, high]", "[low, f, high]"),
    ("three-way, free track between", THREE, "_ if f < high => [low, f, high]", "_ if f < high => [f, low, high]"),
    ("three-way, free track highest", THREE, "[low, high, f]", "[low, f, high]"),
    ("three-way, top net below the reduced one", THREE, "self.add(y, net);\n        self.add(z, p);",
     "self.add(z, net);\n        self.add(y, p);"),
    ("bottom before top", RECORD, "        above.copy_from_slice(&number(p));\n        below.copy_from_slice(&number(q));",
     "        below.copy_from_slice(&number(q));\n        above.copy_from_slice(&number(p));"),
    ("numbered row by row", RECORD, "    for ((&p, &q), (above,", "    top.iter().for_each(|&net| drop(number(net)));\n    for ((&p, &q), (above,"),
    ("numbered from the right", RECORD, "    for ((&p, &q), (above,",
     "    top.iter().zip(bottom).rev().for_each(|(&p, &q)| drop((number(p), number(q))));\n    for ((&p, &q), (above,"),
    ("numbered by the old numbers", RECORD, "    for ((&p, &q), (above,",
     "    (1..=256).filter(|net| top.contains(net) || bottom.contains(net)).for_each(|net| drop(number(net)));\n    for ((&p, &q), (above,"),
    ("old numbers kept", RECORD, "*number = last;", "*number = net;"),
    ("numbered from 0", RECORD, "            last += 1;\n            *number = last;", "            *number = last;\n            last += 1;"),
    ("numbered from 2", RECORD, "([0; 257], 0u16)", "([0; 257], 1u16)"),
    ("a number for no pin", RECORD, "net != 0 && *number == 0", "*number == 0"),
    ("a number for each pin", RECORD, "net != 0 && *number == 0", "net != 0"),
    ("table of 256 numbers", RECORD, "[0; 257]", "[0; 256]"),
    ("net 256 taken for no pin", RECORD, "let number = &mut numbers[net as usize];",
     "let net = net % 256;\n        let number = &mut numbers[net as usize];"),
    ("numbers of one byte", RECORD, "number.to_le_bytes()", "(*number & 255).to_le_bytes()"),
    ("high byte first in the rows", RECORD, "number.to_le_bytes()", "number.to_be_bytes()"),
    ("high byte first in the head", RECORD, "word.to_le_bytes()", "word.to_be_bytes()"),
    ("rows exchanged", RECORD, "let (above, below) = rows", "let (below, above) = rows"),
    ("length field of the whole record", RECORD, "[4 + 4 * n as u16", "[6 + 4 * n as u16"),
    ("length field of the body", RECORD, "[4 + 4 * n as u16", "[2 + 4 * n as u16"),
    ("length field of one byte", RECORD, "[4 + 4 * n as u16", "[(4 + 4 * n as u16) & 255"),
    ("another kind", RECORD, " 1, n as u16]", " 2, n as u16]"),
    ("columns of one byte", RECORD, " 1, n as u16]", " 1, n as u16 & 255]"),
    ("64 columns at most", RECORD, "bottom, 256)", "bottom, 64)"),
    ("257 columns written", RECORD, "bottom, 256)", "bottom, 257)"),
    ("18 before the rows", RECORD, "    nets(", "    if bytes.len() < 6 + 4 * top.len() {\n        return Err(18);\n    }\n    nets("),
    ("18 before 7", RECORD, "256)?;", "256).map_err(|number| if number == 7 && bytes.len() < 6 + 4 * top.len() { 18 } else { number })?;"),
    ("8 for a short slice", RECORD, "ok_or(18u16)", "ok_or(8u16)"),
    ("a slice one byte short taken", RECORD, "let record = bytes.get_mut(..6 + 4 * n).ok_or(18u16)?;",
     "let mut spare = vec![0; 6 + 4 * n];\n"
     "    let short = bytes.len() + 1 == spare.len();\n"
     "    let record = if short { &mut spare[..] } else { bytes.get_mut(..6 + 4 * n).ok_or(18u16)? };"),
    ("a slice of just the record refused", RECORD, "let record = bytes.get_mut(..6 + 4 * n)",
     "let room = bytes.len();\n    let record = bytes.get_mut(..6 + 4 * n).filter(|_| room > 6 + 4 * n)"),
    ("a longer slice refused", RECORD, "let record = bytes.get_mut(..6 + 4 * n)",
     "let room = bytes.len();\n    let record = bytes.get_mut(..6 + 4 * n).filter(|_| room == 6 + 4 * n)"),
    ("the byte behind the record written", RECORD, "    let record = ",
     "    bytes.iter_mut().skip(6 + 4 * n).take(1).for_each(|byte| *byte = 0);\n    let record = "),
    ("the last byte behind the record written", RECORD, "    let record = ",
     "    bytes.iter_mut().skip(6 + 4 * n).last().map(|byte| *byte = 0);\n    let record = "),
    ("short slice written", RECORD, "    let record = ",
     "    if bytes.len() < 6 + 4 * n {\n        bytes.fill(0);\n    }\n    let record = "),
    ("first byte written before 18", RECORD, "    let record = ",
     "    if bytes.len() < 6 + 4 * n {\n        bytes.iter_mut().take(1).for_each(|byte| *byte = 0);\n    }\n    let record = "),
    ("record of refused rows written", RECORD, "256)?;", "256).inspect_err(|_| bytes.iter_mut().take(1).for_each(|byte| *byte = 0))?;"),
    ("length of the record without the head", RECORD, "Ok(record.len())", "Ok(record.len() - 6)"),
    ("length of the slice for that of the record", RECORD, "Ok(record.len())", "Ok(bytes.len())"),
    ("length of a refused record", CALLS, "    figure(|| baseline::canonical(top, bottom, bytes))",
     "    let answer = figure(|| baseline::canonical(top, bottom, bytes));\n    Figure { value: 6 + 4 * n, ..answer }"),
    ("driven sweep of a net of three pins", STEPS, "net.pins > 2", "net.pins > 3"),
    ("driven sweep with a track more", STEPS, "state.tracks = densest(top.len(), &nets);", "state.tracks = densest(top.len(), &nets) + 1;"),
    ("refused start leaves the state", CALLS, "Err(number) => (number, State::default()),",
     "Err(number) => return Started { number, tracks: 0, length: 0 },"),
    ("refused start keeps the columns", CALLS, "Err(number) => (number, State::default()),",
     "Err(number) => (number, State { columns: n.min(256), ..State::default() }),"),
    ("tracks of a refused start", CALLS, "Started { number, tracks: state.tracks,", "Started { number, tracks: state.tracks.max(number.into()),"),
    ("start leaves the strands", CALLS, "(*strands, *free) = (state.strands, state.free);", "*free = state.free;"),
    ("start leaves the free tracks", CALLS, "(*strands, *free) = (state.strands, state.free);", "*strands = state.strands;"),
    ("start leaves the stretched nets", CALLS, "    *extended = state.extended;\n    Started", "    Started"),
    ("step length a column short", STEPS, "self.tracks / 2)", "(self.tracks / 2).saturating_sub(1))"),
    ("step length without the added columns after column n", STEPS, "layout.len() < self.length()",
     "layout.len() < self.length() && (self.drawn < self.columns || layout.len() < self.columns * (2 * self.tracks + 1))"),
    ("short step taken", STEPS, "layout.len() < self.length()", "layout.len() + 1 < self.length()"),
    ("short step of no columns taken", STEPS, "layout.len() < self.length()", "k > 0 && layout.len() < self.length()"),
    ("short step after the last column taken", STEPS, "layout.len() < self.length()",
     "layout.len() < self.length() && !(self.drawn >= self.columns && self.extended == [0; 8])"),
    ("slice of just the length refused", STEPS, "layout.len() < self.length()", "layout.len() <= self.length()"),
    ("short step written", STEPS, "return Err(8);", "layout.iter_mut().take(1).for_each(|entry| *entry = 0);\n            return Err(8);"),
    ("short step counted", STEPS, "return Err(8);", "self.drawn += 1;\n            return Err(8);"),
    ("columns of a refused step", CALLS, "Stepped { number, drawn: 0, finished", "Stepped { number, drawn: *drawn, finished"),
    ("finished by a refused step", CALLS, "drawn: 0, finished: false }", "drawn: 0, finished: number == 8 }"),
    ("a column more than asked for", STEPS, ".take(k)", ".take(k.saturating_add(1))"),
    ("no columns taken for one", STEPS, ".take(k)", ".take(k.max(1))"),
    ("a step ends at column n", STEPS, ".take(k)", ".take(k.min(self.columns.saturating_sub(self.drawn).max(1)))"),
    ("number of columns of 16 bits", STEPS, ".take(k)", ".take(k as u16 as usize)"),
    ("a step draws from column 1", STEPS, ".skip(self.drawn)", ".skip(0)"),
    ("added columns of a driven sweep not drawn", STEPS, "self.drawn >= self.columns && sweep.stretched.len() == 0", "self.drawn >= self.columns"),
    ("finished at column n", STEPS, "let finished = self.finished(&sweep);", "let finished = self.drawn >= self.columns;"),
    ("finished a column late", STEPS, "let finished = self.finished(&sweep);", "let finished = self.finished(&sweep) && k != 1;"),
    ("a column after the last", STEPS, "if self.finished(&sweep) {", "if self.finished(&sweep) && self.drawn > self.columns {"),
    ("a step forgets the tracks", STEPS, "        self.strands = sweep.tracks;\n", ""),
    ("a step forgets the free tracks", STEPS, "        self.free = sweep.free.0;\n", ""),
    ("a step forgets the stretched nets", STEPS, "        self.extended = sweep.stretched.0;\n", ""),
    ("late net 0", STEPS, "net == 0 || net > 256", "net > 256"),
    ("late net 257", STEPS, "net > 256", "net > 257"),
    ("late net by one byte", STEPS, "net == 0 || net > 256", "net & 255 == 0"),
    ("22 before 6", STEPS, "if net == 0 || net > 256 {", "if terminals[0] != terminals[1] && (net == 0 || net > 256) {"),
    ("22 before 21", STEPS, ".contains(&net) {", ".contains(&net) && terminals[0] != terminals[1] {"),
    ("21 in the top row only", STEPS, "self.rows.as_flattened().contains", "self.rows[0].contains"),
    ("21 right of the drawn columns only", STEPS, ".contains(&net) {", ".contains(&net) && self.last[net as usize] as usize > self.drawn {"),
    ("late net in the last drawn column", STEPS, "self.drawn + 1..", "self.drawn.."),
    ("late net not in the next column", STEPS, "self.drawn + 1..", "self.drawn + 2.."),
    ("late net not in column n", STEPS, "..self.columns + 1", "..self.columns"),
    ("late net in column n + 1", STEPS, "..self.columns + 1", "..self.columns + 2"),
    ("column 0 taken for column 1", STEPS, "column.wrapping_sub(1)).filter(|_| open.contains(&column))",
     "column.saturating_sub(1)).filter(|_| open.contains(&column.max(1)))"),
    ("other sides taken for the bottom", STEPS, "get_mut(side as usize)", "get_mut(side.min(1) as usize)"),
    ("sides of one bit", STEPS, "get_mut(side as usize)", "get_mut((side & 1) as usize)"),
    ("sides exchanged", STEPS, "get_mut(side as usize)", "get_mut(side as usize ^ 1)"),
    ("late net on another's pin", STEPS, "**pin == 0", "**pin != net"),
    ("late net with one terminal", STEPS, "**pin == 0", "[0, net].contains(pin)"),
    ("late net as dense as the tracks refused", STEPS, "densest(n, &nets) > self.tracks", "densest(n, &nets) >= self.tracks.max(1)"),
    ("late net over the tracks", STEPS, "densest(n, &nets) > self.tracks", "densest(n, &nets) > self.tracks + 1"),
    ("rows of a 23", STEPS, "return Err(23);", "*self = placed;\n            return Err(23);"),
    ("first pin of a 22", STEPS, "            *placed.terminal(column, side).filter(|pin| **pin == 0).ok_or(22u16)? = net;",
     "            if placed.terminal(column, side).is_none_or(|pin| *pin != 0) {\n"
     "                *self = placed;\n                return Err(22);\n            }\n"
     "            *placed.terminal(column, side).unwrap() = net;"),
    ("late net not taken down", STEPS, "        *self = placed;\n", ""),
    ("late net's columns not taken down", STEPS, "        placed.know(&nets);\n", ""),
    ("256 columns on a board refused", BOARD, "columns > 256", "columns >= 256"),
    ("257 columns on a board taken for 256", BOARD, "        if columns > 256", "        let columns = if columns == 257 { 256 } else { columns };\n        if columns > 256"),
    ("columns of a board of 16 bits", BOARD, "        if columns > 256", "        let columns = columns as u16 as usize;\n        if columns > 256"),
    ("refused board left as it was", CALLS, "Err(number) => (number, Board::default()),", "Err(number) => return number,"),
    ("refused board keeps 256 columns", CALLS, "Err(number) => (number, Board::default()),",
     "Err(number) => (number, Board::new(n.min(256)).unwrap()),"),
    ("old pins behind a new board", CALLS, "(*columns, *top, *bottom, *counts) = (board.counts.len(), [0; 256], [0; 256], [0; 256]);",
     "(*columns, *top, *counts) = (board.counts.len(), [0; 256], [0; 256]);"),
    ("old counts behind a new board", CALLS, "(*columns, *top, *bottom, *counts) = (board.counts.len(), [0; 256], [0; 256], [0; 256]);",
     "(*columns, *top, *bottom) = (board.counts.len(), [0; 256], [0; 256]);"),
    ("added net 257", BOARD, ADDED_6, ADDED_6.replace("256", "257")),
    ("dropped net 257", BOARD, DROPPED_6, DROPPED_6.replace("256", "257")),
    ("dropped net 0", BOARD, DROPPED_6, DROPPED_6.replace("net == 0 || ", "")),
    ("24 before 6", BOARD, DROPPED_6,
     "        if !self.rows.iter().any(|row| row.contains(&net)) {\n            return Err(24);\n        }\n" + DROPPED_6),
    ("22 before 6 on a board", BOARD, ADDED_6, ADDED_6.replace("if net", "if one != other && (net").replace("256", "256)")),
    ("22 before 21 on a board", BOARD, "if self.rows.iter().any(|row| row.contains(&net)) {",
     "if self.is_free(one) && self.is_free(other) && self.rows.iter().any(|row| row.contains(&net)) {"),
    ("21 in the bottom row only", BOARD, "self.rows.iter().any(|row| row.contains(&net))", "self.rows[1].contains(&net)"),
    ("added on another's pin", BOARD, "get(column.wrapping_sub(1))) == Some(&0)", "get(column.wrapping_sub(1))).is_some()"),
    ("added with one terminal", BOARD, "one == other || ", ""),
    ("first pin of a net refused on a board", BOARD, "return Err(22);",
     "if self.is_free(one) {\n                self.rows[one.1 as usize][one.0 - 1] = net;\n            }\n            return Err(22);"),
    ("refused net counted", BOARD, "return Err(22);", "self.counts.iter_mut().skip(1).take(1).for_each(|count| *count += 1);\n            return Err(22);"),
    ("a gap too many mended", BOARD, "self.counts[first..last]", "let n = self.counts.len();\n        self.counts[first..(last + 1).min(n)]"),
    ("a gap before the first column mended", BOARD, "self.counts[first..last]", "self.counts[first - 1..last]"),
    ("the last gap of a net not mended", BOARD, "self.counts[first..last]", "self.counts[first..last.max(first + 1) - 1]"),
    ("the last gap of a board not mended", BOARD, "self.counts[first..last]",
     "let n = self.counts.len();\n        self.counts[first..last.min(n - 1).max(first)]"),
    ("a net in one column counted", BOARD, "self.counts[first..last]", "let n = self.counts.len();\n        self.counts[first..last.max(first + 1).min(n)]"),
    ("columns in the order given", BOARD, "(one.0.min(other.0), one.0.max(other.0))", "(one.0, one.0.max(other.0))"),
    ("a drop leaves the counts", BOARD, "        self.counts[first + 1..=last].iter_mut().for_each(|count| *count -= 1);\n", ""),
    ("a drop leaves the last count", BOARD, "self.counts[first + 1..=last]", "self.counts[first + 1..last.max(first + 1)]"),
    ("a drop mends a gap too many", BOARD, "self.counts[first + 1..=last]",
     "let n = self.counts.len();\n        self.counts[first + 1..(last + 2).min(n)]"),
    ("a drop mends up to the top row's last pin", BOARD, "let columns = rows.filter_map", "let columns = rows.take(1).filter_map"),
    ("a drop leaves the bottom pin", BOARD, "for row in &mut self.rows {", "for row in &mut self.rows[..1] {"),
    ("a drop leaves the second pin of a row", BOARD, ".filter(|pin| **pin == net).for_each", ".filter(|pin| **pin == net).take(1).for_each"),
    ("refused drop counted", BOARD, "let first = columns.min().ok_or(24u16)?;",
     "let first = columns.min();\n        if first.is_none() {\n            self.counts.iter_mut().skip(1).take(1).for_each(|count| *count += 1);\n"
     "        }\n        let first = first.ok_or(24u16)?;"),
    ("density without the last gap", BOARD, "self.counts.iter().copied().max()", "self.counts.iter().rev().skip(1).copied().max()"),
    ("density without the first gap", BOARD, "self.counts.iter().copied().max()", "self.counts.iter().skip(2).copied().max()"),
    ("a count past the last gap", BOARD, "self.counts.get(gap)", "self.counts.get(gap).or(self.counts.last())"),
    ("a count at gap 0", BOARD, "self.counts.get(gap)", "self.counts.get(gap.max(1))"),
    ("gaps of 16 bits", BOARD, "self.counts.get(gap)", "self.counts.get(gap as u16 as usize)"),
    ("made-up counts behind a board cleared", CALLS, "    let n = board.counts.len();\n", "    let n = board.counts.len();\n    counts[n..].fill(0);\n"),
    ("5 by a lent top row before 4", WIDEST, "    if top.len() != bottom.len() {",
     "    if top.len() > 256 {\n        return Err(5);\n    }\n    if top.len() != bottom.len() {"),
    ("5 by a lent bottom row before 4", WIDEST, "    if top.len() != bottom.len() {",
     "    if bottom.len() > 256 {\n        return Err(5);\n    }\n    if top.len() != bottom.len() {"),
    ("a longer top row taken", WIDEST, "top.len() != bottom.len()", "top.len() < bottom.len()"),
    ("257 lent columns taken", WIDEST, "top.len() > 256", "top.len() > 257"),
    ("256 lent columns refused", WIDEST, "top.len() > 256", "top.len() >= 256"),
    ("lent columns of 16 bits", WIDEST, "top.len() > 256", "top.len() as u16 > 256"),
    ("what lent rows hold is read", WIDEST, "    let (half, odd)", "    crate::rows::nets(top, bottom, 256)?;\n    let (half, odd)"),
    ("rows of different lengths written", WIDEST, "return Err(4);",
     "let n = top.len().min(bottom.len()).min(256);\n        let _ = widest(&mut top[..n], &mut bottom[..n]);\n        return Err(4);"),
    ("rows of over 256 columns written", WIDEST, "return Err(5);", "bottom[256] = 0;\n        return Err(5);"),
    ("added columns on a refusal", CALLS, "    figure(|| baseline::widest(top, bottom))",
     "    let answer = figure(|| baseline::widest(top, bottom));\n    Figure { value: n / 2, ..answer }"),
    ("the entry behind a lent row written", CALLS, "    let (top, bottom) = (from_raw_parts_mut(top, n), from_raw_parts_mut(bottom, m));",
     "    *bottom.add(m) = 0;\n    let (top, bottom) = (from_raw_parts_mut(top, n), from_raw_parts_mut(bottom, m));"),
    ("added columns rounded up", WIDEST, "Ok(half)", "Ok(half + odd)"),
    ("the width for the added columns", WIDEST, "Ok(half)", "Ok(3 * half + odd)"),
    ("a pair of nets fewer", WIDEST, "let (half, odd) = (top.len() / 2, top.len() % 2);",
     "let odd = top.len().min(2 + top.len() % 2);\n    let half = (top.len() - odd) / 2;"),
    ("halves not crossed", WIDEST, "[(top, [2, 1]), (bottom, [1, 2])]", "[(top, [2, 2]), (bottom, [1, 1])]"),
    ("first halves exchanged", WIDEST, "[(top, [2, 1]), (bottom, [1, 2])]", "[(top, [1, 1]), (bottom, [2, 2])]"),
    ("rows of the widest channel exchanged", WIDEST, "[(top, [2, 1]), (bottom, [1, 2])]", "[(top, [1, 2]), (bottom, [2, 1])]"),
    ("bottom row not written", WIDEST, "[(top, [2, 1]), (bottom, [1, 2])]", "[(top, [2, 1])]"),
    ("last column empty", WIDEST, "let (empty, full) = row.split_at_mut(odd);", "let (full, empty) = row.split_at_mut(2 * half);"),
    ("empty column not written", WIDEST, "        empty.fill(0);\n", ""),
    ("numbers of one byte in the widest channel", WIDEST, "*pin = first + 2 * k", "*pin = (first + 2 * k) & 255"),
]


def cargo(folder, target, *words, **settings):
    command = ["cargo", *words, "--release", "--offline", "--quiet"]
    env = dict(os.environ, CARGO_TARGET_DIR=str(target), RUSTFLAGS="-Awarnings", **settings)
    subprocess.run(command, cwd=folder, env=env, check=True)


def trial(edit):
    """Builds the stand-in with an edit, links the trials with it, runs them."""
    source = WORK / "source"
    shutil.rmtree(source, ignore_errors=True)
    for crate in ("baseline", "standin"):
        # New times, so that cargo builds what an earlier fault had changed.
        shutil.copytree(HERE / crate, source / crate, copy_function=shutil.copyfile)
    (source / "Cargo.toml").write_text('[workspace]\nresolver = "2"\nmembers = ["baseline", "standin"]\n')
    if edit:
        file, old, new = edit
        text = (source / file).read_text()
        assert text.count(old) == 1, f"{old!r} stands {text.count(old)} times in {file}"
        (source / file).write_text(text.replace(old, new))
    cargo(source, WORK / "library", "build", "-p", "standin")
    library = WORK / "library" / "release"
    cargo(HERE, WORK / "trials", "build", "-p", "compare", GAXWETHI_LIB=str(library))
    program = WORK / "trials" / "release" / "trials"
    run = subprocess.run([program, CHANNELS], capture_output=True, text=True)
    summary = [line for line in run.stdout.splitlines() if line.startswith("seed")]
    return run.returncode, summary[0] if summary else "ended by a crash"


def main():
    wanted = sys.argv[1:]
    status, summary = trial(None)
    print(f"no fault: status {status}, {summary}", flush=True)
    bad = status != 0
    faults = [f for f in FAULTS if not wanted or f[0] in wanted]
    for label, *edit in faults:
        status, summary = trial(edit)
        bad = bad or status == 0
        print(f"{'MISSED' if status == 0 else 'found '} {label}: {summary}", flush=True)
    print(f"{len(faults)} faults planted, {'some missed' if bad else 'all found'}")
    return int(bad)


if __name__ == "__main__":
    sys.exit(main())
