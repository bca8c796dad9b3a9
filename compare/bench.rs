//! Times the crate against the library, in one process: parse, `complete_and_validate` and `unused_symbols` against load and report.
//! bench KIND:FILE.. prints, for each file, the best of several runs of each in microseconds, of parse and `complete_and_validate` against load and of all of it, the ratio, and for a file that follows its half the growth of both; tables are
//! lent with a row more than the reading needs and the smallest indexes that go with them, and are cleared by `load` itself, which counts. A second table has each operation by itself, and load once more with
//! tables for any source of 65,536 bytes. A third has load beside `load_stored` of the same reading's blocks, into the same tables, and storing it.

mod header;
mod span;
mod yacc;

pub use span::{Span, Spanned};

use std::time::Instant;
use yacc::parser::YaccParser;
use yacc::{YaccKind, YaccOriginalActionKind};

const WIDTH: [usize; 10] = [3, 4, 2, 2, 6, 3, 5, 13, 4, 5];

// the ten tables, and the indexes of tables 1 and 7
type Lent = [Vec<u32>; 12];

macro_rules! lent {
    ($f:ident $t:ident ($($head:expr),*) ($($tail:expr),*)) => {
        $f($($head,)*
            $t[0].as_ptr(), $t[0].len(), $t[1].as_ptr(), $t[1].len(), $t[2].as_ptr(), $t[2].len(), $t[3].as_ptr(), $t[3].len(), $t[4].as_ptr(), $t[4].len(),
            $t[5].as_ptr(), $t[5].len(), $t[6].as_ptr(), $t[6].len(), $t[7].as_ptr(), $t[7].len(), $t[8].as_ptr(), $t[8].len(), $t[9].as_ptr(), $t[9].len(),
            $t[10].as_ptr(), $t[10].len(), $t[11].as_ptr(), $t[11].len(),
            $($tail),*)
    };
}

// A load, storing and loading back are lent kind 4's tables too, of no length: the sources are of kinds 1 to 3.
macro_rules! lent_all {
    ($f:ident $t:ident ($($head:expr),*) ($($tail:expr),*)) => {{
        let none = [0u32; 1];
        let p = none.as_ptr();
        lent!($f $t ($($head),*) (p, 0, p, 0, p, 0, $($tail),*))
    }};
}

macro_rules! loaded {
    ($t:ident ($($head:expr),*) ($($tail:expr),*)) => { lent_all!(quiltrudder_load $t ($($head),*) ($($tail),*)) };
}

type P = *const u32;

#[rustfmt::skip]
unsafe extern "C" {
    fn quiltrudder_load(src: *const u8, len: usize, kind: u32, a: P, an: usize, b: P, bn: usize, c: P, cn: usize, d: P, dn: usize, e: P, en: usize,
        f: P, fn_: usize, g: P, gn: usize, h: P, hn: usize, i: P, in_: usize, j: P, jn: usize, k: P, kn: usize, l: P, ln: usize, t15: P, n15: usize, t16: P, n16: usize, t17: P, n17: usize, answer: *mut u32);
    fn quiltrudder_report(src: *const u8, len: usize, reading: *const u32, a: P, an: usize, b: P, bn: usize, c: P, cn: usize, d: P, dn: usize, e: P, en: usize,
        f: P, fn_: usize, g: P, gn: usize, h: P, hn: usize, i: P, in_: usize, j: P, jn: usize, k: P, kn: usize, l: P, ln: usize, work: *mut u32, wn: usize, out: *mut u32, on: usize, answer: *mut u32);
    fn quiltrudder_validate(src: *const u8, len: usize, reading: *const u32, a: P, an: usize, b: P, bn: usize, c: P, cn: usize, d: P, dn: usize, e: P, en: usize,
        f: P, fn_: usize, g: P, gn: usize, h: P, hn: usize, i: P, in_: usize, j: P, jn: usize, k: P, kn: usize, l: P, ln: usize, answer: *mut u32);
    fn quiltrudder_faults(src: *const u8, len: usize, reading: *const u32, a: P, an: usize, b: P, bn: usize, c: P, cn: usize, d: P, dn: usize, e: P, en: usize,
        f: P, fn_: usize, g: P, gn: usize, h: P, hn: usize, i: P, in_: usize, j: P, jn: usize, k: P, kn: usize, l: P, ln: usize, out: *mut u32, on: usize, answer: *mut u32);
    fn quiltrudder_mark(src: *const u8, len: usize, reading: *const u32, a: P, an: usize, b: P, bn: usize, c: P, cn: usize, d: P, dn: usize, e: P, en: usize,
        f: P, fn_: usize, g: P, gn: usize, h: P, hn: usize, i: P, in_: usize, j: P, jn: usize, k: P, kn: usize, l: P, ln: usize, work: *mut u32, wn: usize, answer: *mut u32);
    fn quiltrudder_prune(src: *const u8, len: usize, reading: *mut u32, a: P, an: usize, b: P, bn: usize, c: P, cn: usize, d: P, dn: usize, e: P, en: usize,
        f: P, fn_: usize, g: P, gn: usize, h: P, hn: usize, i: P, in_: usize, j: P, jn: usize, k: P, kn: usize, l: P, ln: usize, work: *mut u32, wn: usize, answer: *mut u32);
    fn quiltrudder_store(src: *const u8, len: usize, kind: u32, reading: *const u32, a: P, an: usize, b: P, bn: usize, c: P, cn: usize, d: P, dn: usize, e: P, en: usize,
        f: P, fn_: usize, g: P, gn: usize, h: P, hn: usize, i: P, in_: usize, j: P, jn: usize, k: P, kn: usize, l: P, ln: usize, t15: P, n15: usize, t16: P, n16: usize, t17: P, n17: usize, blocks: *mut u8, bytes: usize, answer: *mut u32);
    fn quiltrudder_load_stored(blocks: *const u8, bytes: usize, src: *mut u8, len: usize, a: P, an: usize, b: P, bn: usize, c: P, cn: usize, d: P, dn: usize, e: P, en: usize,
        f: P, fn_: usize, g: P, gn: usize, h: P, hn: usize, i: P, in_: usize, j: P, jn: usize, k: P, kn: usize, l: P, ln: usize, t15: P, n15: usize, t16: P, n16: usize, t17: P, n17: usize, answer: *mut u32);
}

fn load(kind: u32, src: &[u8], t: &mut Lent) -> u32 {
    let mut o = [0u32; 43];
    unsafe { loaded!(t (src.as_ptr(), src.len(), kind) (o.as_mut_ptr())) };
    o[0]
}

fn ours(kind: u32, src: &[u8], t: &mut Lent, work: &mut [u32], out: &mut [u32]) -> (u32, u32, u32) {
    let (mut o, mut r) = ([0u32; 43], [0u32; 8]);
    unsafe {
        loaded!(t (src.as_ptr(), src.len(), kind) (o.as_mut_ptr()));
        if o[0] == 0 {
            lent!(quiltrudder_report t (src.as_ptr(), src.len(), o.as_ptr()) (work.as_mut_ptr(), work.len(), out.as_mut_ptr(), out.len(), r.as_mut_ptr()));
        }
    }
    (o[0], r[0], r[4])
}

// each operation by itself on the tables as `load` leaves them, in microseconds: load, validate, faults, mark, report, prune, and load into tables for any source
fn single(kind: u32, src: &[u8], t: &mut Lent, work: &mut [u32], out: &mut [u32]) -> [f64; 7] {
    let (mut o, mut r) = ([0u32; 43], [0u32; 43]);
    let (s, n) = (src.as_ptr(), src.len());
    let mut times = [0.0; 7];
    unsafe {
        times[0] = best(|| loaded!(t (s, n, kind) (o.as_mut_ptr())));
        times[1] = best(|| lent!(quiltrudder_validate t (s, n, o.as_ptr()) (r.as_mut_ptr())));
        times[2] = best(|| lent!(quiltrudder_faults t (s, n, o.as_ptr()) (out.as_mut_ptr(), out.len(), r.as_mut_ptr())));
        times[3] = best(|| lent!(quiltrudder_mark t (s, n, o.as_ptr()) (work.as_mut_ptr(), work.len(), r.as_mut_ptr())));
        times[4] = best(|| lent!(quiltrudder_report t (s, n, o.as_ptr()) (work.as_mut_ptr(), work.len(), out.as_mut_ptr(), out.len(), r.as_mut_ptr())));
        // pruning changes the tables, so each run begins with a load, which does not count
        let (given, p) = (&*t, o.as_mut_ptr());
        times[5] = best_behind(|| loaded!(given (s, n, kind) (p)), || lent!(quiltrudder_prune given (s, n, p) (work.as_mut_ptr(), work.len(), r.as_mut_ptr())));
        let mut wide: Lent = std::array::from_fn(|k| vec![0u32; if k < 10 { WIDTH[k] * 65538 } else { 262144 }]);
        let w = &mut wide;
        times[6] = best(|| loaded!(w (s, n, kind) (o.as_mut_ptr())));
    }
    times
}

// load, load_stored and store of a source, into the same tables and a source of as many bytes, in microseconds; and the blocks' bytes. None where what is loaded back is not the reading.
fn catalogued(kind: u32, src: &[u8], t: &mut Lent) -> Option<([f64; 3], usize)> {
    let (mut o, mut r, mut s) = ([0u32; 43], [0u32; 45], [0u32; 8]);
    let (p, n, mut text) = (src.as_ptr(), src.len(), vec![0u8; src.len()]);
    let mut times = [0.0; 3];
    unsafe {
        times[0] = best(|| loaded!(t (p, n, kind) (o.as_mut_ptr())));
        let cells: usize = (0..10).map(|k| o[4 + k] as usize * WIDTH[k]).sum();
        let mut blocks = vec![0u8; (156 + 4 * cells + n).div_ceil(504) * 512];
        times[2] = best(|| lent_all!(quiltrudder_store t (p, n, kind, o.as_ptr()) (blocks.as_mut_ptr(), blocks.len(), s.as_mut_ptr())));
        let read = t.clone();
        times[1] = best(|| lent_all!(quiltrudder_load_stored t (blocks.as_ptr(), blocks.len(), text.as_mut_ptr(), text.len()) (r.as_mut_ptr())));
        (s[0] == 0 && s[4] as usize * 512 == blocks.len() && r[0] == 0 && r[4..41] == o[4..41] && r[43..] == [kind, n as u32] && *t == read && text == src).then_some((times, blocks.len()))
    }
}

fn which(kind: u32) -> YaccKind {
    match kind {
        1 => YaccKind::Original(YaccOriginalActionKind::GenericParseTree),
        2 => YaccKind::Grmtools,
        _ => YaccKind::Eco,
    }
}

fn validated(kind: u32, src: &str) -> bool {
    let mut parser = YaccParser::new(which(kind), src);
    let read = parser.parse().is_ok();
    let mut ast = parser.build();
    read && ast.complete_and_validate().is_ok()
}

fn crates(kind: u32, src: &str) -> (bool, bool, usize) {
    let mut parser = YaccParser::new(which(kind), src);
    let read = parser.parse().is_ok();
    let mut ast = parser.build();
    if !read {
        return (false, false, 0);
    }
    let valid = ast.complete_and_validate().is_ok();
    let unused = if valid { ast.unused_symbols().count() } else { 0 };
    (read, valid, unused)
}

fn best(f: impl FnMut()) -> f64 {
    best_behind(|| {}, f)
}

// the best of several runs of `f`, each behind one of `first`, which does not count
fn best_behind(mut first: impl FnMut(), mut f: impl FnMut()) -> f64 {
    let mut least = f64::MAX;
    let begun = Instant::now();
    let mut runs = 0;
    while runs < 3 || (runs < 200 && begun.elapsed().as_millis() < 300) {
        first();
        let t = Instant::now();
        f();
        least = least.min(t.elapsed().as_secs_f64() * 1e6);
        runs += 1;
    }
    least
}

fn main() {
    println!("| Source | Bytes | parse and validate, µs | load, µs | load / crate | growth from half, crate | load | crate, µs | library, µs | library / crate | growth from half, crate | library |");
    println!("|---|---|---|---|---|---|---|---|---|---|---|---|");
    let mut half = (String::new(), [0.0; 4]);
    let (mut singles, mut stored) = (Vec::new(), Vec::new());
    for word in std::env::args().skip(1) {
        let (kind, file) = word.split_once(':').expect("KIND:FILE");
        let kind: u32 = kind.parse().expect("a kind");
        let src = std::fs::read_to_string(file).expect("a file");
        let rows = src.len() + 2;
        let mut t: Lent = std::array::from_fn(|k| vec![0u32; if k < 10 { WIDTH[k] * rows } else { (2 * rows).next_power_of_two() }]);
        let (mut work, mut out) = (vec![0u32; rows / 16 + 2], vec![0u32; 4 * rows]);
        let (a, b) = (crates(kind, &src), ours(kind, src.as_bytes(), &mut t, &mut work, &mut out));
        // from here on as many rows are lent as the reading has, and one more
        for (k, w) in WIDTH.iter().enumerate() {
            let used = t[k].iter().rposition(|c| *c != 0).map_or(0, |i| i / w + 1);
            t[k].truncate((used + 1) * w);
        }
        for (k, of) in [(10, 0), (11, 6)] {
            t[k].truncate((2 * (t[of].len() / WIDTH[of])).next_power_of_two());
        }
        // and a report of as many rows as there are rules and tokens
        out.truncate(2 * (t[0].len() / WIDTH[0] + t[6].len() / WIDTH[6]));
        let agree = (a.0 && a.1) == (b.0 == 0) && (!a.1 || a.2 as u32 == b.2);
        let times = [
            best(|| {
                std::hint::black_box(validated(kind, &src));
            }),
            best(|| {
                std::hint::black_box(load(kind, src.as_bytes(), &mut t));
            }),
            best(|| {
                std::hint::black_box(crates(kind, &src));
            }),
            best(|| {
                std::hint::black_box(ours(kind, src.as_bytes(), &mut t, &mut work, &mut out));
            }),
        ];
        let name = file.rsplit('/').next().unwrap();
        let is_whole = half.0 == name.replace(".y", "-half.y");
        let pair = |k: usize| {
            let grown = |k: usize| if is_whole { format!("{:.1}", times[k] / half.1[k]) } else { String::new() };
            format!("{:.0} | {:.0} | {:.2} | {} | {}", times[k], times[k + 1], times[k + 1] / times[k], grown(k), grown(k + 1))
        };
        println!("| {name}{} | {} | {} | {} |", if agree { "" } else { " (ANSWERS DIFFER)" }, src.len(), pair(0), pair(2));
        half = (name.to_string(), times);
        singles.push((name.to_string(), single(kind, src.as_bytes(), &mut t, &mut work, &mut out)));
        stored.push((name.to_string(), catalogued(kind, src.as_bytes(), &mut t)));
    }
    println!("\n| Source | load, µs | validate | faults | mark | report | prune | load into tables for any source |");
    println!("|---|---|---|---|---|---|---|---|");
    for (name, times) in singles {
        println!("| {name} | {} |", times.iter().map(|t| format!("{t:.0}")).collect::<Vec<_>>().join(" | "));
    }
    println!("\n| Source | Blocks' bytes | load, µs | load_stored | load_stored / load | store |");
    println!("|---|---|---|---|---|---|");
    for (name, told) in stored {
        match told {
            Some(([load, back, store], bytes)) => println!("| {name} | {bytes} | {load:.0} | {back:.0} | {:.2} | {store:.0} |", back / load),
            None => println!("| {name} (NOT THE SAME WHEN LOADED BACK) | | | | | |"),
        }
    }
    println!("\nTables are lent as the last call left them, with a row more than the reading needs, and the report with as many as there are rules and tokens; an operation clears what it writes itself, and that counts.");
}
