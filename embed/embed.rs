//! embed KIND FILE [BLOCKS [TEXT]]: loads a specification and prints the rules and tokens that nothing uses; or the answer that refuses it, and every
//! fault of a file that does not validate. A third argument is a file that the blocks of what was read go to, and a fourth one that the shipping form of
//! a source of kind 1, 2 or 3 goes to, which has to give the same counts and the same text again.

/// Quiltrudder for Rust. Every function of the library takes any bytes, numbers and lengths, so the wrapper tests nothing: it makes the slices, and
/// the types see to it that what a function writes is lent to it alone.
#[allow(dead_code)]
mod quiltrudder {
    mod c {
        // What `include/quiltrudder.h` declares: a slice is a pointer and a length. The first one is the source, or the blocks that are loaded.
        macro_rules! declare {
            ($($name:ident($($before:ident: $before_type:ty),*; $pointer:ty; $($after:ident: $after_type:ty),*);)*) => {
                extern "C" {
                    $(pub fn $name(
                        src: *const u8, src_length: usize,
                        $($before: $before_type,)*
                        t1: $pointer, t1_length: usize,
                        t2: $pointer, t2_length: usize,
                        t3: $pointer, t3_length: usize,
                        t4: $pointer, t4_length: usize,
                        t5: $pointer, t5_length: usize,
                        t6: $pointer, t6_length: usize,
                        t7: $pointer, t7_length: usize,
                        t8: $pointer, t8_length: usize,
                        t9: $pointer, t9_length: usize,
                        t10: $pointer, t10_length: usize,
                        i1: $pointer, i1_length: usize,
                        i7: $pointer, i7_length: usize,
                        $($after: $after_type,)*
                    );)*
                }
            };
        }
        extern "C" {
            #[rustfmt::skip]
            pub fn quiltrudder_prune(
                src: *const u8, src_length: usize, reading: *mut [u32; 43],
                t1: *mut u32, t1_length: usize, t2: *const u32, t2_length: usize, t3: *mut u32, t3_length: usize, t4: *const u32, t4_length: usize, t5: *mut u32, t5_length: usize,
                t6: *const u32, t6_length: usize, t7: *mut u32, t7_length: usize, t8: *mut u32, t8_length: usize, t9: *mut u32, t9_length: usize, t10: *const u32, t10_length: usize,
                i1: *mut u32, i1_length: usize, i7: *mut u32, i7_length: usize, work: *mut u32, work_length: usize, answer: *mut [u32; 6],
            );
            pub fn quiltrudder_locate(src: *const u8, src_length: usize, at: u32, answer: *mut [u32; 2]);
        }
        declare! {
            quiltrudder_load(kind: u32; *mut u32; t15: *mut u32, t15_length: usize, t16: *mut u32, t16_length: usize, t17: *mut u32, t17_length: usize, answer: *mut [u32; 43]);
            quiltrudder_validate(reading: *const [u32; 43]; *const u32; answer: *mut [u32; 6]);
            quiltrudder_faults(reading: *const [u32; 43]; *const u32; t14: *mut u32, t14_length: usize, answer: *mut [u32; 8]);
            quiltrudder_report(reading: *const [u32; 43]; *const u32; work: *mut u32, work_length: usize, out: *mut u32, out_length: usize, answer: *mut [u32; 8]);
            quiltrudder_mark(reading: *const [u32; 43]; *const u32; work: *mut u32, work_length: usize, answer: *mut [u32; 6]);
            quiltrudder_next_unused(reading: *const [u32; 43]; *const u32; work: *const u32, work_length: usize, at: *mut [u32; 2], answer: *mut [u32; 8]);
            quiltrudder_name(reading: *const [u32; 43]; *const u32; table: u32, row: u32, answer: *mut [u32; 4]);
            quiltrudder_epp_value(reading: *const [u32; 43]; *const u32; row: u32, out: *mut u8, out_length: usize, answer: *mut [u32; 8]);
            quiltrudder_store(
                kind: u32, reading: *const [u32; 43]; *const u32;
                t15: *const u32, t15_length: usize, t16: *const u32, t16_length: usize, t17: *const u32, t17_length: usize, blocks: *mut u8, blocks_length: usize, answer: *mut [u32; 8]
            );
            quiltrudder_load_stored(
                text: *mut u8, text_length: usize; *mut u32;
                t15: *mut u32, t15_length: usize, t16: *mut u32, t16_length: usize, t17: *mut u32, t17_length: usize, answer: *mut [u32; 45]
            );
            quiltrudder_ship(kind: u32; *mut u32; out: *mut u8, out_length: usize, answer: *mut [u32; 45]);
        }
    }

    /// The widths of the rows of tables 1 to 10, and of tables 15 to 17, which kind 4 fills.
    const WIDTHS: [usize; 10] = [3, 4, 2, 2, 6, 3, 5, 13, 4, 5];
    const POSIX_WIDTHS: [usize; 3] = [4, 3, 3];

    /// The row of a symbol whose name is that of no rule or token.
    const NO_ROW: u32 = 4294967295;

    /// A line and a byte column, both from 1.
    #[derive(Clone, Copy, Debug, PartialEq)]
    pub struct Spot {
        pub line: u32,
        pub column: u32,
    }

    /// Number, place and table number, and line and column of the place's start; the number is 0 unless it is a refusal's.
    #[derive(Clone, Copy, Debug, PartialEq)]
    pub struct Answer {
        pub number: u32,
        pub from: u32,
        pub to: u32,
        pub table: u32,
        pub spot: Spot,
    }

    /// Line and column are the last two numbers of every answer.
    fn answer<const N: usize>(cells: [u32; N]) -> Answer {
        let spot = Spot { line: cells[N - 2], column: cells[N - 1] };
        Answer { number: cells[0], from: cells[1], to: cells[2], table: cells[3], spot }
    }

    /// Line and column of a place, for those in rows.
    pub fn locate(src: &[u8], at: u32) -> Spot {
        let mut cells = [0; 2];
        unsafe { c::quiltrudder_locate(src.as_ptr(), src.len(), at, &mut cells) };
        Spot { line: cells[0], column: cells[1] }
    }

    fn count(cells: [u32; 8]) -> usize {
        (u64::from(cells[4]) + (u64::from(cells[5]) << 32)) as usize
    }

    /// A test of validation that fails: its number, and where to look.
    #[derive(Clone, Copy, Debug, PartialEq)]
    pub struct Fault {
        pub number: u32,
        pub from: u32,
        pub to: u32,
    }

    /// A row of table 7 or of table 1.
    #[derive(Clone, Copy, Debug, PartialEq)]
    pub enum Row {
        Rule(u32),
        Token(u32),
    }

    /// A source, its kind and what was read of it: ten tables, and the indexes of tables 1 and 7; beside them tables 15 to 17.
    #[derive(Debug)]
    pub struct Reading<'a> {
        src: &'a [u8],
        kind: u32,
        cells: [u32; 43],
        lent: [Vec<u32>; 12],
        posix: [Vec<u32>; 3],
    }

    /// What kind 4 has besides: a name's tag, a token's number, a text that is taken over whole (1 `%{`, 2 `%union`). All are parts of the source.
    #[derive(Clone, Copy, Debug, PartialEq)]
    pub struct Tag<'a> {
        pub name: &'a [u8],
        pub tag: &'a [u8],
    }

    #[derive(Clone, Copy, Debug, PartialEq)]
    pub struct TokenNumber<'a> {
        pub name: &'a [u8],
        pub number: u32,
    }

    #[derive(Clone, Copy, Debug, PartialEq)]
    pub struct Body<'a> {
        pub sort: u32,
        pub text: &'a [u8],
    }

    /// Goes from one unused row to the next, in the report's order, without a list: the work bits, and how many rule rows and token rows were passed.
    pub struct Unused<'r, 'a> {
        reading: &'r Reading<'a>,
        work: Vec<u32>,
        at: [u32; 2],
    }

    /// Calls a function of the library on a source, some arguments, ten tables with two indexes and further arguments.
    macro_rules! call {
        ($name:ident, $src:expr, ($($before:expr),*), $lent:expr, $pointer:ident, ($($after:expr),*)) => {{
            let [t1, t2, t3, t4, t5, t6, t7, t8, t9, t10, i1, i7] = $lent;
            unsafe {
                c::$name(
                    $src.as_ptr(), $src.len(), $($before,)*
                    t1.$pointer(), t1.len(), t2.$pointer(), t2.len(), t3.$pointer(), t3.len(), t4.$pointer(), t4.len(), t5.$pointer(), t5.len(),
                    t6.$pointer(), t6.len(), t7.$pointer(), t7.len(), t8.$pointer(), t8.len(), t9.$pointer(), t9.len(), t10.$pointer(), t10.len(),
                    i1.$pointer(), i1.len(), i7.$pointer(), i7.len(),
                    $($after,)*
                )
            }
        }};
    }

    /// Tables 1 to 10 with room for so many rows each, and indexes that are large enough for them.
    fn lend(rows: [usize; 10]) -> [Vec<u32>; 12] {
        let slots = |table: usize| (2 * rows[table - 1]).next_power_of_two();
        std::array::from_fn(|k| vec![0; if k < 10 { rows[k] * WIDTHS[k] } else { slots([1, 7][k - 10]) }])
    }

    fn lend_posix(rows: [usize; 3]) -> [Vec<u32>; 3] {
        std::array::from_fn(|k| vec![0; rows[k] * POSIX_WIDTHS[k]])
    }

    /// Reads a source of kind 1, 2, 3 or 4 and validates what was read, with room for so many rows in each table, and indexes that are large enough.
    pub fn load(src: &[u8], kind: u32, rows: usize) -> Reading<'_> {
        let mut cells = [0; 43];
        let mut lent = lend([rows; 10]);
        let mut posix = lend_posix([if kind == 4 { rows } else { 0 }; 3]);
        let [t15, t16, t17] = &mut posix;
        call!(
            quiltrudder_load, src, (kind), &mut lent, as_mut_ptr,
            (t15.as_mut_ptr(), t15.len(), t16.as_mut_ptr(), t16.len(), t17.as_mut_ptr(), t17.len(), &mut cells)
        );
        Reading { src, kind, cells, lent, posix }
    }

    /// Reads back what was stored in blocks; the source goes into `src`. Lent is what the head of the first block asks for, but no more than the
    /// blocks can hold: a head that asks for more is refused.
    pub fn load_stored<'a>(blocks: &[u8], src: &'a mut Vec<u8>) -> Result<Reading<'a>, Answer> {
        let head = |cell: usize| blocks.get(4 + 4 * cell..8 + 4 * cell).map_or(0, |b| u32::from_le_bytes([b[0], b[1], b[2], b[3]]) as usize);
        let mut cells = [0; 45];
        let mut lent = lend(std::array::from_fn(|k| head(k).min(blocks.len() / 4 / WIDTHS[k])));
        let mut posix = lend_posix(std::array::from_fn(|k| head(10 + k).min(blocks.len() / 4 / POSIX_WIDTHS[k])));
        src.clear();
        src.resize(head(13).min(blocks.len()), 0);
        let [t15, t16, t17] = &mut posix;
        call!(
            quiltrudder_load_stored, blocks, (src.as_mut_ptr(), src.len()), &mut lent, as_mut_ptr,
            (t15.as_mut_ptr(), t15.len(), t16.as_mut_ptr(), t16.len(), t17.as_mut_ptr(), t17.len(), &mut cells)
        );
        let (kind, cells) = (cells[43], std::array::from_fn(|k| cells[k]));
        if cells[0] != 0 {
            return Err(answer(cells));
        }
        Ok(Reading { src, kind, cells, lent, posix })
    }

    /// Reads a source of kind 1, 2 or 3, with room for so many rows in each table, and writes it again into `out`, without comments and in one form; the
    /// bytes behind that are zero. Gives what was read, and how many bytes were sent, or what refuses that: then `out` is zero. 65,536 bytes are always
    /// enough. Nothing is validated.
    pub fn ship<'a>(src: &'a [u8], kind: u32, rows: usize, out: &mut [u8]) -> (Reading<'a>, Result<usize, Answer>) {
        let mut cells = [0; 45];
        let mut lent = lend([rows; 10]);
        call!(quiltrudder_ship, src, (kind), &mut lent, as_mut_ptr, (out.as_mut_ptr(), out.len(), &mut cells));
        let sent = (u64::from(cells[43]) + (u64::from(cells[44]) << 32)) as usize;
        let reading = Reading { src, kind, cells: std::array::from_fn(|k| cells[k]), lent, posix: lend_posix([0; 3]) };
        let answer = reading.answer();
        (reading, if answer.number == 0 { Ok(sent) } else { Err(answer) })
    }

    impl<'a> Reading<'a> {
        /// That of the load; after `load_stored` it is 0, and `validate` says whether what was stored is valid; after `ship` it is the shipping's.
        pub fn answer(&self) -> Answer {
            answer(self.cells)
        }

        pub fn kind(&self) -> u32 {
            self.kind
        }

        pub fn source(&self) -> &'a [u8] {
            self.src
        }

        /// Writes the reading and its source into blocks, of which there are as many as it takes.
        pub fn store(&self) -> Result<Vec<u8>, Answer> {
            let rows = self.used().iter().map(|rows| 4 * rows.len()).sum::<usize>();
            let mut blocks = vec![0u8; (156 + rows + self.src.len()).div_ceil(504) * 512];
            let mut cells = [0; 8];
            let [t15, t16, t17] = &self.posix;
            call!(
                quiltrudder_store, self.src, (self.kind, &self.cells), &self.lent, as_ptr,
                (t15.as_ptr(), t15.len(), t16.as_ptr(), t16.len(), t17.as_ptr(), t17.len(), blocks.as_mut_ptr(), blocks.len(), &mut cells)
            );
            if cells[0] != 0 {
                return Err(answer(cells));
            }
            Ok(blocks)
        }

        /// The rows of all thirteen tables, without the room behind them.
        fn used(&self) -> [&[u32]; 13] {
            std::array::from_fn(|k| match k.checked_sub(10) {
                None => &self.lent[k][..self.cells[4 + k] as usize * WIDTHS[k]],
                Some(p) => &self.posix[p][..self.cells[38 + p] as usize * POSIX_WIDTHS[p]],
            })
        }

        /// The bytes of a place that stands in a row.
        fn part(&self, row: &[u32]) -> &'a [u8] {
            &self.src[row[0] as usize..row[1] as usize]
        }

        fn posix_rows(&self, k: usize) -> impl Iterator<Item = &[u32]> {
            self.posix[k].chunks(POSIX_WIDTHS[k]).take(self.cells[38 + k] as usize)
        }

        /// The tag of each word that has one, in order.
        pub fn tags(&self) -> Vec<Tag<'a>> {
            self.posix_rows(0).map(|row| Tag { name: self.part(row), tag: self.part(&row[2..]) }).collect()
        }

        /// The number of each token that is given one, in order.
        pub fn token_numbers(&self) -> Vec<TokenNumber<'a>> {
            self.posix_rows(1).map(|row| TokenNumber { name: self.part(row), number: row[2] }).collect()
        }

        /// What stands in each `%{ %}` and each `%union`, in order.
        pub fn bodies(&self) -> Vec<Body<'a>> {
            self.posix_rows(2).map(|row| Body { sort: row[0], text: self.part(&row[1..]) }).collect()
        }

        /// How many rows table 1 to 10 has.
        pub fn rows(&self, table: usize) -> u32 {
            self.cells[3 + table]
        }

        /// What a symbol names: its rule or its token, if there is one.
        pub fn symbol(&self, symbol: u32) -> Option<Row> {
            let row = self.lent[8].chunks(WIDTHS[8]).take(self.rows(9) as usize).nth(symbol as usize)?;
            match (row[0], row[3]) {
                (_, NO_ROW) => None,
                (1, rule) => Some(Row::Rule(rule)),
                (_, token) => Some(Row::Token(token)),
            }
        }

        /// Validation by itself, as for tables from elsewhere.
        pub fn validate(&self) -> Answer {
            let mut cells = [0; 6];
            call!(quiltrudder_validate, self.src, (&self.cells), &self.lent, as_ptr, (&mut cells));
            answer(cells)
        }

        /// Every fault, in the order of the tests: one for the start, and one for each row of tables 5, 6, 8 and 9 at most.
        pub fn faults(&self) -> Result<Vec<Fault>, Answer> {
            let tests = 1 + [5, 6, 8, 9].map(|table| self.rows(table) as usize).iter().sum::<usize>();
            let mut t14 = vec![0u32; tests * 3];
            let mut cells = [0; 8];
            call!(quiltrudder_faults, self.src, (&self.cells), &self.lent, as_ptr, (t14.as_mut_ptr(), t14.len(), &mut cells));
            if cells[0] != 0 {
                return Err(answer(cells));
            }
            let fault = |row: &[u32]| Fault { number: row[0], from: row[1], to: row[2] };
            Ok(t14.chunks(3).take(count(cells)).map(fault).collect())
        }

        /// The rules and tokens that nothing uses, in order.
        pub fn report(&self) -> Result<Vec<Row>, Answer> {
            let (rules, tokens) = (self.rows(7) as usize, self.rows(1) as usize);
            let mut work = vec![0u32; rules.div_ceil(32) + tokens.div_ceil(32)];
            let mut out = vec![0u32; (rules + tokens) * 2];
            let mut cells = [0; 8];
            call!(
                quiltrudder_report, self.src, (&self.cells), &self.lent, as_ptr,
                (work.as_mut_ptr(), work.len(), out.as_mut_ptr(), out.len(), &mut cells)
            );
            if cells[0] != 0 {
                return Err(answer(cells));
            }
            let unused = |row: &[u32]| if row[0] == 1 { Row::Rule(row[1]) } else { Row::Token(row[1]) };
            Ok(out.chunks(2).take(count(cells)).map(unused).collect())
        }

        /// The same one by one.
        pub fn unused(&self) -> Result<Unused<'_, 'a>, Answer> {
            let mut work = vec![0u32; (self.rows(7) as usize).div_ceil(32) + (self.rows(1) as usize).div_ceil(32)];
            let mut cells = [0; 6];
            call!(quiltrudder_mark, self.src, (&self.cells), &self.lent, as_ptr, (work.as_mut_ptr(), work.len(), &mut cells));
            if cells[0] != 0 {
                return Err(answer(cells));
            }
            Ok(Unused { reading: self, work, at: [0; 2] })
        }

        /// Drops the rows that nothing keeps. Says which rules and tokens stayed, by their old rows; after a refusal nothing has changed.
        pub fn prune(&mut self) -> Result<Vec<Row>, Answer> {
            let (rules, tokens) = (self.rows(7), self.rows(1));
            let words = |rows: u32| (rows as usize).div_ceil(32);
            let mut work = vec![0u32; words(rules) + words(tokens)];
            let mut cells = [0; 6];
            call!(quiltrudder_prune, self.src, (&mut self.cells), &mut self.lent, as_mut_ptr, (work.as_mut_ptr(), work.len(), &mut cells));
            if cells[0] != 0 {
                return Err(answer(cells));
            }
            let stayed = |first: usize, row: u32| work[first + row as usize / 32] >> (row % 32) & 1 == 1;
            let tokens = (0..tokens).filter(|&row| stayed(words(rules), row)).map(Row::Token);
            Ok((0..rules).filter(|&row| stayed(0, row)).map(Row::Rule).chain(tokens).collect())
        }

        /// The place of the name of a row of table 1 or 7.
        pub fn name_place(&self, table: u32, row: u32) -> (u32, u32) {
            let mut cells = [0; 4];
            call!(quiltrudder_name, self.src, (&self.cells), &self.lent, as_ptr, (table, row, &mut cells));
            (cells[0], cells[1])
        }

        /// The name, as the part of the source that it is.
        pub fn name(&self, table: u32, row: u32) -> &'a [u8] {
            let (from, to) = self.name_place(table, row);
            &self.src[from as usize..to as usize]
        }

        /// The value of a row of table 5 without its quotes and escapes.
        pub fn epp_value(&self, row: u32) -> Result<Vec<u8>, Answer> {
            let mut out = vec![0u8; self.src.len()];
            let mut cells = [0; 8];
            call!(quiltrudder_epp_value, self.src, (&self.cells), &self.lent, as_ptr, (row, out.as_mut_ptr(), out.len(), &mut cells));
            if cells[0] != 0 {
                return Err(answer(cells));
            }
            out.truncate(count(cells));
            Ok(out)
        }
    }

    /// Equal kind, source, counts, singles and rows, whatever room was lent: those that give equal blocks. The indexes follow from the rows.
    impl PartialEq for Reading<'_> {
        fn eq(&self, other: &Self) -> bool {
            (self.kind, self.src, &self.cells[4..41], self.used()) == (other.kind, other.src, &other.cells[4..41], other.used())
        }
    }

    impl Iterator for Unused<'_, '_> {
        type Item = Row;

        /// Behind the last row it says the end for ever.
        fn next(&mut self) -> Option<Row> {
            let (reading, mut cells) = (self.reading, [0; 8]);
            call!(
                quiltrudder_next_unused, reading.src, (&reading.cells), &reading.lent, as_ptr,
                (self.work.as_ptr(), self.work.len(), &mut self.at, &mut cells)
            );
            match (cells[4], cells[5]) {
                (1, rule) => Some(Row::Rule(rule)),
                (2, token) => Some(Row::Token(token)),
                _ => None,
            }
        }
    }
}

use quiltrudder::{Answer, Reading, Row};

fn print_answer(a: Answer) {
    println!("answer {} {} {}", a.number, a.from, a.to);
}

fn print_report(reading: &Reading) {
    let answer = reading.answer();
    if answer.number != 0 {
        print_answer(answer);
        if (30..=35).contains(&answer.number) {
            for fault in reading.faults().unwrap_or_default() {
                let spot = quiltrudder::locate(reading.source(), fault.from);
                println!("fault {} {} {} {} {}", fault.number, fault.from, fault.to, spot.line, spot.column);
            }
        }
        return;
    }
    match reading.unused() {
        Err(refused) => print_answer(refused),
        Ok(unused) => {
            print_answer(answer);
            for row in unused {
                let (word, (from, to)) = match row {
                    Row::Rule(r) => ("rule", reading.name_place(7, r)),
                    Row::Token(r) => ("token", reading.name_place(1, r)),
                };
                println!("{word} {from} {to}");
            }
        }
    }
}

/// The text of a source that was loaded, if it is shipped; loaded in turn it has to give the same counts, and shipped the same text.
fn shipped(loaded: &Reading) -> Option<Vec<u8>> {
    let (mut text, mut again) = (vec![0; 65536], vec![0; 65536]);
    let (_, sent) = quiltrudder::ship(loaded.source(), loaded.kind(), 1024, &mut text);
    text.truncate(sent.ok()?);
    let back = quiltrudder::load(&text, loaded.kind(), 1024);
    assert_eq!(back.answer().number, loaded.answer().number);
    assert!((1..=10).all(|table| back.rows(table) == loaded.rows(table)), "other counts");
    let (_, sent) = quiltrudder::ship(&text, loaded.kind(), 1024, &mut again);
    again.truncate(sent.expect("a text that was sent is shipped"));
    assert_eq!(text, again);
    Some(text)
}

fn main() {
    let args: Vec<String> = std::env::args().collect();
    let given = match args.as_slice() {
        [_, kind, file] | [_, kind, file, _] | [_, kind, file, _, _] => kind.parse().ok().zip(std::fs::read(file).ok()),
        _ => None,
    };
    let Some((kind, src)) = given else {
        return eprintln!("usage: embed KIND FILE [BLOCKS [TEXT]]");
    };
    let reading = quiltrudder::load(&src, kind, 1024);
    // all of the source was read, be it valid or not
    if let (0 | 20..=35, Some(path)) = (reading.answer().number, args.get(3)) {
        let blocks = reading.store().expect("a reading can be stored");
        std::fs::write(path, blocks).expect("the blocks can be written");
    }
    if let (Some(text), Some(path)) = (shipped(&reading), args.get(4)) {
        std::fs::write(path, text).expect("the text can be written");
    }
    print_report(&reading);
}

#[cfg(test)]
mod tests {
    use super::quiltrudder::{load, load_stored, locate, ship, Answer, Body, Reading, Row, Spot, Tag, TokenNumber};

    #[test]
    fn kind_4_has_tags_numbers_and_bodies() {
        let src = b"%{a%}%union{b}%token<t>A 300'b'%%s:A'b';";
        let reading = load(src, 4, 16);
        assert_eq!(reading.answer().number, 0);
        assert_eq!(reading.tags(), [Tag { name: b"A", tag: b"t" }, Tag { name: b"b", tag: b"t" }]);
        assert_eq!(reading.token_numbers(), [TokenNumber { name: b"A", number: 300 }]);
        assert_eq!(reading.bodies(), [Body { sort: 1, text: b"a" }, Body { sort: 2, text: b"b" }]);
        assert_eq!(load(b"%type<t", 4, 16).answer().number, 50);
        assert_eq!(load(b"%union{}%%s:;", 1, 16).answer().number, 12);
    }

    #[test]
    fn names_are_parts_of_the_source() {
        let src = b"%token A%%s:A 'b c';";
        let reading = load(src, 1, 8);
        assert_eq!(reading.validate().number, 0);
        assert_eq!(reading.name(1, 0), b"A");
        assert_eq!(reading.name(1, 1), b"b c");
        assert_eq!(reading.name(7, 0), b"s");
        assert_eq!(reading.name(1, 2), b"");
        assert_eq!(reading.name(8, 0), b"");
    }

    #[test]
    fn symbols_know_their_rows() {
        let reading = load(b"%%s:t 'a' u;t:;", 1, 8);
        let rows: Vec<_> = (0..4).map(|symbol| reading.symbol(symbol)).collect();
        assert_eq!(rows, [Some(Row::Rule(1)), Some(Row::Token(0)), None, None]);
    }

    #[test]
    fn values_are_without_quotes_and_escapes() {
        let src = b"%epp A \"x\\\"y\"%%s:'A';";
        let reading = load(src, 1, 8);
        assert_eq!(reading.rows(5), 1);
        assert_eq!(reading.epp_value(0).unwrap(), b"x\"y");
        assert_eq!(reading.epp_value(1).unwrap_err().number, 44);
    }

    #[test]
    fn faults_are_listed_in_the_order_of_the_tests() {
        let src = b"%start q%%s:x %prec P;";
        let numbers: Vec<u32> = load(src, 1, 8).faults().unwrap().iter().map(|fault| fault.number).collect();
        assert_eq!(numbers, [31, 34, 32]);
        assert!(load(b"%%s:;", 1, 8).faults().unwrap().is_empty());
    }

    #[test]
    fn places_have_lines_and_columns() {
        let spot = |line, column| Spot { line, column };
        let src = b"%start q\r\n%%\rs: x;\n";
        let reading = load(src, 1, 8);
        assert_eq!((reading.answer().number, reading.answer().spot), (31, spot(1, 8)));
        assert_eq!(reading.report().unwrap_err().spot, spot(1, 8));
        assert_eq!(locate(src, reading.faults().unwrap()[1].from), spot(3, 4));
        assert_eq!([9, 10, 12, 13, 99].map(|at| locate(src, at)), [spot(1, 10), spot(2, 1), spot(2, 3), spot(3, 1), spot(4, 1)]);
        assert_eq!(load(b"%%\ns:;\n", 1, 8).answer().spot, spot(3, 1));
    }

    #[test]
    fn unused_rows_come_one_by_one() {
        let reading = load(b"%token A B%expect-unused q%%s:'x';t:A;u:'y';q:'z';", 1, 16);
        let rows = [Row::Rule(1), Row::Rule(2), Row::Token(0), Row::Token(1), Row::Token(3), Row::Token(4)];
        assert_eq!(reading.report().unwrap(), rows);
        let mut unused = reading.unused().unwrap();
        assert_eq!(unused.by_ref().collect::<Vec<_>>(), rows);
        assert_eq!([unused.next(), unused.next(), unused.next()], [None; 3]);
        assert_eq!(load(b"%%s:x;", 1, 8).unused().err().map(|refused| refused.number), Some(32));
    }

    #[test]
    fn pruning_keeps_what_is_reached_or_excused() {
        let mut reading = load(b"%token A B%avoid_insert 'y'\n%expect-unused q%%s:'x';t:A;u:'y';q:'z';", 1, 16);
        let stayed = [Row::Rule(0), Row::Rule(3), Row::Token(3), Row::Token(4)];
        assert_eq!(reading.prune().unwrap(), stayed);
        assert_eq!([1, 3, 6, 7, 8, 9].map(|table| reading.rows(table)), [2, 0, 1, 2, 2, 2]);
        assert_eq!((reading.name(7, 1), reading.name(1, 1)), (&b"q"[..], &b"z"[..]));
        assert_eq!((reading.validate().number, reading.report().unwrap()), (0, vec![Row::Token(1)]));
        assert_eq!(reading.prune().unwrap(), [Row::Rule(0), Row::Rule(1), Row::Token(0), Row::Token(1)]);
        assert_eq!(load(b"%%s:x;", 1, 8).prune().unwrap_err().number, 32);
    }

    #[test]
    fn a_table_without_room_is_named() {
        let full = load(b"%%s:'a';", 1, 0).answer();
        assert_eq!((full.number, full.table), (42, 7));
    }

    /// Valid and invalid ones, one with repeats, and each kind.
    const READ: [(&[u8], u32); 7] = [
        (b"%%s:;", 1),
        (b"%token A B\n%left 'x' A\n%epp A \"a\"\n%expect 3\n%expect-unused q%%s:'x' s|%prec A;t:A;q:'z' {act};%%rest", 1),
        (b"%start q%%s:x %prec P;", 1),
        (b"%left 'a'\n%left 'b' 'a'\n%%s:'a';", 1),
        (b"%parse-param p: u32\n%%s -> T:'a';u -> U:;", 2),
        (b"%avoid_insert 'a'\n%implicit_tokens W X\n%%s:'a';", 3),
        (b"%{a%}%union{b}%token<t>A 300'b'\n%type<u>s%%s:A'b';", 4),
    ];

    fn number_of(blocks: &[u8]) -> Option<(u32, u32)> {
        load_stored(blocks, &mut Vec::new()).err().map(|refused: Answer| (refused.number, refused.table))
    }

    #[test]
    fn stored_readings_come_back() {
        for (src, kind) in READ {
            let reading = load(src, kind, 16);
            assert!(matches!(reading.answer().number, 0 | 20..=27 | 30..=35), "{:?}", reading.answer());
            let blocks = reading.store().unwrap();
            let mut text = b"rubbish that is longer than any source here, so that none of it may stay behind what is read back ".repeat(9);
            let back = load_stored(&blocks, &mut text).unwrap();
            assert_eq!((back.kind(), back.source(), back.answer().number), (kind, src, 0));
            assert_eq!(back, reading);
            assert_eq!((back.validate(), back.faults(), back.report()), (reading.validate(), reading.faults(), reading.report()));
            assert_eq!((back.tags(), back.token_numbers(), back.bodies()), (reading.tags(), reading.token_numbers(), reading.bodies()));
            assert_eq!(back.store().unwrap(), blocks);
        }
    }

    #[test]
    fn equal_readings_give_equal_blocks() {
        for (src, kind) in READ {
            assert_eq!(load(src, kind, 16).store(), load(&src.to_vec(), kind, 99).store());
        }
        let of = |src, kind| load(src, kind, 8).store().unwrap();
        assert_ne!(of(b"%%s:;", 1), of(b"%%s:;", 3));
        assert_ne!(of(b"%%s:;", 1), of(b"%%t:;", 1));
        assert_ne!(load(b"%%s:;", 1, 8), load(b"%%s:;", 3, 8));
    }

    #[test]
    fn what_is_pruned_is_stored_as_it_is() {
        let mut reading = load(b"%token A%%s:'x';t:A;", 1, 8);
        let whole = reading.store().unwrap();
        reading.prune().unwrap();
        let (blocks, mut text) = (reading.store().unwrap(), Vec::new());
        assert_ne!(blocks, whole);
        let back = load_stored(&blocks, &mut text).unwrap();
        assert_eq!((back.rows(7), back.rows(1), back.name(1, 0)), (1, 1, &b"x"[..]));
        assert_eq!(back, reading);
    }

    #[test]
    fn an_altered_byte_is_refused() {
        for (src, kind) in READ {
            let mut blocks = load(src, kind, 16).store().unwrap();
            for at in 0..blocks.len() {
                for bits in [1, 0x80, 0xff] {
                    blocks[at] ^= bits;
                    assert_eq!(number_of(&blocks), Some((if at % 512 < 4 { 61 } else { 62 }, 0)));
                    blocks[at] ^= bits;
                }
            }
            assert_eq!(number_of(&blocks), None);
        }
    }

    #[test]
    fn blocks_that_are_cut_or_too_many_are_refused() {
        for (src, kind) in READ {
            let blocks = load(src, kind, 16).store().unwrap();
            for length in 0..blocks.len() {
                assert_eq!(number_of(&blocks[..length]), Some((if length == 0 || length % 512 != 0 { 60 } else { 63 }, 0)));
            }
            assert_eq!(number_of(&[&blocks[..], &blocks[..512]].concat()), Some((61, 0)));
        }
    }

    #[test]
    fn no_kind_no_blocks() {
        let refused = load(b"%%s:;", 5, 8).store().unwrap_err();
        assert_eq!((refused.number, refused.table, refused.spot), (43, 0, Spot { line: 1, column: 1 }));
    }

    /// Sources and the texts that they are shipped as.
    const SHIPPED: [(&[u8], u32, &[u8]); 8] = [
        (b"%%", 1, b"%%\n"),
        (b"%token%%", 1, b"%%\n"),
        (b"%tokenA%%s:A;", 3, b"%token A\n%%\ns: A ;\n"),
        (b"/* a */%left'+'\"-\"//b\r\n%expect 01%%s:|s'+'s{ // c\n}|%empty%prec'-';", 1, b"%left '+' \"-\"\n%expect 01\n%%\ns:\n| s '+' s { // c\n}\n| %empty %prec '-' ;\n"),
        (b"%epp'A'\"x\\\"\"%token A\n%%s:'A' q;%% // rest", 1, b"%epp 'A' \"x\\\"\"\n%token A\n%%\ns: 'A' q ;\n%%\n"),
        (b"%%s:;%%/**/ rest\r\n", 1, b"%%\ns: ;\n%%\nrest\r\n"),
        (b"%parse-param a: :b\n%%s->u8 :'a'|;t->::T:;", 2, b"%parse-param a: :b\n%%\ns -> u8 : 'a'\n| ;\nt -> ::T: ;\n"),
        (b"%implicit_tokens W X\n%avoid_insert'a'\n%expect-unused%%s:'a';", 3, b"%implicit_tokens W X\n%avoid_insert 'a'\n%%\ns: 'a' ;\n"),
    ];

    /// The names of rules and tokens.
    fn names<'a>(reading: &Reading<'a>) -> Vec<&'a [u8]> {
        [7, 1].iter().flat_map(|&table| (0..reading.rows(table as usize)).map(move |row| reading.name(table, row))).collect()
    }

    /// What shipping answers and leaves in as many bytes, which held something before.
    fn ships(src: &[u8], kind: u32, rows: usize, room: usize) -> (Reading<'_>, Result<usize, Answer>, Vec<u8>) {
        let mut out = vec![0x5a; room];
        let (reading, sent) = ship(src, kind, rows, &mut out);
        (reading, sent, out)
    }

    #[test]
    fn shipped_texts_are_read_and_shipped_alike() {
        for (src, kind, text) in SHIPPED {
            for room in [text.len(), text.len() + 1, 65536] {
                let (reading, sent, out) = ships(src, kind, 16, room);
                assert_eq!((sent, &out[..text.len()]), (Ok(text.len()), text), "{}", String::from_utf8_lossy(&out));
                assert!(out[text.len()..].iter().all(|&byte| byte == 0));
                assert_eq!((reading.answer().number, reading.answer().spot), (0, Spot { line: 1, column: 1 }));
                assert_eq!(reading, load(src, kind, 16));
            }
            let (whole, back) = (load(src, kind, 16), load(text, kind, 16));
            assert_eq!((back.answer().number, names(&back)), (whole.answer().number, names(&whole)));
            assert_eq!([1, 2, 3, 4, 5, 6, 7, 8, 9, 10].map(|table| back.rows(table)), [1, 2, 3, 4, 5, 6, 7, 8, 9, 10].map(|table| whole.rows(table)));
            assert_eq!(ships(text, kind, 16, text.len()).2, text);
        }
    }

    #[test]
    fn no_room_for_a_text() {
        for (src, kind, text) in SHIPPED {
            for room in 0..text.len() {
                let (reading, sent, out) = ships(src, kind, 16, room);
                assert_eq!(sent, Err(Answer { number: 42, from: 0, to: 0, table: 13, spot: Spot { line: 1, column: 1 } }));
                assert_eq!(out, vec![0; room]);
                assert_eq!(reading, load(src, kind, 16));
            }
        }
    }

    #[test]
    fn other_kinds_are_not_shipped() {
        for kind in [0, 4, 5, 1 << 31, u32::MAX] {
            let (reading, sent, out) = ships(b"%token A%%s:A;", kind, 16, 99);
            assert_eq!(sent, Err(Answer { number: 43, from: 0, to: 0, table: 0, spot: Spot { line: 1, column: 1 } }));
            assert_eq!((out, names(&reading)), (vec![0; 99], vec![]));
            assert!((1..=10).all(|table| reading.rows(table) == 0));
        }
    }

    #[test]
    fn what_is_refused_is_not_shipped() {
        // a number of its own, not UTF-8, a repeat, whose reading stays, and no room for a row
        for (src, kind, rows, number) in [(&b"%%\ns:"[..], 1, 8, 4), (b"%epp A x%%", 1, 8, 14), (b"%%s:;\n \xff", 3, 8, 40), (b"%left 'a'\n%left 'b' 'a'\n%%s:'a';", 1, 8, 20), (b"%%s:'a';", 1, 0, 42)] {
            let (reading, sent, out) = ships(src, kind, rows, 99);
            assert_eq!(sent, Err(load(src, kind, rows).answer()));
            assert_eq!((sent.unwrap_err().number, out), (number, vec![0; 99]));
            assert_eq!(reading, load(src, kind, rows));
        }
        // that a start rule is not there is validation's
        assert_eq!((load(b"%%", 1, 8).answer().number, ships(b"%%", 1, 8, 3).1), (30, Ok(3)));
    }

    #[test]
    fn a_text_that_is_too_long_is_not_sent() {
        let source = |bars: usize| ["%%s:", &"|".repeat(bars), ";"].concat().into_bytes();
        let longest = source(32764);
        let (reading, sent, out) = ships(&longest, 1, 65536, 65536);
        assert_eq!((sent, reading.rows(8), &out[65533..]), (Ok(65536), 32765, &b" ;\n"[..]));
        for (source, rows) in [(source(32765), 32766), (source(65531), 65532)] {
            for room in [0, 65536, 1 << 18] {
                let (reading, sent, out) = ships(&source, 1, 65536, room);
                assert_eq!(sent, Err(Answer { number: 41, from: 0, to: 0, table: 0, spot: Spot { line: 1, column: 1 } }));
                assert_eq!((reading.rows(8), out), (rows, vec![0; room]));
            }
        }
    }
}
