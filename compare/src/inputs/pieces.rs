//! The pieces of which random inputs are made.

use super::Writer;
use crate::model::tables::MARKS;

/// Macro codes that definitions and calls meet in: plain, built-in, and codes that no byte of
/// GL or GR calls.
const CODES: [u8; 12] = [0x21, 0x22, 0x23, 0x24, 0x7E, 0x60, 0x61, 0x64, 0x6A, 0x6F, 0x20, 0x00];

/// A weight, and what writes the piece.
type Piece = (usize, fn(&mut Writer));

static PIECES: [Piece; 21] = [
    (16, Writer::kanji),
    (8, Writer::by_a_way),
    (12, Writer::kana),
    (8, Writer::codes),
    (8, Writer::mark),
    (5, Writer::edge),
    (8, Writer::designation),
    (6, Writer::locking_shift),
    (8, Writer::single_shift),
    (6, Writer::size),
    (10, Writer::repeat),
    (4, Writer::space),
    (5, Writer::plain_control),
    (6, Writer::colour),
    (4, Writer::time),
    (4, Writer::control_sequence),
    (5, Writer::unknown_escape),
    (10, Writer::macro_definition),
    (10, Writer::macro_call),
    (2, Writer::macro_control),
    (5, Writer::any),
];

impl Writer {
    /// One piece.
    pub fn piece(&mut self) {
        let mut left = self.random.below(PIECES.iter().map(|(weight, _)| weight).sum());
        for &(weight, write) in &PIECES {
            if left < weight {
                return write(self);
            }
            left -= weight;
        }
    }

    /// Often: some element holds Macro or a random set, and stands in GL or GR.
    pub fn setting(&mut self) {
        match self.random.below(4) {
            0 => self.calls_in_gl(),
            1 => {
                self.designation();
                self.locking_shift();
            }
            _ => {}
        }
    }

    /// A cell of JIS X 0208's rows, in either half.
    fn kanji(&mut self) {
        let code = self.cell();
        self.pair(code);
    }

    /// A cell of JIS X 0208's rows, in GL's form.
    pub(super) fn cell(&mut self) -> [u8; 2] {
        let row = if self.random.once_in(4) {
            self.random.byte(0x21, 0x28)
        } else {
            self.random.byte(0x30, 0x74)
        };
        [row, self.random.byte(0x21, 0x7E)]
    }

    fn kana(&mut self) {
        for _ in 0..self.random.range(1, 4) {
            let code = self.random.byte(0xA1, 0xFE);
            self.put(&[code]);
        }
    }

    fn codes(&mut self) {
        for _ in 0..self.random.range(1, 4) {
            let code = self.random.byte(0x21, 0x7E);
            self.put(&[code]);
        }
    }

    fn mark(&mut self) {
        let (row, cell, _) = self.random.one_of(&MARKS);
        self.pair([row + 0x20, cell + 0x20]);
    }

    /// Rows beside a limit: 8, 9, 15, 16, 84 to 86, 89 to 94, and row 90's gaps.
    fn edge(&mut self) {
        let row = self.random.one_of(&[8, 9, 15, 16, 84, 85, 86, 89, 90, 90, 90, 91, 92, 93, 94]);
        let cell = match self.random.below(3) {
            0 => self.random.byte(43, 86),
            _ => self.random.byte(1, 94),
        };
        self.pair([row + 0x20, cell + 0x20]);
    }

    /// Two bytes in one half, now and then in both.
    fn pair(&mut self, [first, second]: [u8; 2]) {
        let half = self.half();
        let other = if self.random.once_in(20) { half ^ 0x80 } else { half };
        self.put(&[first | half, second | other]);
    }

    /// Any set to any element.
    fn designation(&mut self) {
        let number = self.random.below(32);
        let set = oracle::sets::all().nth(number).expect("32 sets");
        let element = self.random.byte(0, 3);
        self.put(&set.designation(element));
    }

    fn locking_shift(&mut self) {
        let shifts: [&[u8]; 7] = [
            &[0x0F],
            &[0x0E],
            &[0x1B, 0x6E],
            &[0x1B, 0x6F],
            &[0x1B, 0x7C],
            &[0x1B, 0x7D],
            &[0x1B, 0x7E],
        ];
        let shift = self.random.one_of(&shifts);
        self.put(shift);
    }

    /// Often a graphic byte follows; else whatever piece is next.
    fn single_shift(&mut self) {
        let shift = self.random.one_of(&[0x19, 0x1D]);
        self.put(&[shift]);
        match self.random.below(4) {
            0 => {}
            1 => self.kanji(),
            2 => self.kana(),
            _ => self.codes(),
        }
    }

    fn size(&mut self) {
        let any = self.random.byte(0, 0xFF);
        let parameter = self.random.one_of(&[0x60, 0x60, 0x41, 0x44, 0x45, 0x6B, 0x64, 0xE0, any]);
        match self.random.below(4) {
            0 => self.put(&[0x88]),
            1 => self.put(&[0x89]),
            2 => self.put(&[0x8A]),
            _ => self.put(&[0x8B, parameter]),
        }
    }

    pub(super) fn repeat(&mut self) {
        let any = self.random.byte(0, 0xFF);
        let count = self.random.one_of(&[0x40, 0x41, 0x42, 0x43, 0x48, 0x00, 0x80, any]);
        self.put(&[0x98, count]);
    }

    fn space(&mut self) {
        let byte = self.random.one_of(&[0x20, 0x20, 0x0D]);
        self.put(&[byte]);
    }

    /// A byte of C0 or C1, with or without what may be its parameters.
    fn plain_control(&mut self) {
        let control = self.half() | self.random.byte(0, 0x1F);
        self.put(&[control]);
        for _ in 0..self.random.below(3) {
            let parameter = self.random.byte(0x20, 0x7E);
            self.put(&[parameter]);
        }
    }

    /// COL and CDC.
    fn colour(&mut self) {
        let control = self.random.one_of(&[0x90, 0x92]);
        let any = self.random.byte(0, 0xFF);
        let parameter = self.random.one_of(&[0x20, 0x20, 0x48, any]);
        let next = self.random.one_of(&[0x40, any]);
        self.put(&[control, parameter, next]);
    }

    fn time(&mut self) {
        let any = self.random.byte(0, 0xFF);
        let parameter = self.random.one_of(&[0x20, 0x28, 0x29, 0x29, any]);
        self.put(&[0x9D, parameter]);
        self.sequence();
    }

    fn control_sequence(&mut self) {
        self.put(&[0x9B]);
        self.sequence();
    }

    /// Parameters, then a final byte or another.
    fn sequence(&mut self) {
        for _ in 0..self.random.below(4) {
            let parameter = self.random.byte(0x20, 0x3F);
            self.put(&[parameter]);
        }
        let any = self.random.byte(0, 0xFF);
        let last = self.random.byte(0x40, 0x7E);
        let last = self.random.one_of(&[last, last, any]);
        self.put(&[last]);
    }

    /// Intermediates and a last byte at random: mostly unknown.
    fn unknown_escape(&mut self) {
        self.put(&[0x1B]);
        for _ in 0..self.random.below(5) {
            let any = self.random.byte(0x20, 0x2F);
            let intermediate = self.random.one_of(&[0x20, 0x24, 0x28, 0x29, 0x2A, 0x2B, any]);
            self.put(&[intermediate]);
        }
        let (usual, any) = (self.random.byte(0x30, 0x7E), self.random.byte(0, 0xFF));
        let last = self.random.one_of(&[usual, usual, 0x40, 0x42, 0x70, any]);
        self.put(&[last]);
    }

    /// A body of pieces, other definitions begun within included.
    pub(super) fn macro_definition(&mut self) {
        if self.depth > 2 {
            return;
        }
        let (run, code) = (self.random.once_in(2), self.code());
        let length = self.random.one_of(&[0, 1, 1, 2, 6, 12]);
        self.definition(run, code, |body| {
            let start = body.len();
            while body.len() < start + length {
                if body.random.once_in(2) { body.macro_call() } else { body.piece() }
            }
        });
    }

    /// By SS3, or as a bare byte where GL or GR holds Macro.
    pub(super) fn macro_call(&mut self) {
        let code = self.half() | self.code();
        match self.random.below(3) {
            0 => self.put(&[code]),
            _ => self.put(&[0x1D, code]),
        }
    }

    /// 95 with another parameter, an end without a beginning, a beginning without an end.
    fn macro_control(&mut self) {
        let any = self.random.byte(0, 0xFF);
        let parameter = self.random.one_of(&[0x4F, 0x4F, 0x40, 0x41, any]);
        self.put(&[0x95, parameter]);
    }

    fn any(&mut self) {
        for _ in 0..self.random.range(1, 3) {
            let byte = self.random.byte(0, 0xFF);
            self.put(&[byte]);
        }
    }

    /// GL's half or GR's.
    fn half(&mut self) -> u8 {
        self.random.one_of(&[0, 0x80])
    }

    fn code(&mut self) -> u8 {
        self.random.one_of(&CODES)
    }
}
