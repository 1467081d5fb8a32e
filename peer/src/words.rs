//! Instruction words: "Formats 1, 3, C: F G X A Y B Z C, 64 bits. Formats 4, 7: F R S T, 32 bits.
//! Format A: F R, eight zero bits, T, 32 bits." A 32-bit word stands in the left half of its holder.

/// What a listed instruction does, as far as steps and checks tell them apart.
#[derive(Clone, Copy, PartialEq, Eq, Debug)]
pub enum Kind {
    Exit,
    /// Registers alone.
    Register,
    /// 12, 13, 7E, 7F: one byte or word of memory.
    Memory,
    Branch,
    Vector,
    Bits,
    Move,
}

#[derive(Clone, Copy, Debug)]
pub struct Row {
    pub code: u8,
    pub name: &'static str,
    pub kind: Kind,
    /// 64 bits long, not 32.
    pub long: bool,
    /// Bits that are to be zero: 6 if one is not.
    pub zero: u64,
    /// Designators (all ones in their bytes) where 00 has no meaning: 7.
    pub named: u64,
}

// The places of the designators, from the left.
pub const G: u64 = 0xFF << 48;
pub const X: u64 = 0xFF << 40;
pub const A: u64 = 0xFF << 32;
pub const Y: u64 = 0xFF << 24;
pub const B: u64 = 0xFF << 16;
pub const Z: u64 = 0xFF << 8;
pub const C: u64 = 0xFF;
pub const R: u64 = G;
pub const S: u64 = X;
pub const T: u64 = A;
const RIGHT: u64 = 0xFFFF_FFFF;

/// Bit i of G, numbered from 0 at the left.
pub const fn g_bit(i: u32) -> u64 {
    (0x80 >> i) << 48
}

/// "G bit 1: 0 stores where the control bit is one, 1 where it is zero."
pub const G1: u64 = g_bit(1);
/// "G bit 3 (4) makes register A (B) itself every source item."
pub const G3: u64 = g_bit(3);
/// Broadcast B of vectors; unsigned comparison of B0-B5.
pub const G4: u64 = g_bit(4);

const fn row(code: u8, name: &'static str, kind: Kind, long: bool, zero: u64, named: u64) -> Row {
    Row { code, name, kind, long, zero, named }
}

const fn short(code: u8, name: &'static str, kind: Kind) -> Row {
    row(code, name, kind, false, RIGHT, R | S | T)
}

const fn format_a(code: u8, name: &'static str) -> Row {
    row(code, name, Kind::Register, false, RIGHT | S, R | T)
}

/// "G bits allowed: 1, 3, 4 for 83, 87, 8A; 1, 3 for 90-92, 98; 1 for 96, 97. X and Y are zero
/// (house); so is B where only A is used."
const fn vector_two(code: u8, name: &'static str) -> Row {
    row(code, name, Kind::Vector, true, G & !(G1 | G3 | G4) | X | Y, A | B | C)
}

const fn vector_one(code: u8, name: &'static str) -> Row {
    row(code, name, Kind::Vector, true, G & !(G1 | G3) | X | Y | B, A | C)
}

const fn vector_half(code: u8, name: &'static str) -> Row {
    row(code, name, Kind::Vector, true, G & !G1 | X | Y | B, A | C)
}

/// "A or X 00 supplies 8000 000000000000; Z 00 supplies zero"; "Y 00 means none".
const fn branch(code: u8, name: &'static str) -> Row {
    row(code, name, Kind::Branch, true, G & !G4, B | C)
}

/// "The function codes, their format and their zero bits stand in one constant table."
pub const TABLE: [Row; 38] = [
    row(0x09, "exit", Kind::Exit, false, RIGHT | R | S | T, 0),
    short(0x12, "load byte", Kind::Memory),
    short(0x13, "store byte", Kind::Memory),
    short(0x14, "bit compress", Kind::Bits),
    short(0x15, "bit merge", Kind::Bits),
    short(0x16, "bit mask", Kind::Bits),
    short(0x2C, "exclusive or", Kind::Register),
    short(0x2D, "and", Kind::Register),
    short(0x2E, "inclusive or", Kind::Register),
    short(0x63, "add low 48", Kind::Register),
    short(0x67, "subtract low 48", Kind::Register),
    format_a(0x70, "truncate"),
    format_a(0x71, "floor"),
    format_a(0x72, "ceiling"),
    format_a(0x76, "contract"),
    format_a(0x77, "rounded contract"),
    format_a(0x78, "transmit"),
    format_a(0x7A, "exponent"),
    short(0x7B, "pack", Kind::Register),
    format_a(0x7C, "left 16"),
    short(0x7E, "load word", Kind::Memory),
    short(0x7F, "store word", Kind::Memory),
    vector_two(0x83, "vector add low 48"),
    vector_two(0x87, "vector subtract low 48"),
    vector_two(0x8A, "vector shift"),
    vector_one(0x90, "vector truncate"),
    vector_one(0x91, "vector floor"),
    vector_one(0x92, "vector ceiling"),
    vector_half(0x96, "vector contract"),
    vector_half(0x97, "vector rounded contract"),
    vector_one(0x98, "vector transmit"),
    branch(0xB0, "add, branch if equal"),
    branch(0xB1, "add, branch if not equal"),
    branch(0xB2, "add, branch if greater or equal"),
    branch(0xB3, "add, branch if less"),
    branch(0xB4, "add, branch if less or equal"),
    branch(0xB5, "add, branch if greater"),
    // "X or Z 00 meaning none"; "the literal byte B (any value)"; "Y and G are zero."
    row(0xF8, "move bytes left", Kind::Move, true, G | Y, A | C),
];

static BY_CODE: [Option<Row>; 256] = {
    let mut by = [None; 256];
    let mut i = 0;
    while i < TABLE.len() {
        by[TABLE[i].code as usize] = Some(TABLE[i]);
        i += 1;
    }
    by
};

/// The row of a code; none: "5, function not in the table".
#[inline]
pub fn listed(code: u8) -> Option<&'static Row> {
    BY_CODE[code as usize].as_ref()
}

impl Row {
    pub fn bits(&self) -> u64 {
        if self.long {
            64
        } else {
            32
        }
    }

    pub fn has_items(&self) -> bool {
        matches!(self.kind, Kind::Vector | Kind::Bits | Kind::Move)
    }

    /// 6: "a bit that is to be zero isn't".
    #[inline]
    pub fn refuses_6(&self, word: u64) -> bool {
        // "G bit 1 with Z 00 is refused 6 (house)."
        word & self.zero != 0 || self.kind == Kind::Vector && word & G1 != 0 && word & Z == 0
    }

    /// 7: "designator 00 (half word 00 or 01) where no meaning is given above".
    #[inline]
    pub fn refuses_7(&self, word: u64) -> bool {
        has_zero_byte(word | !self.named)
            // "76, 77: T a half word"
            || self.code & 0xFE == 0x76 && word & T == 1 << 32
    }
}

#[inline]
fn has_zero_byte(v: u64) -> bool {
    v.wrapping_sub(0x0101_0101_0101_0101) & !v & 0x8080_8080_8080_8080 != 0
}

/// One designator of a word, as a register number.
#[inline]
pub fn designator(word: u64, place: u64) -> u8 {
    ((word & place) >> place.trailing_zeros()) as u8
}
