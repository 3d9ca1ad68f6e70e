// An ordinary implementation of both arrangers, written on its own, to measure the proved ones against.

pub const LINES: usize = 1024;
pub const ENDS: usize = 512;
pub const COLOURS: usize = 64;

// No line, in a table of line numbers.
const NONE: u16 = u16::MAX;

#[derive(Clone, Copy, PartialEq, Eq, Debug)]
pub enum Side {
    Left,
    Right,
}

impl Side {
    fn other(self) -> Side {
        match self {
            Side::Left => Side::Right,
            Side::Right => Side::Left,
        }
    }
}

#[derive(Clone, Copy, Debug)]
pub struct Line {
    pub left: u16,
    pub right: u16,
    pub colour: u8,
}

impl Line {
    fn end(&self, side: Side) -> usize {
        match side {
            Side::Left => usize::from(self.left),
            Side::Right => usize::from(self.right),
        }
    }
}

#[derive(Clone, Copy, PartialEq, Eq, Debug)]
pub enum Refusal {
    NotServed,
    TooManyLines,
    EndAbove,
    Crowded(Side, u16),
}

impl Refusal {
    pub fn number(self) -> u8 {
        match self {
            Refusal::NotServed => 23,
            Refusal::TooManyLines => 24,
            Refusal::EndAbove => 25,
            Refusal::Crowded(..) => 26,
        }
    }
}

pub trait Arranger {
    // Whether it colours with c colours.
    fn serves(&self, c: u8) -> bool;

    fn arrange(&mut self, lines: &mut [Line], c: u8) -> Result<(), Refusal>;
}

// Counts the lines at each end, for the tests that come before the colouring.
struct Degrees {
    counts: Box<[[u16; ENDS]; 2]>,
}

impl Degrees {
    fn new() -> Degrees {
        Degrees { counts: Box::new([[0; ENDS]; 2]) }
    }

    fn check(&mut self, lines: &[Line], served: bool, c: u8) -> Result<(), Refusal> {
        if !served {
            return Err(Refusal::NotServed);
        }
        if lines.len() > LINES {
            return Err(Refusal::TooManyLines);
        }
        if lines.iter().any(|l| usize::from(l.left) >= ENDS || usize::from(l.right) >= ENDS) {
            return Err(Refusal::EndAbove);
        }
        let [left, right] = &mut *self.counts;
        left.fill(0);
        right.fill(0);
        let limit = u16::from(c);
        let mut crowded = false;
        for line in lines {
            let l = &mut left[usize::from(line.left)];
            *l += 1;
            crowded |= *l > limit;
            let r = &mut right[usize::from(line.right)];
            *r += 1;
            crowded |= *r > limit;
        }
        if crowded {
            for (side, counts) in [(Side::Left, &*left), (Side::Right, &*right)] {
                if let Some(end) = counts.iter().position(|&n| n > limit) {
                    return Err(Refusal::Crowded(side, end as u16));
                }
            }
        }
        Ok(())
    }
}

// Colours the lines one by one. Where the two ends of a line have no free colour in common, two colours change places
// along a path that leaves the right end.
pub struct Chain {
    degrees: Degrees,
    // the colours in use at each end
    used: Box<[[u64; ENDS]; 2]>,
    // the line with a colour at an end, valid where that colour is in use there; so it is never cleared
    slots: Box<[[[u16; COLOURS]; ENDS]; 2]>,
}

impl Chain {
    pub fn new() -> Chain {
        Chain {
            degrees: Degrees::new(),
            used: Box::new([[0; ENDS]; 2]),
            slots: Box::new([[[NONE; COLOURS]; ENDS]; 2]),
        }
    }

    // Puts the line `k` at the right end in the place of a line coloured `a`, and hands that line on along the path;
    // `b` is free at that end.
    fn displace(&mut self, lines: &mut [Line], k: u16, mut a: usize, mut b: usize) {
        let mut side = Side::Right;
        let mut end = lines[usize::from(k)].end(side);
        let mut moved = std::mem::replace(&mut self.slots[side as usize][end][a], k);
        self.used[side as usize][end] |= 1 << b;
        loop {
            // `moved` had colour a, and takes colour b
            self.slots[side as usize][end][b] = moved;
            let line = &mut lines[usize::from(moved)];
            line.colour = b as u8;
            side = side.other();
            end = line.end(side);
            let next = std::mem::replace(&mut self.slots[side as usize][end][b], moved);
            let used = &mut self.used[side as usize][end];
            if *used >> b & 1 == 0 {
                *used ^= 1 << a | 1 << b;
                return;
            }
            moved = next;
            std::mem::swap(&mut a, &mut b);
        }
    }
}

impl Arranger for Chain {
    fn serves(&self, c: u8) -> bool {
        (1..=64).contains(&c)
    }

    fn arrange(&mut self, lines: &mut [Line], c: u8) -> Result<(), Refusal> {
        self.degrees.check(lines, self.serves(c), c)?;
        let all = u64::MAX >> (64 - c);
        for used in self.used.iter_mut() {
            used.fill(0);
        }
        for k in 0..lines.len() {
            let left = usize::from(lines[k].left);
            let right = usize::from(lines[k].right);
            let free_left = all & !self.used[0][left];
            let free_right = all & !self.used[1][right];
            let common = free_left & free_right;
            let a = if common != 0 {
                let a = common.trailing_zeros() as usize;
                self.slots[1][right][a] = k as u16;
                self.used[1][right] |= 1 << a;
                a
            } else {
                let a = free_left.trailing_zeros() as usize;
                self.displace(lines, k as u16, a, free_right.trailing_zeros() as usize);
                a
            };
            self.slots[0][left][a] = k as u16;
            self.used[0][left] |= 1 << a;
            lines[k].colour = a as u8;
        }
        Ok(())
    }
}

// A line as the splits move it about: its ends, and its number in the input.
#[derive(Clone, Copy)]
struct Item {
    left: u16,
    right: u16,
    line: u16,
}

const BLANK: Item = Item { left: 0, right: 0, line: 0 };

// What one split of lines into two halves works with.
struct Splitter {
    // at each end, the item that waits for a mate; none between splits
    waiting: Box<[[u16; ENDS]; 2]>,
    // the mate of each item on each side
    mates: Box<[[u16; LINES]; 2]>,
    // the half of each item, where it has one
    halves: Box<[Option<bool>; LINES]>,
}

impl Splitter {
    // Pairs the items at each end; at most one at an end stays without a mate.
    fn pair(&mut self, items: &[Item]) {
        for (i, item) in items.iter().enumerate() {
            for (side, end) in [(0, item.left), (1, item.right)] {
                let waiting = &mut self.waiting[side][usize::from(end)];
                let mates = &mut self.mates[side];
                if *waiting == NONE {
                    *waiting = i as u16;
                    mates[i] = NONE;
                } else {
                    mates[i] = *waiting;
                    mates[usize::from(*waiting)] = i as u16;
                    *waiting = NONE;
                }
            }
        }
        for item in items {
            self.waiting[0][usize::from(item.left)] = NONE;
            self.waiting[1][usize::from(item.right)] = NONE;
        }
    }

    // Gives the items along a path from `start` their halves by turns; the first step is to its mate on the side.
    fn follow(&mut self, start: usize, mut side: usize) {
        let mut at = start;
        let mut half = false;
        loop {
            let mate = usize::from(self.mates[side][at]);
            if mate >= LINES || self.halves[mate].is_some() {
                return;
            }
            half = !half;
            self.halves[mate] = Some(half);
            at = mate;
            side = 1 - side;
        }
    }

    // Colours the items with the colours from `first` on, halving them and the colours.
    fn colour(&mut self, items: &mut [Item], spare: &mut [Item], lines: &mut [Line], first: u8, colours: u8) {
        if colours == 1 {
            for item in items.iter() {
                lines[usize::from(item.line)].colour = first;
            }
            return;
        }
        self.pair(items);
        self.halves[..items.len()].fill(None);
        for i in 0..items.len() {
            if self.halves[i].is_none() {
                self.halves[i] = Some(false);
                self.follow(i, 0);
                self.follow(i, 1);
            }
        }
        let mut low = 0;
        let mut high = items.len();
        for (item, half) in items.iter().zip(self.halves.iter()) {
            if *half == Some(true) {
                high -= 1;
                spare[high] = *item;
            } else {
                spare[low] = *item;
                low += 1;
            }
        }
        let (spare_low, spare_high) = spare.split_at_mut(low);
        let (items_low, items_high) = items.split_at_mut(low);
        let colours = colours / 2;
        self.colour(spare_low, items_low, lines, first, colours);
        self.colour(spare_high, items_high, lines, first + colours, colours);
    }
}

// Splits the lines into halves until one colour is left for each part.
pub struct Euler {
    degrees: Degrees,
    splitter: Splitter,
    items: Box<[Item; LINES]>,
    spare: Box<[Item; LINES]>,
}

impl Euler {
    pub fn new() -> Euler {
        Euler {
            degrees: Degrees::new(),
            splitter: Splitter {
                waiting: Box::new([[NONE; ENDS]; 2]),
                mates: Box::new([[NONE; LINES]; 2]),
                halves: Box::new([None; LINES]),
            },
            items: Box::new([BLANK; LINES]),
            spare: Box::new([BLANK; LINES]),
        }
    }
}

impl Arranger for Euler {
    fn serves(&self, c: u8) -> bool {
        c.is_power_of_two() && c <= 64
    }

    fn arrange(&mut self, lines: &mut [Line], c: u8) -> Result<(), Refusal> {
        self.degrees.check(lines, self.serves(c), c)?;
        let items = &mut self.items[..lines.len()];
        for (i, (item, line)) in items.iter_mut().zip(lines.iter()).enumerate() {
            *item = Item { left: line.left, right: line.right, line: i as u16 };
        }
        self.splitter.colour(items, &mut self.spare[..lines.len()], lines, 0, c);
        Ok(())
    }
}

// The lines of the bytes, five bytes to a line: left low, left high, right low, right high, colour.
fn decode(bytes: &[u8]) -> Vec<Line> {
    bytes
        .chunks_exact(5)
        .map(|b| Line {
            left: u16::from_le_bytes([b[0], b[1]]),
            right: u16::from_le_bytes([b[2], b[3]]),
            colour: b[4],
        })
        .collect()
}

// Has the arranger colour the lines in the bytes `times` times, and writes the colours back; 0, or the refusal's number.
fn arrange_bytes(arranger: &mut impl Arranger, bytes: &mut [u8], c: u8, times: u32) -> u8 {
    if bytes.len() % 5 != 0 {
        return 255;
    }
    let mut lines = decode(bytes);
    for _ in 0..times {
        if let Err(refusal) = arranger.arrange(&mut lines, c) {
            return refusal.number();
        }
    }
    for (b, line) in bytes.chunks_exact_mut(5).zip(&lines) {
        b[4] = line.colour;
    }
    0
}

#[inline(never)]
pub fn chain_arrange(bytes: &mut [u8], c: u8, times: u32) -> u8 {
    arrange_bytes(&mut Chain::new(), bytes, c, times)
}

#[inline(never)]
pub fn euler_arrange(bytes: &mut [u8], c: u8, times: u32) -> u8 {
    arrange_bytes(&mut Euler::new(), bytes, c, times)
}
