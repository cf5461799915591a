//! Random numbers, and arguments spoilt with them.

/// The numbers that arguments are drawn by.
pub struct Random(common::Random);

impl Random {
    pub fn new(seed: u64) -> Random {
        Random(common::Random::new(seed))
    }

    pub fn next(&mut self) -> u64 {
        self.0.next()
    }

    /// Of few or many bits, small ones as likely as large ones.
    pub fn wide(&mut self) -> u64 {
        self.0.wide()
    }

    /// A number below n.
    pub fn below(&mut self, n: usize) -> usize {
        self.0.below(n as u64) as usize
    }

    /// A number from one to another.
    pub fn within(&mut self, from: usize, to: usize) -> usize {
        from + self.below(to - from + 1)
    }

    pub fn one_in(&mut self, n: usize) -> bool {
        self.below(n) == 0
    }

    pub fn of<T: Copy>(&mut self, list: &[T]) -> T {
        list[self.below(list.len())]
    }
}

/// A type whose values may be anything that fits it.
pub trait Any: Copy {
    fn any(random: &mut Random) -> Self;
}

macro_rules! any_of_bits {
    ($($kind:ty),*) => { $(impl Any for $kind {
        /// Limits, numbers near 0 and near a power of two, any.
        fn any(random: &mut Random) -> $kind {
            let near = (1u64 << random.below(64)).wrapping_add(random.below(3) as u64).wrapping_sub(1);
            let number = match random.below(6) {
                0 => 0,
                1 => u64::MAX,
                2 => near,
                3 => random.next(),
                4 => random.below(70) as u64,
                _ => random.wide(),
            };
            number as $kind
        }
    })* };
}

any_of_bits!(u8, u16, u32, u64, usize, i32);

impl Any for bool {
    fn any(random: &mut Random) -> bool {
        random.one_in(2)
    }
}

impl Any for f32 {
    fn any(random: &mut Random) -> f32 {
        match random.below(4) {
            0 => f32::from_bits(random.next() as u32),
            1 => random.of(&[0.0, -0.0, 64.0, 64.00001, -1.0, f32::NAN, f32::INFINITY, f32::NEG_INFINITY, f32::MAX, f32::MIN_POSITIVE]),
            _ => random.below(1 << 16) as f32 / 256.0,
        }
    }
}

/// How the arguments of one call are spoilt: none, one of them, or each as it falls.
pub struct Spoiler<'a> {
    pub random: &'a mut Random,
    all: bool,
    victim: usize,
    next: usize,
}

const MOST: usize = 6000;

impl<'a> Spoiler<'a> {
    /// Nothing is spoilt.
    pub fn none(random: &'a mut Random) -> Spoiler<'a> {
        Spoiler { random, all: false, victim: usize::MAX, next: 0 }
    }

    pub fn drawn(random: &'a mut Random) -> Spoiler<'a> {
        let (all, victim) = match random.below(10) {
            0..=2 => (false, usize::MAX),
            3..=7 => (false, random.below(10)),
            _ => (true, 0),
        };
        Spoiler { random, all, victim, next: 0 }
    }

    fn spoils(&mut self) -> bool {
        self.next += 1;
        if self.all {
            self.random.one_in(2)
        } else {
            self.next - 1 == self.victim
        }
    }

    pub fn number<T: Any>(&mut self, number: T) -> T {
        if self.spoils() {
            T::any(self.random)
        } else {
            number
        }
    }

    /// Some numbers others, a length that is another, any numbers, or none.
    pub fn list<T: Any>(&mut self, list: &[T]) -> Vec<T> {
        let mut list = list.to_vec();
        if !self.spoils() {
            return list;
        }
        let random = &mut *self.random;
        match random.below(8) {
            0 => list.truncate(random.below(list.len() + 1)),
            1 => drop(list.pop()),
            2 => (0..random.within(1, 40)).for_each(|_| list.push(T::any(random))),
            3 => list = (0..random.below(MOST)).map(|_| T::any(random)).collect(),
            4 => list = (0..random.below(20)).map(|_| T::any(random)).collect(),
            5 => list.clear(),
            _ => {
                for _ in 0..random.within(1, 4) {
                    // the first numbers decide most
                    let reach = if random.one_in(2) { list.len().min(16) } else { list.len() };
                    if reach > 0 {
                        let k = random.below(reach);
                        list[k] = T::any(random);
                    }
                }
            }
        }
        list
    }
}
