//! The generator, and steps from one float to another.

/// splitmix64.
pub struct Draw(u64);

impl Draw {
    pub fn new(stream: u64) -> Draw {
        Draw(0x005e_ed0d_6873_2000 ^ (stream << 56))
    }

    pub fn bits(&mut self) -> u64 {
        self.0 = self.0.wrapping_add(0x9e37_79b9_7f4a_7c15);
        let z = (self.0 ^ (self.0 >> 30)).wrapping_mul(0xbf58_476d_1ce4_e5b9);
        let z = (z ^ (z >> 27)).wrapping_mul(0x94d0_49bb_1331_11eb);
        z ^ (z >> 31)
    }

    pub fn below(&mut self, n: u64) -> u64 {
        self.bits() % n
    }

    /// A whole number from lo to hi, both included.
    pub fn whole(&mut self, lo: i32, hi: i32) -> i32 {
        lo + self.below((hi - lo + 1) as u64) as i32
    }

    /// 0 or more, below 1.
    pub fn unit(&mut self) -> f64 {
        (self.bits() >> 11) as f64 * power(-53)
    }

    pub fn between(&mut self, lo: f64, hi: f64) -> f64 {
        lo + (hi - lo) * self.unit()
    }

    pub fn coin(&mut self) -> bool {
        self.bits() >> 63 == 1
    }

    pub fn signed(&mut self, x: f64) -> f64 {
        if self.coin() {
            -x
        } else {
            x
        }
    }

    pub fn one_of<T: Copy>(&mut self, list: &[T]) -> T {
        list[self.below(list.len() as u64) as usize]
    }
}

/// 2 to the e, for e in -1022..=1023.
pub fn power(e: i32) -> f64 {
    f64::from_bits(((e + 1023) as u64) << 52)
}

/// x times 2 to the e, for e in -2044..=2046; rounded twice where it is subnormal.
pub fn scaled(x: f64, e: i32) -> f64 {
    x * power(e / 2) * power(e - e / 2)
}

/// x, moved by that many floats.
pub fn stepped(x: f64, steps: i32) -> f64 {
    let mut x = x;
    for _ in 0..steps.abs() {
        x = if steps < 0 { x.next_down() } else { x.next_up() };
    }
    x
}

/// The i-th of the kinds, round and round.
pub fn in_turn<T: Copy>(kinds: &[T], i: u64) -> T {
    kinds[(i % kinds.len() as u64) as usize]
}
