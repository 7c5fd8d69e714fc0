//! Sets of vectors, one truth value for each number 0 to 255.

#[derive(Clone, PartialEq, Eq)]
pub struct VectorSet {
    member: [bool; 256],
}

impl VectorSet {
    pub fn empty() -> VectorSet {
        VectorSet {
            member: [false; 256],
        }
    }

    pub fn all() -> VectorSet {
        VectorSet {
            member: [true; 256],
        }
    }

    pub fn of(vectors: &[usize]) -> VectorSet {
        let mut set = VectorSet::empty();
        for &v in vectors {
            set.put(v);
        }
        set
    }

    pub fn has(&self, v: usize) -> bool {
        self.member[v]
    }

    pub fn put(&mut self, v: usize) {
        self.member[v] = true;
    }

    pub fn take(&mut self, v: usize) {
        self.member[v] = false;
    }

    pub fn members(&self) -> Vec<usize> {
        (0..256).filter(|&v| self.member[v]).collect()
    }

    pub fn is_empty(&self) -> bool {
        !self.member.contains(&true)
    }

    pub fn highest(&self) -> Option<usize> {
        (0..256).rev().find(|&v| self.member[v])
    }

    pub fn joined(&self, other: &VectorSet) -> VectorSet {
        let mut set = VectorSet::empty();
        for v in 0..256 {
            set.member[v] = self.member[v] || other.member[v];
        }
        set
    }

    pub fn without(&self, other: &VectorSet) -> VectorSet {
        let mut set = VectorSet::empty();
        for v in 0..256 {
            set.member[v] = self.member[v] && !other.member[v];
        }
        set
    }

    /// 6.14
    pub fn register(&self, k: usize) -> u64 {
        let mut value = 0;
        for i in 0..32 {
            if self.member[32 * k + i] {
                value += 2u64.pow(i as u32);
            }
        }
        value
    }

    /// The byte of request A6 (02), told anew from the members: bit k where one of 32k to 32k + 31 is
    /// there.
    pub fn summary(&self) -> u8 {
        let mut byte = 0;
        for k in 0..8 {
            if self.register(k) != 0 {
                byte += 2u8.pow(k as u32);
            }
        }
        byte
    }
}

impl std::fmt::Debug for VectorSet {
    fn fmt(&self, f: &mut std::fmt::Formatter<'_>) -> std::fmt::Result {
        f.debug_set().entries(self.members()).finish()
    }
}
