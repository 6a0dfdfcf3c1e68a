//! Stand-in for `blake3`: indices are lent, so no digest is ever used.

pub struct Hasher;

pub struct Hash([u8; 32]);

impl Hasher {
    #[allow(clippy::new_without_default)]
    pub fn new() -> Self {
        Self
    }

    pub fn update(&mut self, _bytes: &[u8]) -> &mut Self {
        self
    }

    pub fn finalize(&self) -> Hash {
        Hash([0; 32])
    }
}

impl Hash {
    pub fn as_bytes(&self) -> &[u8; 32] {
        &self.0
    }
}
