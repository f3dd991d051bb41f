//! A lent run of numbers, held as numbers or in bytes, most significant first.

pub trait Run<N> {
    fn length(&self) -> usize;
    fn at(&self, index: usize) -> N;
}

pub trait RunMut<N>: Run<N> {
    fn put(&mut self, index: usize, number: N);
}

impl<N: Copy> Run<N> for [N] {
    fn length(&self) -> usize {
        self.len()
    }

    fn at(&self, index: usize) -> N {
        self[index]
    }
}

impl<N: Copy> RunMut<N> for [N] {
    fn put(&mut self, index: usize, number: N) {
        self[index] = number;
    }
}

/// Bytes that hold numbers, each decoded when it is asked for.
pub struct InBytes<B>(pub B);

impl<B: AsRef<[u8]>> InBytes<B> {
    fn bytes<const SIZE: usize>(&self, index: usize) -> [u8; SIZE] {
        let bytes = &self.0.as_ref()[SIZE * index..SIZE * index + SIZE];
        bytes.try_into().expect("a number has that many bytes")
    }
}

impl<B: AsRef<[u8]>> Run<u32> for InBytes<B> {
    fn length(&self) -> usize {
        self.0.as_ref().len() / 4
    }

    fn at(&self, index: usize) -> u32 {
        u32::from_be_bytes(self.bytes(index))
    }
}

impl<B: AsRef<[u8]> + AsMut<[u8]>> RunMut<u32> for InBytes<B> {
    fn put(&mut self, index: usize, number: u32) {
        self.0.as_mut()[4 * index..4 * index + 4].copy_from_slice(&number.to_be_bytes());
    }
}

impl<B: AsRef<[u8]>> Run<u64> for InBytes<B> {
    fn length(&self) -> usize {
        self.0.as_ref().len() / 8
    }

    fn at(&self, index: usize) -> u64 {
        u64::from_be_bytes(self.bytes(index))
    }
}

impl<B: AsRef<[u8]> + AsMut<[u8]>> RunMut<u64> for InBytes<B> {
    fn put(&mut self, index: usize, number: u64) {
        self.0.as_mut()[8 * index..8 * index + 8].copy_from_slice(&number.to_be_bytes());
    }
}
