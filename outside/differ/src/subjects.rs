//! What is tested: the proved library and the plain baseline, called alike.

pub struct Subject {
    pub name: &'static str,
    pub judge: fn(&[u8], &mut [u8]) -> u64,
    pub rewrite: fn(&[u8], &mut [u8]) -> u64,
    pub import: fn(&[u8], &mut [u8]) -> u64,
    pub export: fn(&[u8], &mut [u8]) -> u64,
    pub play: fn(&[u8], &[u8], &mut [u8]) -> u64,
}

pub const SUBJECTS: [Subject; 2] = [
    Subject {
        name: "proved",
        judge: boundary::judge,
        rewrite: boundary::rewrite,
        import: boundary::import,
        export: boundary::export,
        play: boundary::play,
    },
    Subject {
        name: "baseline",
        judge: baseline::boundary::judge,
        rewrite: baseline::boundary::rewrite,
        import: baseline::boundary::import,
        export: baseline::boundary::export,
        play: baseline::boundary::play,
    },
];
