//! Pictures made by chance, of one byte a pixel and of two, and masks for them.

use crate::chance::Chance;

/// A size and a maxval.
#[derive(Clone, Copy)]
pub struct Kind {
    pub width: u64,
    pub height: u64,
    pub maxval: u64,
}

/// What is measured with one byte a pixel, and with two.
pub const ONE_BYTE: Kind = Kind { width: 160, height: 120, maxval: 255 };
pub const TWO_BYTES: Kind = Kind { width: 120, height: 90, maxval: 4095 };

/// How many bytes a pixel takes.
pub fn pixel_bytes(maxval: u64) -> usize {
    if maxval > 255 { 2 } else { 1 }
}

/// Puts a pixel of so many bytes behind the others, its higher byte first.
pub fn put_pixel(image: &mut Vec<u8>, bytes: usize, pixel: u64) {
    image.extend(&pixel.to_be_bytes()[8 - bytes..]);
}

impl Kind {
    pub fn pixels(self) -> u64 {
        self.width * self.height
    }

    pub fn raster_bytes(self) -> usize {
        self.pixels() as usize * pixel_bytes(self.maxval)
    }

    /// A picture with this comment, or none, behind its first line.
    pub fn picture_with(self, comment: &str, chance: &mut Chance) -> Vec<u8> {
        let Kind { width, height, maxval } = self;
        let mut image = format!("P5\n{comment}{width} {height}\n{maxval}\n").into_bytes();
        for _ in 0..self.pixels() {
            put_pixel(&mut image, pixel_bytes(maxval), chance.below(maxval + 1));
        }
        image
    }

    pub fn picture(self, seed: u64) -> Vec<u8> {
        self.picture_with("", &mut Chance::new(seed))
    }

    /// A mask that is black at these columns and rows.
    fn mask(self, mut black: impl FnMut(u64, u64) -> bool) -> Vec<u8> {
        let Kind { width, height, .. } = self;
        let mut mask = format!("P4\n{width} {height}\n").into_bytes();
        for row in 0..height {
            for left in (0..width).step_by(8) {
                let bits = (left..left + 8).map(|column| column < width && black(column, row));
                mask.push(bits.fold(0, |byte, bit| byte << 1 | u8::from(bit)));
            }
        }
        mask
    }

    pub fn white_mask(self) -> Vec<u8> {
        self.mask(|_, _| false)
    }

    /// Every position is black or white by chance.
    pub fn mask_of_chance(self, seed: u64) -> Vec<u8> {
        let mut chance = Chance::new(seed);
        self.mask(|_, _| chance.one_in(2))
    }

    /// The sky, down to an uneven edge, and the crowns and trunks of two trees.
    pub fn painted_mask(self) -> Vec<u8> {
        let Kind { width, height, .. } = self;
        let crown = width / 9;
        self.mask(|column, row| {
            let sky = height / 4 + (column % 26).abs_diff(13) / 3;
            let tree = |middle: u64| {
                let (aside, off) = (column.abs_diff(middle), row.abs_diff(height / 2));
                aside * aside + off * off < crown * crown || aside < 3 && row > height / 2
            };
            row < sky || tree(width / 5) || tree(width * 5 / 7)
        })
    }
}
