//! A stream of pictures for the two programs.

use crate::chance::Chance;
use crate::pictures::{pixel_bytes, Kind};
use std::fs::File;
use std::io::{BufWriter, Result, Write};
use std::path::{Path, PathBuf};

/// A file of so many frames, removed when it is dropped: fifty of noise, fifty of small changes and fifty still ones by turns.
pub struct Stream(PathBuf);

impl Stream {
    pub fn new(frames: u64, kind: Kind) -> Result<Stream> {
        let name = format!("uprzezar-{}-{frames}-{}.pgm", std::process::id(), kind.maxval);
        let path = std::env::temp_dir().join(name);
        let mut chance = Chance::new(3);
        let mut file = BufWriter::new(File::create(&path)?);
        let mut image = kind.picture(4);
        let raster = image.len() - kind.raster_bytes();
        let bytes = pixel_bytes(kind.maxval);
        // a quarter of all grey levels, as a bit of a pixel's first byte
        let bit = (((kind.maxval + 1) / 4) >> (8 * (bytes - 1))) as u8;
        for frame in 0..frames {
            match frame / 50 % 3 {
                0 => image = kind.picture_with("", &mut chance),
                1 => (0..400).for_each(|_| image[raster + chance.below(kind.pixels()) as usize * bytes] ^= bit),
                _ => {}
            }
            file.write_all(&image)?;
        }
        file.flush()?;
        Ok(Stream(path))
    }

    pub fn path(&self) -> &Path {
        &self.0
    }

    pub fn open(&self) -> Result<File> {
        File::open(&self.0)
    }
}

impl Drop for Stream {
    fn drop(&mut self) {
        // what is left in the folder for temporary files does no harm
        let _ = std::fs::remove_file(&self.0);
    }
}
