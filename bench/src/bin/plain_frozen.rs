//! The plain version of the program `frozen`.

fn main() -> std::io::Result<()> {
    bench::plain::program::run(std::io::stdin().lock(), std::io::stdout().lock())
}
