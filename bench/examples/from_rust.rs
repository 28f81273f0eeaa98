use bench::proved;

fn main() {
    let mut ring = [0; 30];
    let mut book = proved::open(600, 1440, 3600, &mut ring).book;
    for _ in 0..40 {
        book = proved::add(book, &mut ring, 250).book;
    }
    let back = proved::far(book, &ring, 3600);
    println!("refusal {}: at least 3600 pixels changed over the last {} frames", back.refusal, back.value);
}
