use saltribbon::Duration;

fn main() {
    match Duration::from_unit(90, Duration::MINUTES) {
        Ok(d) => println!("{}.{:09} s", d.secs, d.nanos),
        Err(refusal) => println!("{refusal}"),
    }
}
