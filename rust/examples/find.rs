//! Finds a pattern in a text with each method, and shows where it stands; then the same with a field of it wild, and
//! the bits around the end of each occurrence.
use mitongory::{search, Bits, Mark, Method, Occurrences, Scratch, WildBits};
use std::error::Error;

fn main() -> Result<(), Box<dyn Error>> {
    let long: Bits = "011001001000100110100101000101001001".parse()?;
    let short: Bits = "0100110100".parse()?;
    let (text, pattern) = (long.text()?, short.pattern()?);

    let (mut list, mut scratch) = ([0; 64], Scratch::new());
    for &method in Method::ALL {
        match search(text, pattern, method, Mark::START, u32::MAX, &mut list, &mut scratch) {
            Ok(answer) => println!("{method}: {} steps, places {:?}", answer.steps, &list[..answer.occurrences]),
            Err(refusal) => println!("{method}: {refusal}"),
        }
    }

    for place in Occurrences::new(text, pattern, Method::Hash)? {
        println!("{long}\n{:place$}{short}", "", place = place as usize);
    }

    let wild: WildBits = "0100??0100".parse()?;
    let bits = wild.pattern()?.bit_count();
    for place in Occurrences::new(text, wild.pattern()?, Method::Hash)? {
        println!("{long}\n{:place$}{wild}", "", place = place as usize);
        println!("around its end: {}", text.around(place + bits as u32));
    }
    Ok(())
}
