//! Finds the patterns of a set in one pass over a text, and shows which one stands where.
use mitongory::{search_set, Bits, Mark, PatternSet, SetOccurrences, Stop, WildBits};
use std::error::Error;

fn main() -> Result<(), Box<dyn Error>> {
    let long: Bits = "011001001000100110100101000101001001".parse()?;
    let words: [WildBits; 4] = ["0100110100".parse()?, "0100??0100".parse()?, "1001".parse()?, "100".parse()?];
    let patterns = words.iter().map(WildBits::pattern).collect::<Result<Vec<_>, _>>()?;
    let (text, set) = (long.text()?, PatternSet::new(patterns)?);

    println!("{long}");
    for (place, number) in SetOccurrences::new(text, &set) {
        println!("{:place$}{}", "", words[number], place = place as usize);
    }

    // The same in bounded calls: a call stops after ten places, or where its list has too few cells for a place.
    let (mut mark, mut list) = (Mark::START, [0; 2 * 4]);
    loop {
        let answer = search_set(text, &set, mark, 10, &mut list)?;
        println!("{} steps, pairs {:?}", answer.steps, list[..2 * answer.occurrences].chunks(2).collect::<Vec<_>>());
        mark = answer.mark;
        match answer.stop {
            Stop::Done => return Ok(()),
            Stop::Full(place) => println!("full at place {place}"),
            Stop::Spent => println!("spent at place {}", mark.place()),
        }
    }
}
