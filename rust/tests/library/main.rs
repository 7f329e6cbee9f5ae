//! The crate and the library under it, held to the rules read bit by bit (`rules` and, for sets of patterns,
//! `set_rules`), to a codec written from the file's rules (`codec`) and to marking by sets (`sets`). Every draw comes
//! from one seed, which is printed; `MITONGORY_SEED` sets another.
mod archive;
mod boundary;
mod buffers;
mod codec;
mod eight_bits;
mod files;
mod marking;
mod occurrences;
mod packing;
mod papers;
mod pattern_sets;
mod random;
mod refusals;
mod rows;
mod rules;
mod searches;
mod second_runs;
mod set_occurrences;
mod set_rules;
mod sets;
mod values;
