//! Measures the library beside the standard library and the second program, all in one run, and
//! prints a table. Nothing is demanded of the times: this is no test.

mod descriptors;
mod finding;
mod intake;
mod messages;
mod race;
mod shapes;
mod supplies;
mod table;
mod texts;
mod values;

fn main() {
    let rounds = race::ROUNDS;
    println!("Times are microseconds a call, the best of {rounds} rounds in which all take turns.");
    println!("Buffers are not cleared between calls.");
    println!("A ratio is the other program's time divided by the library's, that is, the speed of");
    println!("the library as a fraction of the other's: 1 is as fast, 0.5 half as fast.");
    println!();
    texts::print();
    println!();
    messages::print();
    println!();
    intake::print();
    println!();
    values::print();
    println!();
    supplies::print();
    println!();
    finding::print();
    println!();
    descriptors::print();
}
