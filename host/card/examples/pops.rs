//! Pushes four elements into a tree of order 2 and pops them: 1, 3, 5, 8, then refusal 6.
use card_host::{Element, Length, Rank, Refusal, Tag, TreeQueue};

fn main() -> Result<(), Refusal> {
    let mut queue = TreeQueue::new(2, 2)?;
    for rank in [5, 3, 8, 1] {
        queue.push(Element::new(Rank(rank), Tag(10 * rank), Length(100 * rank)))?;
    }
    let refusal = loop {
        match queue.pop() {
            Ok(x) => println!("out {} {} {}", x.rank.0, x.tag.0, x.length.0),
            Err(refusal) => break refusal,
        }
    };
    println!("refusal {}, {refusal}", refusal.number());
    Ok(())
}
