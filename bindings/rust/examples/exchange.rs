//! Two members, an exchange of their tables, and a suspicion that is refuted.

use swimtab::{Details, Form, Node, Result, State};

fn member(name: &str, last: u8, incarnation: u32) -> Result<Node> {
    let details = Details { incarnation, ..Details::new(([10, 0, 0, last], 7946)) };
    Node::open(name.as_bytes(), &details)
}

fn show(title: &str, node: &Node) {
    println!("{title}:");
    for member in node {
        let name = String::from_utf8_lossy(&member.name).into_owned();
        let address = member.details.map_or("-".into(), |details| details.address.to_string());
        println!("  {name} {:?} {} {address}", member.state, member.incarnation);
    }
}

fn main() -> Result<()> {
    let (mut a, mut b) = (member("a", 1, 1)?, member("b", 2, 1)?);

    // a hears that c is alive, and then suspects it
    a.take(&member("c", 3, 4)?.alive(4)?)?;
    let suspicion = a.suspect(b"c", 4)?;
    a.take(&suspicion)?;

    // b joins a: b's offer goes out over TCP, and a's reply comes back; for members of memberlist, write
    // Form::Memberlist { user: b"" }
    let answer = a.answer(&b.offer(true, Form::Canonical)?, Form::Canonical)?;
    b.finish(&answer.reply)?;
    show("b, after an exchange with a", &b);

    // b suspects a, which refutes it
    a.take(&b.suspect(b"a", 1)?)?;
    if let Some(incarnation) = a.refute()? {
        b.take(&a.alive(incarnation)?)?;
    }
    let known = b.find(b"a").filter(|a| a.state == State::Alive);
    println!("b knows a alive at incarnation {:?}", known.map(|a| a.incarnation));
    println!("a and b: {:?}", a.relation(&b));
    Ok(())
}
