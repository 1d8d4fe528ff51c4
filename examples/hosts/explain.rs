// A host in Rust that has each choice explained before it makes it: it makes the first two choices
// of the listing of docs/SPECIFICATION.md, section 7, and a third one when idle has run for its
// whole span, and prints for each the text of its explanation, as an operator's display would show
// it.
//
//   rustc --edition 2021 examples/hosts/explain.rs -L native=crates/host/out -l static=host
//
// Status 1 if something was refused that should not be, or if a choice is not the one that was
// explained. explain.c is the same host in C and prints the same.

use std::process::exit;

#[allow(dead_code)] // a host need not use all of the binding
#[path = "../../bindings/rust/shuffle.rs"]
mod shuffle;

/// Ends the host if the answer is a refusal.
fn accepted(reply: shuffle::Reply) -> shuffle::Reply {
    if !reply.is_accepted() {
        eprintln!("answer {}", reply.number);
        exit(1);
    }
    reply
}

/// Explains the choice that these words lead to, makes it, and runs it for some ticks.
fn run(session: &mut shuffle::Session, words: &[u32], ticks: u64) {
    let mut text = [0; shuffle::TEXT];
    let told = accepted(session.explain(words, &mut text));
    println!("At {}:", session.clock);
    let length = usize::try_from(told.first).expect("a text is short");
    print!("{}", String::from_utf8_lossy(&text[..length]));
    let chosen = accepted(session.choose(words));
    if chosen.used != told.used {
        eprintln!("words used: {}, not {}", chosen.used, told.used);
        exit(1);
    }
    accepted(session.advance(ticks));
}

fn main() {
    let (reply, mut session) = shuffle::Session::start(&[2, 10, 10, 3, 20, 15]); // C, T, D of two rows
    accepted(reply);
    accepted(session.arrive(0));
    accepted(session.arrive(1));
    run(&mut session, &[4, 9], 1);
    run(&mut session, &[2, 5], 6);
    run(&mut session, &[3], 1);

    // A choice is in force now: 8, and a buffer that is too short would be 15.
    let refused = session.explain(&[], &mut [0; shuffle::TEXT]);
    println!(
        "With a choice in force: answer {}, ticks left {}.",
        refused.number, refused.first
    );
    exit(i32::from(refused.number != shuffle::number::IN_FORCE));
}
