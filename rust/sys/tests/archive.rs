//! What the proved archive asks of the program that it is linked into.

use std::process::Command;

/// Moves of memory, which a compiler may call for by itself.
const MOVES: [&str; 4] = ["memcpy", "memmove", "memset", "memcmp"];

/// The archive's symbols as `nm` lists them with an option.
fn symbols(option: &str) -> Vec<String> {
    let archive = env!("STRANVEK_ARCHIVE");
    let listed = Command::new("nm").arg(option).arg("-P").arg(archive).output();
    let listed = listed.expect("nm, which comes with the C compiler");
    assert!(listed.status.success(), "nm {} {}", option, archive);
    let text = String::from_utf8(listed.stdout).expect("text");
    let symbol = |line: &str| line.split_once(' ').map(|(symbol, _)| symbol.to_string());
    text.lines().filter(|line| !line.ends_with(':')).filter_map(symbol).collect()
}

#[test]
fn nothing_is_asked_of_the_linker_but_moves_of_memory() {
    let asked = symbols("-u");
    println!("the archive asks for {:?}", asked);
    assert!(!asked.is_empty(), "a list that was read has moves at least");
    let others: Vec<_> = asked.iter().filter(|asked| !MOVES.contains(&asked.as_str())).collect();
    assert!(others.is_empty(), "{:?}", others);
}

#[test]
fn only_the_calls_are_offered() {
    let offered = symbols("-g");
    let offered: Vec<_> =
        offered.iter().filter(|symbol| !MOVES.contains(&symbol.as_str())).collect();
    assert!(offered.iter().all(|symbol| symbol.starts_with("stranvek_")), "{:?}", offered);
    assert_eq!(offered.len(), 16 + 11);
}
