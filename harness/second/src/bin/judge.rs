//! judge: one sheet from standard input, one line out, as document 01 says of the program. With `--dump` the sheet's
//! text stands before it. With `--list 0,2,1` the line is that of the check of this list (02 §5); `--list ''` is the empty one.
//! With `--why` a sheet that is broken by 26 gets the bars that are kept (02 §8), `kept N: R W V, R W V, ..`, and every other
//! one the same line as without.

use second::sheet::{MAX_EVENTS, MAX_SCRATCH, MAX_SHEET};
use std::io::Read;

fn main() {
    let args: Vec<String> = std::env::args().skip(1).collect();
    let dump = args.iter().any(|a| a == "--dump");
    let why = args.iter().any(|a| a == "--why");
    let list = args.iter().position(|a| a == "--list").map(|i| {
        numbers(args.get(i + 1).map_or("none", |list| list)).unwrap_or_else(|why| {
            eprintln!("judge: --list: {why}: give event numbers up to 255 with commas between, as 0,2,1");
            std::process::exit(2);
        })
    });
    let mut sheet = vec![];
    // one byte more than a sheet may have tells an over-long one
    let most = MAX_SHEET as u64 + 1;
    std::io::stdin().take(most).read_to_end(&mut sheet).expect("standard input is readable");
    if dump {
        print!("{}", second::text::to_text(&sheet));
    }
    match list {
        Some(list) => println!("{}", second::check(&sheet, &list).line()),
        // a buffer that holds every list
        None if why => println!("{}", second::why(&sheet, MAX_SCRATCH, usize::MAX).line()),
        None => println!("{}", second::judge(&sheet, MAX_SCRATCH, MAX_EVENTS).line()),
    }
}

fn numbers(list: &str) -> Result<Vec<u8>, String> {
    let words = list.split(',').filter(|_| !list.is_empty());
    words.map(|word| word.parse().map_err(|_| format!("{word}: no number"))).collect()
}
