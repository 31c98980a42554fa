//! The proved judge and two of its steps against ordinary Rust, through the archives that bench/run makes: `sheets` is the
//! judge and the check of a list, `orders` the search, `closing` the closure; `rate` is sheets a second, `worst` the worst cases.
//! Each module compares answers and buffers before it times anything. `all` prints the tables of docs/BENCHMARKS.md.
mod all;
mod closing;
mod orders;
mod rate;
mod sheets;
mod worst;
use std::hint::black_box;
use std::time::Instant;

/// Sheet, scratch and order in; a word out.
pub type Judge = fn(&[u8], &mut [u8], &mut [u8]) -> u64;
/// Sheet and list in; a word out.
pub type Check = fn(&[u8], &[u8]) -> u64;
/// Sheets with a list each.
pub type Lists = Vec<(Vec<u8>, Vec<u8>)>;

/// How bench/run built this program.
const BUILD: &str = match option_env!("BENCH_BUILD") {
    Some(build) => build,
    None => "by hand",
};

/// The first line that a command prints, or nothing.
fn said(program: &str, words: &[&str]) -> String {
    let out = std::process::Command::new(program).args(words).output();
    let out = out.map(|out| String::from_utf8_lossy(&out.stdout).into_owned()).unwrap_or_default();
    out.lines().next().unwrap_or_default().to_string()
}

/// The day, the machine, the compilers.
pub fn machine() -> String {
    let info = std::fs::read_to_string("/proc/cpuinfo").unwrap_or_default();
    let find = |key: &str| info.lines().find(|l| l.starts_with(key)).and_then(|l| l.split(": ").nth(1));
    let family = match (find("cpu family"), find("model\t")) {
        (Some(family), Some(model)) => format!(" (family {family}, model {model})"),
        _ => String::new(),
    };
    let cores = std::thread::available_parallelism().map_or(1, |n| n.get());
    format!(
        "{}. Machine: {}{family}, {cores} cores, {} {}. Rattle's archive as harness/native.sh makes it (-O3, baseline processor); {}, `--release` \
         (opt-level 3, one codegen unit).",
        said("date", &["+%F"]),
        find("model name").unwrap_or("processor not named"),
        std::env::consts::ARCH,
        std::env::consts::OS,
        said("rustc", &["--version"]),
    )
}

pub struct Rng(pub u64);

impl Rng {
    pub fn next(&mut self, n: usize) -> usize {
        self.0 ^= self.0 << 13;
        self.0 ^= self.0 >> 7;
        self.0 ^= self.0 << 17;
        (self.0 >> 11) as usize % n
    }
}

/// How many rounds the words ask for, 40 where they say nothing.
pub fn rounds(words: &[String]) -> usize {
    words.first().map_or(40, |w| w.parse().unwrap_or_else(|_| usage()))
}

/// Nanoseconds a problem of each way to do it: the ways in turn, the lowest of so many rounds of some `length` seconds.
pub fn lowest<T, const N: usize>(
    rounds: usize,
    length: f64,
    problems: &[T],
    mut ways: [&mut dyn FnMut(&T) -> usize; N],
) -> [f64; N] {
    let mut pass = |way: usize, times: usize| {
        let began = Instant::now();
        for _ in 0..times {
            for p in problems {
                black_box(ways[way](black_box(p)));
            }
        }
        began.elapsed().as_secs_f64()
    };
    let times = ((length / pass(0, 1)) as usize).clamp(1, 200_000);
    let mut best = [f64::INFINITY; N];
    for _ in 0..rounds {
        for (way, best) in best.iter_mut().enumerate() {
            *best = best.min(pass(way, times));
        }
    }
    best.map(|b| b * 1e9 / (times * problems.len()) as f64)
}

fn usage() -> ! {
    eprintln!("bench: sheets, rate, worst, orders or closing; see bench/run");
    std::process::exit(2)
}

fn main() {
    let words: Vec<String> = std::env::args().skip(1).collect();
    let plain: Vec<&str> = words.iter().map(String::as_str).collect();
    match plain.first() {
        Some(&"all") => all::run(&plain[1..]),
        Some(&"build") => println!("{BUILD}"),
        Some(&"sheets") => sheets::run(&plain[1..]),
        Some(&"rate") => rate::run(&plain[1..]),
        Some(&"worst") => worst::run(&plain[1..]),
        Some(&"orders") => orders::run(&words[1..]),
        Some(&"closing") => closing::run(&words[1..]),
        _ => usage(),
    }
}
