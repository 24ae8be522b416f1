//! Programs of bench/programs as iterators. `by_hand PROGRAM COUNT [blocks]` writes the first values of one, a line each: each line
//! at once, or with the word `blocks` gathered.
//!
//! Integers have 128 bits, as the language's. Values end where one would be past them, and where a line of the input is no integer.

use std::collections::VecDeque;
use std::env;
use std::io::{self, BufWriter, Write};
use std::iter::{repeat, successors};

/// The numbers from 0 on.
fn count_up() -> impl Iterator<Item = i128> {
    successors(Some(0i128), |x| x.checked_add(1))
}

/// Each number is the sum of the two before it, modulo 1000000007.
fn fibonacci() -> impl Iterator<Item = i128> {
    let pairs = successors(Some((0i128, 1i128)), |&(f, g)| {
        Some((g, f.checked_add(g)? % 1_000_000_007))
    });
    pairs.map(|(f, _)| f)
}

/// `values`, which go on where `tests` has true.
fn upon(
    mut values: impl Iterator<Item = i128>,
    mut tests: impl Iterator<Item = bool>,
) -> impl Iterator<Item = i128> {
    successors(values.next(), move |&value| {
        if tests.next()? {
            values.next()
        } else {
            Some(value)
        }
    })
}

/// The sums of the standard input's first lines.
fn running_sum() -> impl Iterator<Item = i128> {
    let elements = io::stdin()
        .lines()
        .map_while(|line| line.ok()?.trim().parse::<i128>().ok());
    elements.scan(0i128, |sum, element| {
        *sum = sum.checked_add(element)?;
        Some(*sum)
    })
}

/// What an outer time has, remembered by a block in a block: by hand, two local names.
fn nested_time() -> impl Iterator<Item = i128> {
    count_up().map(|k| {
        let n = k;
        let m = n;
        m
    })
}

/// Numbers from 0 on, each with its factorial modulo 1000003.
fn factorials() -> impl Iterator<Item = (i128, i128)> {
    successors(Some((0i128, 1i128)), |&(i, f)| {
        let next = i.checked_add(1)?;
        Some((next, f.checked_mul(next)? % 1_000_003))
    })
}

/// For each number its factorial, by a loop that begins anew.
fn inner_loop() -> impl Iterator<Item = i128> {
    count_up()
        .map_while(|n| factorials().find(|&(i, _)| i == n))
        .map(|(_, f)| f)
}

/// The factorial modulo 1000003, by recursion.
fn fact(n: i128) -> Option<i128> {
    if n == 0 {
        Some(1)
    } else {
        Some(n.checked_mul(fact(n - 1)?)? % 1_000_003)
    }
}

/// Every third number.
fn filter() -> impl Iterator<Item = i128> {
    count_up().filter(|n| n % 3 == 0)
}

/// The lengths of a list that grows at its front.
fn list_build() -> impl Iterator<Item = i128> {
    let mut x = VecDeque::new();
    count_up().map(move |i| {
        let length = x.len() as i128;
        x.push_front(i);
        length
    })
}

/// The number at time 500000, at each time.
fn deep() -> impl Iterator<Item = i128> {
    count_up().nth(500_000).into_iter().flat_map(repeat)
}

/// Writes values, a line each.
fn write(values: impl Iterator<Item = i128>, mut out: impl Write) -> io::Result<()> {
    for value in values {
        writeln!(out, "{value}")?;
    }
    out.flush()
}

fn main() -> io::Result<()> {
    let words: Vec<String> = env::args().skip(1).collect();
    let [program, count, how @ ..] = &words[..] else {
        panic!("by_hand PROGRAM COUNT [blocks]")
    };
    let values: Box<dyn Iterator<Item = i128>> = match program.as_str() {
        "count_up" => Box::new(count_up()),
        "fibonacci" => Box::new(fibonacci()),
        "advance" => Box::new(upon(count_up(), repeat(true))),
        "running_sum" => Box::new(running_sum()),
        "nested_time" => Box::new(nested_time()),
        "inner_loop" => Box::new(inner_loop()),
        "factorial" => Box::new(count_up().map_while(fact)),
        "filter" => Box::new(filter()),
        "list_build" => Box::new(list_build()),
        "deep" => Box::new(deep()),
        _ => panic!("no program is named {program}"),
    };
    let values = values.take(count.parse().expect("COUNT is a number"));
    if how.is_empty() {
        write(values, io::stdout().lock())
    } else {
        write(values, BufWriter::new(io::stdout().lock()))
    }
}
