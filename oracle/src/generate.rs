//! The random cases: expressions, damaged expressions and files at the limits.

use crate::case_line::{line, times, word};
use crate::command::Command;
use crate::expression::Expression;
use crate::grow;
use crate::pattern::{MOST_BYTES, MOST_COMMANDS, MOST_POSITIONS};
use crate::random::Random;
use crate::shapes::{self, SMALL_SHAPES};

/// A way to make a case line.
type Kind = fn(&mut Random) -> String;

/// The kinds that take turns with whole expressions and those made for links.
const OTHER_KINDS: [Kind; 13] = [
    changed_byte,
    removed_byte,
    inserted_byte,
    cut_short,
    joined,
    operand_zero,
    removed_command,
    doubled_command,
    letters,
    near_most_positions,
    near_most_commands,
    near_most_bytes,
    near_most_slots,
];

/// So many case lines. Every third one is a whole expression and every third one
/// made for links. The other kinds go round, so that each seed gives all of them.
pub fn lines(seed: u64, count: u64) -> Vec<String> {
    let mut random = Random::new(seed);
    let kinds = OTHER_KINDS
        .into_iter()
        .cycle()
        .flat_map(|other| [whole as Kind, made_for_links, other]);
    kinds
        .zip(0..count)
        .map(|(make_line, _)| make_line(&mut random))
        .collect()
}

/// An expression, mostly small, now and then up to as large as the table.
fn any_size(random: &mut Random) -> Expression {
    let size = match random.within(1..=100) {
        1..=50 => random.within(1..=8),
        51..=80 => random.within(5..=30),
        81..=96 => random.within(20..=100),
        _ => random.within(100..=MOST_COMMANDS),
    };
    grow::expression(random, size)
}

/// An expression small enough that a single damage is likely to matter.
fn small(random: &mut Random) -> Expression {
    let size = random.within(1..=25);
    grow::expression(random, size)
}

/// One word for each command.
fn words(commands: &[Command]) -> String {
    let words: Vec<String> = commands
        .iter()
        .map(|command| word(&command.encode()))
        .collect();
    words.join(" ")
}

fn index_of<T>(random: &mut Random, list: &[T]) -> usize {
    random.within(0..=list.len() - 1)
}

fn whole(random: &mut Random) -> String {
    words(&any_size(random).commands())
}

fn made_for_links(random: &mut Random) -> String {
    let shape = random.pick(&SMALL_SHAPES);
    words(&shape(random).commands())
}

fn changed_byte(random: &mut Random) -> String {
    let mut file = small(random).encode();
    let index = index_of(random, &file);
    if random.percent(50) {
        file[index] ^= 1 << random.within(0..=7);
    } else {
        file[index] = random.byte();
    }
    line(&file)
}

fn removed_byte(random: &mut Random) -> String {
    let mut file = small(random).encode();
    file.remove(index_of(random, &file));
    line(&file)
}

fn inserted_byte(random: &mut Random) -> String {
    let mut file = small(random).encode();
    let byte = if random.percent(50) {
        random.byte()
    } else {
        random.pick(b"LN+.*")
    };
    file.insert(random.within(0..=file.len()), byte);
    line(&file)
}

fn cut_short(random: &mut Random) -> String {
    let mut file = small(random).encode();
    file.truncate(index_of(random, &file));
    line(&file)
}

/// Two or three files one behind the other.
fn joined(random: &mut Random) -> String {
    let files = random.within(2..=3);
    let commands: Vec<Command> = (0..files).flat_map(|_| small(random).commands()).collect();
    words(&commands)
}

fn operand_zero(random: &mut Random) -> String {
    let mut commands = small(random).commands();
    // A sum has no operand, but every expression has a leaf.
    let with_operands: Vec<usize> = (0..commands.len())
        .filter(|&index| commands[index] != Command::Sum)
        .collect();
    let command = &mut commands[random.pick(&with_operands)];
    match command {
        Command::Node { code, rank, points } => match random.within(0..=2) {
            0 => *code = 0,
            1 => *rank = 0,
            _ => *points = 0,
        },
        Command::Leaf { code } | Command::Product { code } | Command::Closure { code } => *code = 0,
        Command::Sum => unreachable!("sums were left out"),
    }
    words(&commands)
}

fn removed_command(random: &mut Random) -> String {
    let commands = small(random).commands();
    let removed = index_of(random, &commands);
    let file: Vec<u8> = [&commands[..removed], &commands[removed + 1..]]
        .concat()
        .into_iter()
        .flat_map(Command::encode)
        .collect();
    line(&file)
}

fn doubled_command(random: &mut Random) -> String {
    let mut commands = small(random).commands();
    let doubled = index_of(random, &commands);
    commands.insert(doubled, commands[doubled]);
    words(&commands)
}

/// Letters of commands, alone or with small numbers between them.
fn letters(random: &mut Random) -> String {
    let choices: &[u8] = if random.percent(30) {
        b"LN+.*"
    } else {
        b"LLLN+.*\0\0\0\x01\x01\x02"
    };
    let length = random.within(1..=40);
    // A leaf at first lets more of them come further.
    let mut file = b"L\0\x01".repeat(random.within(0..=3));
    file.extend((0..length).map(|_| random.pick(choices)));
    line(&file)
}

fn near_most_positions(random: &mut Random) -> String {
    let positions = random.within(MOST_POSITIONS - 2..=MOST_POSITIONS + 3);
    words(&grow::with_positions(random, positions))
}

/// An expression and closures until the table is nearly or more than full.
fn near_most_commands(random: &mut Random) -> String {
    let commands = small(random).commands();
    let closures = random.within(MOST_COMMANDS - 2..=MOST_COMMANDS + 3) - commands.len();
    let code = random.pick(&[1, 0x0100, 0xffff]);
    let closure = word(&Command::Closure { code }.encode());
    [words(&commands), times(&closure, closures)].join(" ")
}

/// Few of these, since a listing of the most slots is long.
fn near_most_slots(random: &mut Random) -> String {
    if random.percent(25) {
        words(&shapes::most_slots(random).commands())
    } else {
        made_for_links(random)
    }
}

/// One file again and again, up to a length about the limit.
fn near_most_bytes(random: &mut Random) -> String {
    let file = match random.within(0..=3) {
        0 => vec![random.byte()],
        _ => small(random).encode(),
    };
    let length = random.within(MOST_BYTES - 2..=MOST_BYTES + 5);
    let whole_files = times(&word(&file), length / file.len());
    match &file[..length % file.len()] {
        [] => whole_files,
        part => [whole_files, word(part)].join(" "),
    }
}
