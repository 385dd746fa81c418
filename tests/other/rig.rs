//! Commands that drive sources and links, and what each has to print.

use crate::link::Link;
use crate::random::Random;
use crate::source::Source;

pub struct Command {
    pub line: String,
    pub says: String,
}

fn draws(name: &str, mut source: Source, order: u32, widths: &[usize]) -> Command {
    let mut line = format!("{name} {order}");
    let mut says = String::new();
    for &width in widths {
        line += &format!(" {width}");
        says += &match source.draw(order, width) {
            Ok(slots) => format!("{slots:?}\n"),
            Err(number) => format!("refused {number}\n"),
        };
    }
    Command { line, says }
}

fn steps(name: &str, link: Result<Link, u32>, steps: &str) -> Command {
    let line = format!("{name} {steps}");
    let mut link = match link {
        Ok(link) => link,
        Err(number) => return Command { line, says: format!("refused {number}\n") },
    };
    let (mut count, mut says) = (0u8, String::new());
    for step in steps.bytes() {
        match step {
            b'p' => {
                link.put(&[count]);
                count = count.wrapping_add(1);
            }
            b'x' => link.put(&[0; 401]),
            _ => {
                says += &match link.take() {
                    Some(frame) => format!("{} of {}\n", frame[0], frame.len()),
                    None => "none\n".to_string(),
                }
            }
        }
    }
    Command { line, says }
}

/// Both sources at all widths and the three orders, past a whole turn, and at widths that change or are refused.
pub fn all_draws(random: &mut Random) -> Vec<Command> {
    let mut commands = Vec::new();
    for order in [2, 256, 257] {
        for width in 1..=32 {
            let seed = random.next();
            let widths = vec![width; 2 * width + 1];
            commands.push(draws("plain", Source::plain(), order, &widths));
            commands.push(draws(&format!("woven {seed}"), Source::woven(seed), order, &widths));
        }
        for _ in 0..20 {
            let seed = random.next();
            let widths: Vec<usize> = (0..60).map(|_| random.pick(&[0, 1, 2, 3, 3, 3, 7, 32, 32, 33])).collect();
            commands.push(draws("plain", Source::plain(), order, &widths));
            commands.push(draws(&format!("woven {seed}"), Source::woven(seed), order, &widths));
        }
    }
    commands.push(draws("plain", Source::plain(), 1, &[3, 3]));
    commands
}

/// Every pair of letters at an empty, a nearly full and a full queue, scripts that are refused, and random steps.
pub fn all_steps(random: &mut Random) -> Vec<Command> {
    let mut commands = Vec::new();
    for filled in [0, 14, 15, 16] {
        for pair in 0..16 {
            let letter = |i: usize| ['k', 'l', 'd', 'h'][i];
            let script = format!("{}{}{}k", "k".repeat(filled), letter(pair / 4), letter(pair % 4));
            for tail in ["ppp", "pxp", "xpp", "ptp", "pptpp"] {
                let all = format!("{}{tail}{}", "p".repeat(filled), "t".repeat(20));
                commands.push(steps(&format!("link {script}"), Link::scripted(script.as_bytes()), &all));
            }
        }
    }
    for script in ["K", "kz", &"k".repeat(64), &"k".repeat(65)] {
        commands.push(steps(&format!("link {script}"), Link::scripted(script.as_bytes()), "ppt"));
    }
    for i in 0..1000 {
        // short scripts and long ones
        let letters = 1 + random.below(if i % 2 == 0 { 6 } else { 64 });
        let script: String = (0..letters).map(|_| random.pick(&['k', 'k', 'l', 'd', 'h'])).collect();
        let all: String = (0..60).map(|_| random.pick(&['p', 'p', 'p', 'x', 't', 't'])).collect();
        if i % 4 == 0 {
            commands.push(steps("queue", Ok(Link::plain()), &all));
        } else {
            commands.push(steps(&format!("link {script}"), Link::scripted(script.as_bytes()), &all));
        }
    }
    commands
}
