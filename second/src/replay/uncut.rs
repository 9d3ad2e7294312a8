//! What a log says whatever the cut.

use std::mem::take;

/// The lines of a log without those of pieces. Before each stands what these came
/// to since the last one: how many bytes were taken, and all that was replied. That
/// is settled by the history alone (the scope paper, section Reception: a call
/// stops after a reply, and tells how many bytes it took).
pub fn uncut(log: &str) -> Vec<String> {
    let mut lines = Vec::new();
    let (mut taken, mut replies) = (0, String::new());
    for line in log.lines() {
        match line.split(' ').collect::<Vec<_>>()[..] {
            ["B", "0", length, reply] => {
                taken += length.parse::<usize>().expect("a number");
                replies += reply.trim_end_matches('-');
            }
            _ => {
                lines.push(format!("{} {}", take(&mut taken), take(&mut replies)));
                lines.push(line.to_string());
            }
        }
    }
    lines
}

#[cfg(test)]
mod tests {
    use super::uncut;

    #[test]
    fn pieces_are_joined_between_events() {
        let log = "B 0 3 -\nB 0 4 0616\nB 0 1 04\nT 0\nR 0\nB 0 0 -\nload closed\n";
        let lines = ["8 061604", "T 0", "0 ", "R 0", "0 ", "load closed"];
        assert_eq!(uncut(log), lines);
    }

    /// A refused call is not as good as none.
    #[test]
    fn a_refusal_stays() {
        assert_eq!(uncut("B 3 0 -\n"), ["0 ", "B 3 0 -"]);
    }
}
