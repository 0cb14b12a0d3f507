//! The commands of a script's body, packed into words of 32 bits: most scripts are long lists of touches.

use crate::commit::Commit;

const TAG_SHIFT: u32 = 28;
const VALUE: u32 = (1 << TAG_SHIFT) - 1;
const SWEEP: u32 = 1;
const STEP: u32 = 2;
const ARM: u32 = 3;
const FINISH: u32 = 4;
const SHOW: u32 = 5;
const COMMIT: u32 = 6;

#[derive(Debug, PartialEq)]
pub enum Command<'a> {
    /// Touches of single pages that follow one another.
    Touches(&'a [u32]),
    Sweep {
        first: u32,
        end: u32,
    },
    Step(u32),
    Arm,
    Finish,
    Show,
    Commit(&'a Commit),
}

#[derive(Default)]
pub struct Commands {
    words: Vec<u32>,
    commits: Vec<Commit>,
}

impl Commands {
    #[inline]
    pub fn touch(&mut self, page: u32) {
        self.words.push(page);
    }

    pub fn sweep(&mut self, first: u32, end: u32) {
        self.words.extend([SWEEP << TAG_SHIFT | first, end]);
    }

    pub fn step(&mut self, steps: u32) {
        self.words.push(STEP << TAG_SHIFT | steps);
    }

    pub fn arm(&mut self) {
        self.words.push(ARM << TAG_SHIFT);
    }

    pub fn finish(&mut self) {
        self.words.push(FINISH << TAG_SHIFT);
    }

    pub fn show(&mut self) {
        self.words.push(SHOW << TAG_SHIFT);
    }

    pub fn commit(&mut self, commit: Commit) {
        self.words.push(COMMIT << TAG_SHIFT | self.commits.len() as u32);
        self.commits.push(commit);
    }

    /// The command at a place, and the place behind it.
    pub fn at(&self, place: usize) -> Option<(Command<'_>, usize)> {
        let word = *self.words.get(place)?;
        let value = word & VALUE;
        let command = match word >> TAG_SHIFT {
            0 => {
                let rest = &self.words[place..];
                let length = rest.iter().position(|&it| it > VALUE).unwrap_or(rest.len());
                return Some((Command::Touches(&rest[..length]), place + length));
            }
            SWEEP => return Some((Command::Sweep { first: value, end: self.words[place + 1] }, place + 2)),
            STEP => Command::Step(value),
            ARM => Command::Arm,
            FINISH => Command::Finish,
            SHOW => Command::Show,
            _ => Command::Commit(&self.commits[value as usize]),
        };
        Some((command, place + 1))
    }
}

#[cfg(test)]
mod tests {
    use super::*;

    #[test]
    fn commands_come_out_as_they_went_in() {
        let mut commands = Commands::default();
        commands.touch(5);
        commands.touch(1_048_575);
        commands.sweep(1_048_575, 1_048_576);
        commands.step(1_000_000);
        commands.arm();
        commands.commit(Commit { metric: Some(1), ..Commit::default() });
        commands.commit(Commit { metric: Some(2), ..Commit::default() });
        commands.touch(0);
        let mut found = Vec::new();
        let mut place = 0;
        while let Some((command, next)) = commands.at(place) {
            found.push(command);
            place = next;
        }
        let second = Commit { metric: Some(2), ..Commit::default() };
        assert_eq!(found[0], Command::Touches(&[5, 1_048_575]));
        assert_eq!(found[1], Command::Sweep { first: 1_048_575, end: 1_048_576 });
        assert_eq!(found[2..4], [Command::Step(1_000_000), Command::Arm]);
        assert_eq!(found[5..], [Command::Commit(&second), Command::Touches(&[0])]);
    }
}
