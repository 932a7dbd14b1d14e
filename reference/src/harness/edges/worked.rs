//! The worked sessions that stand beside the documents, with the lines that they have to print.

/// A recording with its lines.
pub struct Worked {
    pub name: &'static str,
    pub recording: &'static [u8],
    pub lines: &'static [u8],
}

/// All of them.
pub const WORKED: [Worked; 3] = [
    Worked {
        name: "session",
        recording: include_bytes!("../../../../examples/session.rec"),
        lines: include_bytes!("../../../../examples/session.out"),
    },
    Worked {
        name: "board",
        recording: include_bytes!("../../../../examples/board.rec"),
        lines: include_bytes!("../../../../examples/board.out"),
    },
    Worked {
        name: "block",
        recording: include_bytes!("../../../../examples/block.rec"),
        lines: include_bytes!("../../../../examples/block.out"),
    },
];

#[cfg(test)]
mod tests {
    use super::*;
    use crate::session::lines_of;

    #[test]
    fn model_prints_their_lines() {
        for Worked { name, recording, lines } in WORKED {
            assert_eq!(lines_of(recording).as_bytes(), lines, "{name}");
        }
    }
}
