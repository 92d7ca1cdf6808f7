//! The lines of a program, with their blocks found.

use crate::line::{AXES, BlockKind, Condition, Line, Value};
use crate::reader;
use crate::refusal::Refusal;

pub const MAX_LINES: usize = 128;
pub const MAX_BLOCKS: usize = 16;

/// A line as it is run: a block line knows its block by number.
#[derive(Clone, Copy, Debug)]
pub enum Step {
    Plain,
    Setting { register: usize, value: Value },
    Move { values: [Option<Value>; AXES] },
    Open { block: usize },
    End { block: usize },
}

/// The places of its lines are counted from 0.
#[derive(Clone, Copy, Debug)]
pub struct Block {
    pub kind: BlockKind,
    pub label: u16,
    pub condition: Condition,
    pub first: usize,
    pub end: Option<usize>,
}

#[derive(Clone, Debug, Default)]
pub struct Program {
    steps: Vec<Step>,
    blocks: Vec<Block>,
    /// The numbers of the open blocks, the innermost last.
    open: Vec<usize>,
}

impl Program {
    pub fn steps(&self) -> &[Step] {
        &self.steps
    }

    pub fn blocks(&self) -> &[Block] {
        &self.blocks
    }

    pub fn is_closed(&self) -> bool {
        self.open.is_empty()
    }

    pub fn clear(&mut self) {
        self.steps.clear();
        self.blocks.clear();
        self.open.clear();
    }

    pub fn line(&mut self, text: &[u8]) -> Result<(), Refusal> {
        if self.steps.len() == MAX_LINES {
            return Err(Refusal::TooManyLines);
        }
        let step = match reader::read(text)? {
            Line::Plain => Step::Plain,
            Line::Setting { register, value } => Step::Setting { register, value },
            Line::Move { values } => Step::Move { values },
            Line::Open { kind, label, condition } => self.opened(kind, label, condition)?,
            Line::End { kind, label } => self.ended(kind, label)?,
        };
        self.steps.push(step);
        Ok(())
    }

    fn opened(&mut self, kind: BlockKind, label: u16, condition: Condition) -> Result<Step, Refusal> {
        if self.blocks.iter().any(|block| block.label == label) {
            return Err(Refusal::LabelUsed);
        }
        let block = self.blocks.len();
        if block == MAX_BLOCKS {
            return Err(Refusal::TooManyBlocks);
        }
        self.blocks.push(Block { kind, label, condition, first: self.steps.len(), end: None });
        self.open.push(block);
        Ok(Step::Open { block })
    }

    fn ended(&mut self, kind: BlockKind, label: u16) -> Result<Step, Refusal> {
        let block = *self.open.last().ok_or(Refusal::UnmatchedEnd)?;
        let Block { kind: opened, label: name, .. } = self.blocks[block];
        if opened != kind || name != label {
            return Err(Refusal::UnmatchedEnd);
        }
        self.blocks[block].end = Some(self.steps.len());
        self.open.pop();
        Ok(Step::End { block })
    }
}
