//! The simulator: a line in, an answer out.

use crate::answer::Answer;
use crate::frame::Frame;
use crate::line::Bytes;
use crate::node::Node;
use crate::refusal::Refusal;
use crate::store::Store;

pub struct Simulator {
    node: Option<Node>,
}

impl Simulator {
    pub fn new() -> Self {
        Simulator { node: None }
    }

    pub fn answer(&mut self, line: &[u8]) -> Answer {
        self.serve(line).unwrap_or_else(Answer::Refused)
    }

    fn serve(&mut self, line: &[u8]) -> Result<Answer, Refusal> {
        let bytes = Bytes::of_line(line)?;
        match (Frame::of_bytes(bytes.as_slice())?, &mut self.node) {
            (Frame::Build(build), None) => {
                self.node = Some(Node::new(Store::build(&build)?));
                Ok(Answer::Done)
            }
            (Frame::Call(call), Some(node)) => node.call(call),
            _ => Err(Refusal::OutOfTurn),
        }
    }
}
