//! A small builder of chart bytes. It checks nothing: bad charts are built with it too.

use crate::chart::RECORD_BYTES;

pub struct ChartBuilder {
    records: Vec<[u8; RECORD_BYTES]>,
}

impl ChartBuilder {
    /// A chart without any record.
    pub fn empty() -> Self {
        ChartBuilder {
            records: Vec::new(),
        }
    }

    /// A chart that begins with its top initial transition.
    pub fn top(target: u8, action: u8) -> Self {
        Self::empty().record([3, target, action, 0, 0, 0, 0, 0])
    }

    /// A state without an initial transition.
    pub fn state(self, parent: u8, entry: u8, exit: u8) -> Self {
        self.record([1, parent, entry, exit, 0, 0, 0, 0])
    }

    /// Gives the last state an initial transition.
    pub fn initial(mut self, target: u8, action: u8) -> Self {
        let state = self.records.last_mut().expect("a state comes first");
        state[4] = target;
        state[5] = action;
        self
    }

    pub fn internal(self, state: u8, signal: u8, action: u8) -> Self {
        self.record([2, state, signal, 0, 0, action, 0, 0])
    }

    pub fn transition(self, state: u8, signal: u8, target: u8, action: u8) -> Self {
        self.record([2, state, signal, 1, target, action, 0, 0])
    }

    /// Gives the last row a flag.
    pub fn flag(mut self, flag: u8) -> Self {
        let row = self.records.last_mut().expect("a row comes first");
        row[6] = flag;
        self
    }

    /// Any record, for the charts that the other calls cannot make.
    pub fn record(mut self, record: [u8; RECORD_BYTES]) -> Self {
        self.records.push(record);
        self
    }

    pub fn bytes(self) -> Vec<u8> {
        self.records.concat()
    }
}

#[cfg(test)]
mod tests {
    use super::*;

    #[test]
    fn records_are_as_the_document_says() {
        let bytes = ChartBuilder::top(1, 10)
            .state(0, 11, 12)
            .initial(2, 13)
            .state(1, 21, 22)
            .internal(1, 5, 15)
            .transition(2, 6, 1, 26)
            .internal(2, 7, 27)
            .flag(8)
            .bytes();
        let expected = [
            [3, 1, 10, 0, 0, 0, 0, 0],
            [1, 0, 11, 12, 2, 13, 0, 0],
            [1, 1, 21, 22, 0, 0, 0, 0],
            [2, 1, 5, 0, 0, 15, 0, 0],
            [2, 2, 6, 1, 1, 26, 0, 0],
            [2, 2, 7, 0, 0, 27, 8, 0],
        ];
        assert_eq!(bytes, expected.concat());
    }
}
