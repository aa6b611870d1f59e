//! Programs as they are written, good or not.

use crate::reading::Group;

const MARK: [u8; 2] = [0x53, 0x50];
const START: u8 = 0xfe;
const COMPONENT: u8 = 0xfd;
pub const JUMP: u8 = 0xff;
pub const UNCAUGHT: u16 = 0xffff;

#[derive(Clone, Debug)]
pub struct Program {
    pub group: Group,
    pub number: u32,
    pub identifiers: Vec<Vec<u8>>,
    pub records: Vec<Record>,
}

#[derive(Clone, Debug)]
pub struct Record {
    pub code: u8,
    pub component: u8,
    pub place: u16,
    pub target: u16,
    pub argument: Vec<u8>,
}

impl Record {
    pub fn jump(target: usize) -> Self {
        Record {
            code: JUMP,
            component: 0,
            place: 0,
            target: target as u16,
            argument: Vec::new(),
        }
    }
}

impl Program {
    pub fn encode(&self) -> Vec<u8> {
        let mut out = MARK.to_vec();
        out.extend([START, u8::from(self.group == Group::Boot)]);
        out.extend(self.number.to_be_bytes());
        out.push(self.identifiers.len() as u8);
        out.extend((self.records.len() as u16).to_be_bytes());
        for identifier in &self.identifiers {
            out.extend(MARK);
            out.extend([COMPONENT, identifier.len() as u8]);
            out.extend(identifier);
        }
        for record in &self.records {
            record.encode(&mut out);
        }
        out
    }

    pub fn commands(&self) -> usize {
        let commands = self.records.iter().filter(|record| record.code != JUMP);
        commands.count()
    }
}

impl Record {
    fn encode(&self, out: &mut Vec<u8>) {
        out.extend(MARK);
        out.extend([self.code, self.component]);
        out.extend(self.place.to_be_bytes());
        out.extend(self.target.to_be_bytes());
        out.extend((self.argument.len() as u16).to_be_bytes());
        out.extend(&self.argument);
    }
}
