//! A difference, ready to be read.

use crate::hex;
use oracle::{name_of, Complaint, OPCODES};

#[derive(Clone, Debug)]
pub struct Difference {
    /// who differs: the record entry, the listing entry, a program, or 000 itself
    pub place: String,
    /// the record's body, where one record shows it
    pub body: Option<Vec<u8>>,
    pub expected: String,
    pub found: String,
}

impl Difference {
    pub fn complaint(body: &[u8], complaint: &Complaint) -> Difference {
        Difference {
            place: "000 CANNOT PRINT A RECORD THAT DOCUMENT 01 ACCEPTS".into(),
            body: Some(body.to_vec()),
            expected: "a line".into(),
            found: complaint.0.clone(),
        }
    }

    pub fn print(&self) {
        println!("DIFFERENCE at {}", self.place);
        if let Some(body) = &self.body {
            if body.len() <= 200 {
                println!("  body      {}", hex(body));
            } else {
                println!("  body      {} bytes, starting {}", body.len(), hex(&body[..64]));
            }
            if let [high, low, ..] = body[..] {
                let opcode = u16::from_be_bytes([high, low]);
                if opcode < OPCODES {
                    println!("  opcode    {opcode} {}", name_of(opcode));
                }
            }
        }
        println!("  expected  {}", self.expected);
        println!("  found     {}", self.found);
    }
}
