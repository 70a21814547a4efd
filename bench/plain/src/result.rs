//! The result sheet of a run.
use crate::run::{Behaviour, Run};

impl Run<'_> {
    pub(crate) fn sheet(&self, behaviour: Behaviour) -> Vec<u8> {
        let mut out = Vec::with_capacity(4096);
        let mut record = |kind: u16, payload: &[u8]| {
            out.extend_from_slice(&(payload.len() as u16).to_le_bytes());
            out.extend_from_slice(&kind.to_le_bytes());
            out.extend_from_slice(payload);
        };
        let mut head = vec![behaviour as u8, self.result as u8];
        head.extend_from_slice(&self.steps.to_le_bytes());
        record(64, &head);
        record(65, &self.output);
        for (v, name) in self.variables.iter().zip(&self.program.names).filter(|(v, _)| v.set) {
            let mut payload = vec![v.mark as u8, name.len() as u8];
            payload.extend_from_slice(name);
            payload.extend_from_slice(&v.bytes[..v.size as usize]);
            record(66, &payload);
        }
        for (i, row) in self.rows.iter().enumerate() {
            let mut payload = (i as u16).to_le_bytes().to_vec();
            for n in [row.entered, row.own, row.inclusive] {
                payload.extend_from_slice(&n.to_le_bytes());
            }
            record(67, &payload);
        }
        out
    }
}
