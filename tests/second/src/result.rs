//! The result sheet.

use crate::context::*;
use crate::profile::Figures;
use crate::tree::Program;

pub fn result_sheet(program: &Program, figures: &Figures, ending: &Ending, output: &[u8]) -> Vec<u8> {
    let mut sheet = Vec::new();
    let context = &ending.context;
    let mut head = vec![behaviour_number(ending.behaviour), u8::from(context.result)];
    head.extend(figures.steps.to_le_bytes());
    record(&mut sheet, 64, &head);
    record(&mut sheet, 65, output);
    for (name, variable) in program.variables.iter().zip(&context.variables) {
        if let Some(value) = &variable.value {
            let mut payload = vec![u8::from(variable.mark), name.len() as u8];
            payload.extend_from_slice(name);
            payload.extend_from_slice(value);
            record(&mut sheet, 66, &payload);
        }
    }
    for (number, counts) in figures.counts.iter().enumerate() {
        let mut payload = (number as u16).to_le_bytes().to_vec();
        for count in [counts.entered, counts.own, counts.inclusive] {
            payload.extend(count.to_le_bytes());
        }
        record(&mut sheet, 67, &payload);
    }
    sheet
}

fn behaviour_number(behaviour: Behaviour) -> u8 {
    match behaviour {
        Behaviour::Normal => 0,
        Behaviour::Return => 1,
        Behaviour::Exit => 2,
        Behaviour::Failure => 3,
    }
}

fn record(sheet: &mut Vec<u8>, kind: u16, payload: &[u8]) {
    sheet.extend((payload.len() as u16).to_le_bytes());
    sheet.extend(kind.to_le_bytes());
    sheet.extend_from_slice(payload);
}
