//! A case of the management port, put to the plain implementation and to the proved library.

use crate::case::{values, Answer, Case};
use crate::plain::{self, Refusal};

fn refused(refusal: Refusal, ports: &[u8], answer: &[u8]) -> Answer {
    values![u64::from(refusal), ports, answer, 0, 0, 0, 0]
}

pub fn equipment_by_plain(case: &Case) -> Answer {
    let (mut ports, mut answer) = (case.octets(0).to_vec(), case.octets(2).to_vec());
    let deed = match plain::equipment(&mut ports, case.octets(1), answer.len()) {
        Ok(deed) => deed,
        Err(refusal) => return refused(refusal, &ports, &answer),
    };
    let message = deed.answer.unwrap_or_default();
    answer[..message.len()].copy_from_slice(&message);
    let [network, port, reference] =
        deed.asked.map_or([0; 3], |(network, port, reference)| [network as u64, port as u64, u64::from(reference)]);
    values![0, &ports[..], &answer[..], message.len() as u64, network, port, reference]
}

pub fn controller_by_plain(case: &Case) -> Answer {
    let mut ports = case.octets(0).to_vec();
    let refusal = plain::controller(&mut ports, case.octets(1)).err().unwrap_or(0);
    values![u64::from(refusal), &ports[..]]
}

pub fn port_settings_by_plain(case: &Case) -> Answer {
    let (refusal, settings) =
        plain::port_settings(case.octets(0)).map_or_else(|no| (no, [0; 3]), |settings| (0, settings));
    values![u64::from(refusal), &settings[..]]
}

pub fn port_packing_by_plain(case: &Case) -> Answer {
    let packed = plain::port_packing(case.number(0), case.number(1), case.number(2));
    let (refusal, packing) = packed.map_or_else(|no| (no, 0), |packing| (0, packing));
    values![u64::from(refusal), packing]
}

#[cfg(feature = "management")]
mod by_library {
    use super::super::by_library::{Fenced, LEFT_OVER};
    use crate::case::{values, Answer, Case, Value};
    use rimesatchel::management as face;

    pub fn equipment(case: &Case) -> Option<Answer> {
        let mut ports = Fenced::around(case.octets(0), LEFT_OVER);
        let mut answer = Fenced::around(case.octets(2), LEFT_OVER);
        let mut report = [u64::MAX; 4];
        let refusal = face::equipment(ports.lent(), case.octets(1), answer.lent(), &mut report);
        let mut all = values![u64::from(refusal), &ports.back()[..], &answer.back()[..]];
        all.extend(report.map(Value::Number));
        Some(all)
    }

    pub fn controller(case: &Case) -> Option<Answer> {
        let mut ports = Fenced::around(case.octets(0), LEFT_OVER);
        let refusal = face::controller(ports.lent(), case.octets(1));
        Some(values![u64::from(refusal), &ports.back()[..]])
    }

    pub fn port_settings(case: &Case) -> Option<Answer> {
        let mut settings = [u32::MAX; 3];
        let refusal = face::port_settings(case.octets(0).try_into().ok()?, &mut settings);
        Some(values![u64::from(refusal), &settings.map(u64::from)[..]])
    }

    pub fn port_packing(case: &Case) -> Option<Answer> {
        let mut packing = u8::MAX;
        let number = |at| u32::try_from(case.number(at)).ok();
        let refusal = face::port_packing(number(0)?, number(1)?, number(2)?, &mut packing);
        Some(values![u64::from(refusal), u64::from(packing)])
    }
}

#[cfg(not(feature = "management"))]
mod by_library {
    use crate::case::{Answer, Case};

    pub fn equipment(_: &Case) -> Option<Answer> {
        None
    }

    pub fn controller(_: &Case) -> Option<Answer> {
        None
    }

    pub fn port_settings(_: &Case) -> Option<Answer> {
        None
    }

    pub fn port_packing(_: &Case) -> Option<Answer> {
        None
    }
}

pub use by_library::{
    controller as controller_by_library, equipment as equipment_by_library, port_packing as port_packing_by_library,
    port_settings as port_settings_by_library,
};
