//! The sheet's text.

use super::gates::Gates;
use super::rounds::Closing;

pub fn sheet(nets: usize, gates: &Gates, closing: &Closing) -> Vec<u8> {
    let verdict = if closing.leads.is_some() { "settled" } else { "contradiction" };
    let leads = closing.leads.as_deref();
    let own = |(net, &lead): (usize, &u32)| lead as usize == 2 * net + 2;
    let groups = leads.map_or(0, |leads| leads.iter().enumerate().filter(|&l| own(l)).count());
    let (ands, xors, ites) = (gates.and_count, gates.xors.len(), gates.ites.count);
    let mut text = Vec::with_capacity(16_384);
    text.extend_from_slice(b"verdict,rounds,variables,ands,xors,ites,groups\n");
    text.extend_from_slice(format!("{verdict},{},{nets},{ands},{xors},{ites},{groups}\n", closing.rounds).as_bytes());
    if let Some(leads) = leads {
        text.extend_from_slice(b"net,lead\n");
        for (net, &lead) in leads.iter().enumerate() {
            put_number(&mut text, net as u32 + 1);
            text.push(b',');
            put_lead(&mut text, lead);
            text.push(b'\n');
        }
    }
    text
}

fn put_lead(text: &mut Vec<u8>, lead: u32) {
    match lead {
        0 => text.push(b'F'),
        1 => text.push(b'T'),
        _ => {
            if lead % 2 == 1 {
                text.push(b'-');
            }
            put_number(text, lead / 2);
        }
    }
}

fn put_number(text: &mut Vec<u8>, number: u32) {
    if number >= 10 {
        put_number(text, number / 10);
    }
    text.push(b'0' + (number % 10) as u8);
}
