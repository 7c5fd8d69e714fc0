//! An IPI as a list shows it: what is sent and to whom (7.1, 12.21). Whether it was accepted is said
//! by the answer, which is not read here.

use crate::events::Event;
use crate::icr;
use crate::registers::{ICR, SELF_IPI};
use crate::state::Item;

pub struct Ipi {
    pub item: Item,
    caller: u32,
    /// The value written to the ICR; none for the self-IPI register.
    value: Option<u64>,
}

impl Ipi {
    pub fn of(event: &Event) -> Option<Ipi> {
        let Event::Call {
            vcpu,
            call: 3,
            ecx,
            rdx,
        } = *event
        else {
            return None;
        };
        let (item, value) = match ecx {
            ICR => (icr::item(rdx), Some(rdx)),
            SELF_IPI => (Item::Vector(rdx as usize), None),
            _ => return None,
        };
        Some(Ipi {
            item,
            caller: vcpu,
            value,
        })
    }

    pub fn is_self_ipi(&self) -> bool {
        self.value.is_none()
    }

    /// 7.6, 7.12, 7.22; a target may be inactive.
    pub fn targets(&self, id: u32) -> bool {
        match self.value {
            Some(value) => icr::names(value, self.caller, id),
            None => id == self.caller,
        }
    }
}
