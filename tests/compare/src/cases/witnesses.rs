//! The reader and the account of a sequence, who are told nothing but the calls.

use crate::protocol::{Call, Request};
use crate::witness::{Left, LookAt, Told, Witness};
use reference::*;
use std::rc::Rc;

pub struct Witnesses {
    pub reader: Reader,
    account: Rc<Account>,
}

impl Witnesses {
    /// From a start, with these table words.
    pub fn begin(words: Vec<u32>) -> Witnesses {
        Witnesses {
            reader: Reader::begin(words),
            account: Rc::new(Account::begin()),
        }
    }

    /// What they say of a served access, a store or a setting.
    pub fn hear(&mut self, request: &Request, look_at: LookAt) -> Witness {
        let call = match request.call {
            Call::Served(access) => GuardedCall::Access(access),
            Call::Store { index, value } => GuardedCall::Store { index, value },
            Call::Setting { number, value } => GuardedCall::Setting { number, value },
            other => panic!("{other:?} is no call of a sequence"),
        };
        let said = self.reader.hear(self.handed(request), call);
        let told = match (said, call) {
            (Said::Refused(number), _) => return Witness::of_refusal(number),
            (said, GuardedCall::Access(access)) => {
                let slot = Rc::make_mut(&mut self.account).access(&self.reader, access);
                Told::Access {
                    said,
                    loaded: slot.is_some(),
                }
            }
            (_, GuardedCall::Store { .. }) => Told::Store {
                emptied: self.emptied(),
            },
            (_, GuardedCall::Setting { .. }) => Told::Setting,
        };
        let account = (request.buffer.len() == SLOTS).then(|| Rc::clone(&self.account));
        Witness {
            told,
            left: Some(self.left(account, look_at)),
        }
    }

    /// What they say of the store that a map makes, or the map's refusal before a frame is taken.
    pub fn hear_store_of_map(
        &mut self,
        request: &Request,
        (index, value): (u32, u32),
        look_at: LookAt,
    ) -> Witness {
        let store = GuardedCall::Store { index, value };
        match self.reader.hear(self.handed(request), store) {
            Said::Refused(number) => Witness::of_refusal(number),
            _ => Witness {
                told: Told::Map {
                    emptied: self.emptied(),
                },
                left: Some(self.left(Some(Rc::clone(&self.account)), look_at)),
            },
        }
    }

    /// What they say of the stores that an accepted pass makes, one after another.
    pub fn hear_stores_of_pass(
        &mut self,
        request: &Request,
        stores: &[(u32, u32)],
        look_at: LookAt,
    ) -> Witness {
        let mut emptied = 0;
        for &(index, value) in stores {
            let store = GuardedCall::Store { index, value };
            let said = self.reader.hear(self.handed(request), store);
            assert_eq!(said, Said::Written, "{:?}", request.call);
            emptied += self.emptied();
        }
        Witness {
            told: Told::Pass { emptied },
            left: Some(self.left(Some(Rc::clone(&self.account)), look_at)),
        }
    }

    /// What they say of the whole table run.
    pub fn hear_of_words(&self, look_at: LookAt) -> Witness {
        Witness {
            told: Told::Words(self.reader.words().to_vec()),
            left: Some(self.left(Some(Rc::clone(&self.account)), look_at)),
        }
    }

    /// The page that a slot holds.
    pub fn page_of(&self, slot: usize) -> u32 {
        vpn_of(slot, self.account.slot(slot))
    }

    /// How many slots go with the store that the reader has just heard of.
    fn emptied(&mut self) -> u32 {
        Rc::make_mut(&mut self.account).store(&self.reader)
    }

    fn left(&self, account: Option<Rc<Account>>, look_at: LookAt) -> Left {
        Left {
            settings: self.reader.settings(),
            account,
            look_at,
        }
    }

    /// The run that the call finds is the reader's, unless it is handed another.
    fn handed(&self, request: &Request) -> Handed {
        Handed {
            registers: Registers::from_words(request.registers),
            buffer: request.buffer.len(),
            tables: match request.tables.len() {
                0 => self.reader.words().len(),
                length => length,
            },
        }
    }
}
