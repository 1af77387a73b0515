//! Serving the options of a query in order, and writing the reply.

use crate::query::*;
use crate::rules::{self, error, opcode, Rules, RETRY};
use crate::table::Table;

/// What an option of the reply says besides its version and opcode.
#[derive(Clone, Copy, PartialEq, Eq, Debug)]
pub struct Said {
    pub error: u16,
    pub number: LlqNumber,
    pub lease: u32,
}

impl Said {
    fn granted(number: LlqNumber, lease: u32) -> Said {
        Said { error: error::NONE, number, lease }
    }

    fn failed(error: u16, number: LlqNumber) -> Said {
        Said { error, number, lease: 0 }
    }
}

/// Serves one option on the table as the earlier ones left it.
pub fn option<R: Rules>(
    table: &mut Table,
    sender: Sender,
    random: u64,
    question: &Question,
    option: &LlqOption,
) -> Said {
    if let Some(error) = R::malformed(option) {
        let repeated = option.opcode == opcode::REFRESH;
        return Said::failed(error, if repeated { option.number } else { LlqNumber::NONE });
    }
    match (option.opcode, option.number) {
        (opcode::REFRESH, number) => refresh::<R>(table, sender, question, number, option.lease),
        (_, LlqNumber::NONE) => setup::<R>(table, sender, random, question, option.lease),
        (_, number) => response::<R>(table, sender, question, number, option.lease),
    }
}

fn setup<R: Rules>(
    table: &mut Table,
    sender: Sender,
    random: u64,
    question: &Question,
    asked: u32,
) -> Said {
    if let Some(slot) = table.find(|entry| R::setup_finds(entry, sender, question)) {
        let entry = table.entry(slot);
        return Said::granted(entry.number(), R::setup_tells(entry, table.clock().count));
    }
    let held = rules::held::<R>(table, sender);
    let allowed = R::allowance(table, sender.address);
    let full = R::full(held, allowed, table.free() as i32, rules::reserve::<R>(table));
    let Some(slot) = R::slot(table).filter(|_| !full) else {
        return Said { error: error::SERV_FULL, number: LlqNumber::NONE, lease: RETRY };
    };
    let lease = R::granted(asked);
    let number = R::number(random, |number| table.entries().any(|entry| entry.number() == number));
    let stamp = table.clock().count;
    table.fill(slot, sender, question, R::fold, number, lease, stamp);
    Said::granted(number, lease)
}

fn response<R: Rules>(
    table: &mut Table,
    sender: Sender,
    question: &Question,
    number: LlqNumber,
    lease: u32,
) -> Said {
    let count = table.clock().count;
    let found = table.find(|entry| {
        R::response_finds(entry, sender, question, number) && R::response_lease(entry, count, lease)
    });
    let Some(slot) = found else {
        return Said::failed(error::NO_SUCH_LLQ, LlqNumber::NONE);
    };
    table.establish(slot);
    let entry = table.entry(slot);
    Said::granted(entry.number(), R::response_tells(entry, count, lease))
}

fn refresh<R: Rules>(
    table: &mut Table,
    sender: Sender,
    question: &Question,
    number: LlqNumber,
    asked: u32,
) -> Said {
    let Some(slot) = table.find(|entry| R::refresh_finds(entry, sender, question, number)) else {
        return Said::failed(error::NO_SUCH_LLQ, number);
    };
    if asked == 0 {
        table.release(slot);
        return Said::granted(number, 0);
    }
    let lease = R::granted(asked);
    let stamp = table.clock().count;
    table.renew(slot, lease, stamp);
    Said::granted(number, lease)
}

/// Bytes put one after another into the reply buffer, which is long enough.
pub struct Writer<'a> {
    left: &'a mut [u8],
}

impl<'a> Writer<'a> {
    pub fn new(buffer: &'a mut [u8]) -> Self {
        Writer { left: buffer }
    }

    fn put(&mut self, bytes: &[u8]) {
        let (here, left) = std::mem::take(&mut self.left).split_at_mut(bytes.len());
        here.copy_from_slice(bytes);
        self.left = left;
    }

    fn put_u16(&mut self, number: u16) {
        self.put(&number.to_be_bytes());
    }

    /// The header, the questions as received, and the OPT record up to its data.
    pub fn head(&mut self, query: &Query) {
        self.put_u16(query.message.0);
        self.put(&[0x84 | query.recursion_desired, 0]);
        for count in [query.count() as u16, 0, 0, 1] {
            self.put_u16(count);
        }
        self.put(query.question_bytes);
        self.put(&[0]);
        self.put_u16(OPT_TYPE);
        self.put_u16(LONGEST_DATAGRAM as u16);
        self.put(&[0; 4]);
        self.put_u16((OPTION_LENGTH * query.reply_options()) as u16);
    }

    pub fn option(&mut self, opcode: u16, said: Said) {
        for number in [LLQ_CODE, LLQ_LENGTH, 1, opcode, said.error] {
            self.put_u16(number);
        }
        self.put(&said.number.0.to_be_bytes());
        self.put(&said.lease.to_be_bytes());
    }

    /// The one option of a query that fails the count and length test.
    pub fn mismatch(&mut self) {
        self.option(opcode::SETUP, Said::failed(error::FORMAT_ERR, LlqNumber::NONE));
    }
}

#[cfg(test)]
mod tests {
    use super::*;
    use crate::calls::make;
    use crate::rules::Law;

    const SENDER: Sender = Sender { address: 1, port: 9 };
    const QUESTION: Question = Question { name: b"\x01A\x00", qtype: 12, qclass: 1 };

    fn sent(opcode: u16, number: u64, lease: u32) -> LlqOption {
        LlqOption { version: 1, opcode, error: 0, number: LlqNumber(number), lease }
    }

    fn said(error: u16, number: u64, lease: u32) -> Said {
        Said { error, number: LlqNumber(number), lease }
    }

    /// Serves options one by one on one table of two slots.
    fn serving(run: impl Fn(&mut dyn FnMut(Sender, Question, LlqOption) -> Said)) {
        let mut bytes = [0; 313 + 2 * 320];
        assert_eq!(make(0, 0, &mut bytes, &[]), 0);
        let mut table = Table::new(&mut bytes).unwrap();
        run(&mut |sender, question, sent| option::<Law>(&mut table, sender, 7, &question, &sent));
    }

    #[test]
    fn a_setup_again_finds_its_entry() {
        serving(|serve| {
            assert_eq!(serve(SENDER, QUESTION, sent(1, 0, 100)), said(0, 7, 100));
            let folded = Question { name: b"\x01a\x00", ..QUESTION };
            assert_eq!(serve(SENDER, folded, sent(1, 0, 200)), said(0, 7, 100));
            assert_eq!(
                serve(SENDER, Question { qtype: 1, ..QUESTION }, sent(1, 0, 0)),
                said(0, 8, 60)
            );
            assert_eq!(
                serve(SENDER, Question { qclass: 3, ..QUESTION }, sent(1, 0, 0)),
                said(1, 0, 60)
            );
        });
    }

    #[test]
    fn a_response_repeats_everything() {
        serving(|serve| {
            serve(SENDER, QUESTION, sent(1, 0, 100));
            let none = said(4, 0, 0);
            assert_eq!(serve(SENDER, QUESTION, sent(1, 8, 100)), none);
            assert_eq!(serve(SENDER, QUESTION, sent(1, 7, 101)), none);
            assert_eq!(serve(Sender { port: 10, ..SENDER }, QUESTION, sent(1, 7, 100)), none);
            assert_eq!(serve(Sender { address: 2, ..SENDER }, QUESTION, sent(1, 7, 100)), none);
            let other = Question { name: b"\x01b\x00", ..QUESTION };
            assert_eq!(serve(SENDER, other, sent(1, 7, 100)), none);
            // Still pending: a refresh does not find it.
            assert_eq!(serve(SENDER, QUESTION, sent(2, 7, 100)), said(4, 7, 0));
            assert_eq!(serve(SENDER, QUESTION, sent(1, 7, 100)), said(0, 7, 100));
            assert_eq!(serve(SENDER, QUESTION, sent(1, 7, 100)), said(0, 7, 100));
        });
    }

    #[test]
    fn a_refresh_renews_or_frees() {
        serving(|serve| {
            serve(SENDER, QUESTION, sent(1, 0, 100));
            serve(SENDER, QUESTION, sent(1, 7, 100));
            assert_eq!(serve(SENDER, QUESTION, sent(2, 0, 100)), said(4, 0, 0));
            assert_eq!(serve(SENDER, QUESTION, sent(2, 8, 100)), said(4, 8, 0));
            assert_eq!(serve(SENDER, QUESTION, sent(2, 7, 9_999)), said(0, 7, 7_200));
            assert_eq!(serve(SENDER, QUESTION, sent(2, 7, 1)), said(0, 7, 60));
            assert_eq!(serve(SENDER, QUESTION, sent(2, 7, 0)), said(0, 7, 0));
            assert_eq!(serve(SENDER, QUESTION, sent(2, 7, 0)), said(4, 7, 0));
        });
    }

    #[test]
    fn options_not_well_formed() {
        serving(|serve| {
            let mut wrong = |option| serve(SENDER, QUESTION, option);
            assert_eq!(wrong(LlqOption { version: 2, ..sent(1, 5, 100) }), said(5, 0, 0));
            assert_eq!(wrong(LlqOption { version: 0, ..sent(2, 5, 100) }), said(5, 5, 0));
            assert_eq!(wrong(LlqOption { error: 1, ..sent(1, 5, 100) }), said(3, 0, 0));
            assert_eq!(wrong(LlqOption { error: 1, ..sent(2, 5, 100) }), said(3, 5, 0));
            assert_eq!(wrong(sent(3, 5, 100)), said(3, 0, 0));
            assert_eq!(wrong(sent(0, 0, 100)), said(3, 0, 0));
        });
    }
}
