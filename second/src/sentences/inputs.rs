//! The field rules of the four inputs.

use super::rows::*;
use super::{Item, List};
use crate::calls::{Call, BAD_INPUT, MAX_ENTRIES};
use crate::record::*;

/// An input that its call accepts on the books here.
pub(super) fn usual_record(call: Call) -> Row {
    let zero = Row {
        kind: call.kind(),
        ..Row::default()
    };
    match call {
        Call::Order => Row {
            typ: TMS,
            party: ACCOUNT_1,
            symbol: ABC,
            n1: 10,
            time: 400,
            ..zero
        },
        Call::Result => Row {
            id: 12,
            n1: 3_000,
            time: 400,
            ..zero
        },
        Call::Feed => Row {
            symbol: ABC,
            n1: 3_000,
            n2: 10,
            time: 400,
            ..zero
        },
        Call::Lookup => Row { id: 10, ..zero },
    }
}

impl List {
    /// An input record, good or bad: alone, and for a feed or a lookup among others, at any place.
    fn record(&mut self, call: Call, label: &str, row: Row, good: bool) {
        let mut inputs = vec![(label.to_string(), vec![row])];
        if matches!(call, Call::Feed | Call::Lookup) {
            let mut rows = vec![usual_record(call); MAX_ENTRIES];
            let at = self.items.len() / 2 % MAX_ENTRIES;
            rows[at] = row;
            inputs.push((format!("{label}, as record {at}"), rows));
        }
        for (label, rows) in inputs {
            self.items.push(Item {
                label: format!("{} {label}", call.name()),
                book: self.book(&[]),
                input: Some((call, rows)),
                breaks: Vec::new(),
                refused: (!good).then_some(BAD_INPUT),
            });
        }
    }

    /// The limits of a field of an input record.
    fn input_range(
        &mut self,
        call: Call,
        record: Row,
        field: Field,
        low: impl Into<i128>,
        high: impl Into<i128>,
    ) {
        for (edge, value, good) in edges(field, low, high) {
            let label = format!("{} {edge}, type {}", field_name(field), record.typ);
            self.record(call, &label, with(record, field, value), good);
        }
    }
}

pub(super) fn add(list: &mut List) {
    use Field::*;
    for call in Call::ALL {
        let usual = usual_record(call);
        let used: &[Field] = match call {
            Call::Order => &[Kind, Typ, Flags, Party, Symbol, N1, N2, N3, Time],
            Call::Result => &[Kind, Id, N1, Time],
            Call::Feed => &[Kind, Symbol, N1, N2, Time],
            Call::Lookup => &[Kind, Id],
        };
        for kind in (0..=255).filter(|kind| *kind != call.kind()) {
            list.record(call, &format!("kind {kind}"), Row { kind, ..usual }, false);
        }
        for other in Call::ALL.into_iter().filter(|other| *other != call) {
            let label = format!("the record of another call, {}", other.name());
            list.record(call, &label, usual_record(other), false);
        }
        for at in unused_places(used) {
            for value in [1, 128] {
                let row = with_byte(usual, at, value);
                list.record(call, &format!("unused byte {at}: {value}"), row, false);
            }
        }
        if used.contains(&Symbol) {
            for symbol in good_symbols() {
                let label = format!(
                    "symbol {}",
                    String::from_utf8_lossy(&symbol[..7]).trim_end_matches('\0')
                );
                list.record(call, &label, Row { symbol, ..usual }, true);
            }
            for (name, symbol) in bad_symbols() {
                list.record(
                    call,
                    &format!("symbol {name}"),
                    Row { symbol, ..usual },
                    false,
                );
            }
        }
        if used.contains(&Time) {
            list.input_range(call, usual, Time, 0, MAX_TIME);
        }
        if used.contains(&Id) {
            list.input_range(call, usual, Id, 1, MAX_TRADE_NUMBER);
        }
    }
    list.input_range(Call::Result, usual_record(Call::Result), N1, 1, MAX_PRICE);
    list.input_range(Call::Feed, usual_record(Call::Feed), N1, 1, MAX_PRICE);
    list.input_range(Call::Feed, usual_record(Call::Feed), N2, 1, MAX_SHARES);

    // "n2 bid (zero exactly for types 1 and 2, which use the last price)"
    let market = usual_record(Call::Order);
    let limit = Row {
        typ: TLB,
        n2: 1,
        ..market
    };
    for typ in [TMB, TMS] {
        list.input_range(Call::Order, Row { typ, ..market }, N2, 0, 0);
    }
    for typ in [TLB, TLS, TSL] {
        list.input_range(Call::Order, Row { typ, ..limit }, N2, 1, MAX_PRICE);
    }
    for (record, good) in [(market, TMB..=TMS), (limit, TLB..=TSL)] {
        for typ in [TMB, TMS, TLB, TLS, TSL, 0, TSL + 1, 128, 255] {
            let label = format!("typ {typ}, bid {}", record.n2);
            let row = Row { typ, ..record };
            list.record(Call::Order, &label, row, good.contains(&typ));
        }
        list.input_range(Call::Order, record, Flags, 0, 7);
        list.input_range(Call::Order, record, Party, 1, MAX_NUMBER);
        list.input_range(Call::Order, record, N1, 1, MAX_SHARES);
        list.input_range(Call::Order, record, N3, 0, MAX_NUMBER);
    }
}
