//! Requests about orders.

use crate::answers::Answer;
use crate::block::Block;
use nulambiro::{order_record, order_records, LengthPlace, OrderRecord};

/// How order `n=` of `stream=` was written, in a picture of `width=`, `height=` and `bpp=`.
///
/// The walk over all orders has to give the same; where it does not, both answers are given, which
/// is due nowhere.
pub fn record(case: &Block) -> Answer {
    let [width, height, bpp, n] = ["width", "height", "bpp", "n"].map(|key| case.number(key));
    let stream = case.bytes("stream");
    let by_number = order_record(&stream, width, height, bpp, n);
    let by_walk = order_records(&stream, width, height, bpp).nth(n);
    let mut text = lines(by_number);
    if by_walk != by_number {
        text = format!("by number:\n{text}by walk:\n{}", lines(by_walk));
    }
    Answer {
        text,
        in_part: false,
    }
}

fn lines(record: Option<OrderRecord>) -> String {
    let Some(OrderRecord { header, place, .. }) = record else {
        return String::from("no order\n");
    };
    let place = match place {
        LengthPlace::None => "none",
        LengthPlace::Header => "header",
        LengthPlace::OneByte => "one",
        LengthPlace::TwoBytes => "two",
    };
    format!("header={header:02x}\nplace={place}\n")
}
