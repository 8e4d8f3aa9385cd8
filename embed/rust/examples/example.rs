//! The same as embed/example.c, in safe Rust.

use dabberblue::{Credit, DeliveryState, Flow, Form, Transfer, place, play};

fn main() {
    headers();
    let message = [0x00, 0x53, 0x70, 0x45, 0x00, 0x53, 0x75, 0xa0, 0x03, 0x41, 0x42, 0x43];
    println!("place (1, 5): {:?}", place(&message, 1, 5));
    println!("place (2, 0): {:?}", place(&message, 2, 0));
    let mut credit = Credit { initial_delivery_count: 0, delivery_count: 20, link_credit: 0 };
    let flow = Flow { delivery_count: Some(10), link_credit: Some(11), drain: false, echo: true };
    let is_answered = credit.flow(&flow);
    println!("{credit:?}, answered: {is_answered}");
    let scenario = b"link table=1 resume=1 resend=1 seats=1 sender=mixed receiver=first limit=0 frame=512 count=0\nspool memory=1024 widest=512\nstate\n";
    let mut answers = [0; 512];
    let (written, result) = play(scenario, &mut answers);
    print!("{}", String::from_utf8_lossy(&answers[..written]));
    println!("played: {result:?}, in 12 bytes: {:?}", play(scenario, &mut answers[..12]));
}

fn headers() {
    let mut transfer = Transfer {
        delivery_tag: Some(vec![0, 0, 0, 7]),
        message_format: Some(0),
        settled: Some(false),
        ..Transfer::default()
    };
    let mut out = [0; 64];
    for form in [Form::Compact, Form::Wide] {
        println!("size: {:?}", transfer.size(form));
        println!("short: {:?}", transfer.write(form, &mut out[..8]));
        let size = transfer.write(form, &mut out).expect("a transfer");
        println!("{:02x?}", &out[..size]);
        let back = Transfer::read(form, &out[..size]);
        println!("back: {}", back.as_ref() == Ok(&transfer));
        println!("cut off: {:?}", Transfer::read(form, &out[..size - 1]));
    }
    transfer.state = Some(DeliveryState::Modified { failed: Some(true), undeliverable: None });
    let size = transfer.write(Form::Compact, &mut out).expect("a transfer");
    println!("{:?}", Transfer::read(Form::Compact, &out[..size]));
    transfer.state = Some(DeliveryState::Rejected { condition: 14 });
    println!("no such condition: {:?}", transfer.size(Form::Compact));
    transfer.delivery_tag = Some(vec![0; 33]);
    println!("long tag: {:?}", transfer.size(Form::Compact));
}
