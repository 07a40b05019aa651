//! What `check` writes.
use crate::files::CheckFile;
use crate::text::Text;
use crate::truck::{HS20, Train};

pub fn report(file: &CheckFile) -> Vec<u8> {
    let (truck, train) = (&file.truck, &file.truck.train);
    let (mut text, mut legal) = (Text::default(), true);
    text.word("truck ").word(&truck.name).pair(" axles ", train.axles.len() as u64);
    text.pair(" gross ", train.gross()).word("\n");
    for group in train.groups().filter(|group| group.weight > group.limit) {
        legal = false;
        text.pair("over ", group.first as u64 + 1).pair("-", group.last as u64 + 1);
        text.pair(" ", group.weight).pair(" ", group.limit).word(" ").word(group.rule).word("\n");
    }
    if train.gross() > 80000 {
        legal = false;
        text.pair("over 1-", train.axles.len() as u64).pair(" ", train.gross()).word(" 80000 gross\n");
    }
    if truck.height > 162 {
        legal = false;
        text.pair("high ", truck.height).word(" 162\n");
    }
    if truck.width > 102 {
        legal = false;
        text.pair("wide ", truck.width).word(" 102\n");
    }
    text.word(if legal { "legal yes\n" } else { "legal no\n" });
    let design = Train::new(HS20.to_vec());
    for &(inches, rating) in &file.probes {
        probe(&mut text, train, &design, inches, rating);
    }
    text.0
}

fn probe(text: &mut Text, train: &Train, design: &Train, inches: u32, rating: u32) {
    let span = u64::from(inches);
    let (moment, place) = train.moment_with_place(span);
    let (shear, lead, side) = train.shear(span);
    let most = design.effects(span);
    text.pair("span ", inches).word("\nmoment ").frac(moment.lowest()).word(" at ").signed(place.scale);
    text.word(" ").signed(place.lead).word(" ").signed(place.section).pair(" axle ", place.axle as u64 + 1);
    text.pair(" run ", place.run.0 as u64 + 1).pair("-", place.run.1 as u64 + 1);
    text.word("\nshear ").frac(shear.lowest()).word(" at ").signed(lead.into()).word(" ").word(side);
    text.word("\nhs20 ").frac(most.moment.lowest()).word(" ").frac(most.shear.lowest()).pair("\nrating ", rating);
    text.word(if rating < moment.least_rating(most.moment) {
        " moment\n"
    } else if rating < shear.least_rating(most.shear) {
        " shear\n"
    } else {
        " fits\n"
    });
}
