//! Files, and what is had of bad ones (docs/FORMAT.md).

mod common;

use common::{mended, refused, shop, with_word};
use dudowiej::{Card, Input, Plan, Reason, Record, BLOCK_BYTES};

const SHOP: &[u8] = include_bytes!("../../samples/shop.card");

#[test]
fn a_file_of_one_block() {
    let shop = shop("p(a).");
    let file = shop.record.write_file(&shop.plan).unwrap();
    assert_eq!(file.len(), BLOCK_BYTES);
    assert_eq!(file[..16], [0, 0, 0, 0, 3, 0, 0, 0, 4, 0, 0, 0, 1, 0, 0, 0]);
    assert_eq!(file[504..], [0x0c, 0, 0, 0x80, 0xc6, 5, 0, 0xc0]);
    assert_eq!(mended(file.clone()), file);
    assert_eq!(refused(shop.record.write_file_in(&shop.plan, &mut [0; 511])), (Reason::Room, Input::Room, 512));
}

#[test]
fn writing_and_reading_undo_each_other() {
    let (record, _) = Record::from_text(include_bytes!("../../samples/shop.pl"), 0).unwrap();
    let plan = Plan::build(&record).plan;
    assert_eq!(record.write_file(&plan).unwrap(), SHOP);
    let card = Card::read(SHOP).unwrap();
    assert_eq!(card, Card { table: record.table().to_vec(), plan });
    assert_eq!(card.work_out(0), Ok(record));
    assert_eq!(card.work_out(3).unwrap().write_file(&card.plan).unwrap(), SHOP);
}

#[test]
fn bad_files() {
    let mut spoiled = SHOP.to_vec();
    spoiled[600] ^= 1;
    assert_eq!(refused(Card::read(&spoiled)), (Reason::Damage, Input::File, 1));
    let exchanged = [&SHOP[512..], &SHOP[..512]].concat();
    assert_eq!(refused(Card::read(&exchanged)), (Reason::Damage, Input::File, 0));
    assert_eq!(refused(Card::read(&SHOP[..512])), (Reason::Sizes, Input::File, 0));
    assert_eq!(refused(Card::read(&SHOP[..511])), (Reason::Blocks, Input::File, 0));
    assert_eq!(refused(Card::read(&[])), (Reason::Blocks, Input::File, 0));
    let shop = shop("p(a).");
    let file = shop.record.write_file(&shop.plan).unwrap();
    assert_eq!(refused(Card::read(&with_word(&file, 125, 1))), (Reason::Padding, Input::File, 0));
    assert_eq!(refused(Card::read(&with_word(&file, 3, 9))), (Reason::Width, Input::Table, 0));
    assert_eq!(refused(Card::read(&with_word(&file, 9, 2))), (Reason::Rows, Input::Plan, 3));
}

#[test]
fn what_is_had_of_bad_files() {
    let whole = Card::salvage(SHOP).unwrap();
    assert_eq!((whole.kept, whole.dropped, whole.plan_kept, &whole.bad_blocks[..]), (12, 0, true, &[][..]));
    assert_eq!(whole.card, Card::read(SHOP).unwrap());

    let zeroed = [&SHOP[..512], &[0; 512]].concat();
    for file in [&zeroed[..], &SHOP[..SHOP.len() - 1]] {
        let saved = Card::salvage(file).unwrap();
        assert_eq!((saved.kept, saved.dropped, saved.plan_kept, &saved.bad_blocks[..]), (12, 0, false, &[1][..]));
        // The least plan with figure 0 is the file's own.
        assert_eq!(saved.card, whole.card);
        assert_eq!(refused(Card::salvage_in(file, &mut [])), (Reason::Room, Input::Room, 1));
    }
    let missing = Card::salvage(&SHOP[..512]).unwrap();
    assert_eq!((missing.kept, missing.plan_kept, &missing.bad_blocks[..]), (12, false, &[][..]));

    let longer = [SHOP, &[1]].concat();
    let saved = Card::salvage(&longer).unwrap();
    assert_eq!((saved.kept, saved.plan_kept, &saved.bad_blocks[..]), (12, true, &[2][..]));
}

#[test]
fn rows_that_are_dropped() {
    // The third row becomes the first again; the table is no longer one, and its first two rows are.
    let shop = shop("p(a). p(b). p(c).");
    let file = shop.record.write_file(&shop.plan).unwrap();
    let saved = Card::salvage(&with_word(&file, 7, shop.record.row(0).unwrap()[0])).unwrap();
    assert_eq!((saved.kept, saved.dropped, saved.plan_kept), (2, 1, false));
    assert_eq!(saved.card.table, shop.cells("1 2 a b"));
    assert_eq!(saved.card.plan.cells(), shop.cells("0 2 a 1 b 1"));
    assert_eq!(refused(Card::salvage(&with_word(&file, 5, 3 << 30))), (Reason::None, Input::File, 0));
    assert_eq!(refused(Card::salvage(&file[..511])), (Reason::Head, Input::File, 0));
    assert_eq!(refused(Card::salvage(&[])), (Reason::Head, Input::File, 0));
}
