//! What the tables of a page say, and what is told of a page that cannot be read.

use independent::sheet::form::Form;
use independent::sheet::page::{number, Page};
use independent::sheet::text::{file_of, listing};

fn sheet() -> String {
    let path = concat!(env!("CARGO_MANIFEST_DIR"), "/../docs/FORMAT.md");
    std::fs::read_to_string(path).expect("docs/FORMAT.md is there")
}

#[test]
fn a_number_has_its_commas_or_none() {
    for (text, value) in [("0", 0), ("400", 400), ("1,000", 1_000), ("57344", 57_344)] {
        assert_eq!(number(text), Ok(value), "{}", text);
    }
    assert_eq!(number("4,294,967,295"), Ok(u32::MAX));
    for text in ["", ",", "1,00", "1000,000", "01", "-1", "4,294,967,296", "0x10", "1 000"] {
        assert!(number(text).is_err(), "{:?}", text);
    }
}

#[test]
fn a_table_is_found_by_its_columns() {
    let page =
        Page::new("text\n\n| a | b |\n|---|---|\n| 1 | `0A` |\n\n| c |\n|---|\n| x |\n").unwrap();
    let table = page.table(&["a", "b"]).unwrap();
    assert_eq!((table.rows[0].line, table.rows[0].number(0)), (5, Ok(1)));
    assert_eq!(table.rows[0].bytes(1), Ok(vec![10]));
    assert_eq!(page.unused(), [7]);
    assert!(page.table(&["b", "a"]).is_err());
    let words = Page::new("| a | b |\n|---|---|\n| 1 |\n").err();
    assert_eq!(words.as_deref(), Some("line 3: 1 cells"));
}

#[test]
fn a_page_without_a_table_is_told() {
    let text = sheet();
    assert!(Page::new(&text).and_then(|page| Form::new(&page)).is_ok());
    let without = text.replace("| operand | is |", "| operand | was |");
    let words = Page::new(&without).and_then(|page| Form::new(&page)).err();
    assert!(words.unwrap().contains("no table has the columns operand, is"));
    let without = text.replace("| k | a byte of a global |", "| q | a byte of a global |");
    let words = Page::new(&without).and_then(|page| Form::new(&page)).err();
    assert_eq!(words.as_deref(), Some("no row says what the operand k is"));
}

#[test]
fn instructions_in_words_are_read_back() {
    let page = Page::new(&sheet()).unwrap();
    let form = Form::new(&page).unwrap();
    let words = "SET 0 300; WRITE8 0 0 1; JUMP 2";
    let judged = form.judge(1, &file_of(&form, 1, words).unwrap()).unwrap();
    assert_eq!(judged.refusal, None);
    assert_eq!(listing(&judged).join("; "), words);
    assert!(file_of(&form, 2, words).is_err(), "a WRITE of version 2 has no set");
    assert!(file_of(&form, 1, "GOTO 1").is_err());
}
