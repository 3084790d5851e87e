//! Devices in the middle of a run whose words hold numbers that no history leads to.
#![cfg(feature = "library")]

use tollgutter_tests::each_word;

#[test]
fn every_word_may_hold_any_number() {
    let seen = each_word::each_word().unwrap_or_else(|fault| panic!("{fault}"));
    println!("{}", seen.in_short());
}

#[test]
fn the_limit_goes_by_the_count_and_the_number_by_its_word() {
    let seen = each_word::each_count().unwrap_or_else(|fault| panic!("{fault}"));
    println!("{}", seen.in_short());
}

#[test]
fn every_line_is_answered_as_the_one_it_counts_as() {
    let seen = each_word::each_line().unwrap_or_else(|fault| panic!("{fault}"));
    println!("{}", seen.in_short());
}

#[test]
fn maps_go_by_the_word_of_each_buffer() {
    let seen = each_word::each_map().unwrap_or_else(|fault| panic!("{fault}"));
    println!("{}", seen.in_short());
}
