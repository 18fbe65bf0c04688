//! The reader: walked from record to record it comes to the judge's answer (01, Table records).

use second::generator::{any_net, damaged, small_net, Random};
use second::reader::Reader;
use second::refusal::Refusal;
use second::table::{read_table, table_bytes};

/// The places of the records that a reader moves past, and the refusal that ends its walk.
fn walk(table: &[u8]) -> (Vec<usize>, Refusal) {
    let mut reader = Reader::over(table);
    let mut places = vec![reader.place()];
    loop {
        match reader.read() {
            Ok(next) => places.push(next),
            Err(refusal) => {
                assert_eq!(places.last(), Some(&reader.place()));
                return (places, refusal);
            }
        }
    }
}

#[test]
fn an_accepted_table_is_walked_to_its_end() {
    let mut random = Random::given();
    for _ in 0..2000 {
        let net = any_net(&mut random);
        let table = table_bytes(&net);
        let (places, refusal) = walk(&table);
        let records = net.events.len() + 2 + usize::from(net.rule.is_some());
        assert_eq!(places.len(), records + 1);
        assert_eq!(places.last(), Some(&table.len()));
        assert_eq!(refusal, Refusal::at(1, table.len()));
    }
}

#[test]
fn a_refused_table_ends_the_walk_with_its_refusal() {
    let mut random = Random::given();
    for _ in 0..20_000 {
        let net = small_net(&mut random);
        let table = damaged(&mut random, &net).bytes;
        let (places, refusal) = walk(&table);
        assert_eq!(read_table(&table), Err(refusal));
        assert!(places.windows(2).all(|pair| pair[0] < pair[1]));
    }
}
