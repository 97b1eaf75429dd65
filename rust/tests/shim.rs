//! Tests of what stands for Rattle's library, against Rust's own.

use dewikura::shim::bstr::ByteSlice;
use dewikura::shim::hasher::HashSecrets;
use dewikura::shim::indexmap::{IndexMap, IndexSet};
use dewikura::shim::itoa;
use dewikura::shim::json::{Writer, is_number};
use dewikura::shim::std::alloc::Global;
use dewikura::shim::std::clone::TryClone;
use dewikura::shim::std::collections::BTreeMap;
use dewikura::shim::std::fmt::InlineText;
use dewikura::shim::std::io::{BufReader, BufWriter};
use dewikura::shim::std::rc::Rc;
use dewikura::shim::std::slice::SliceExt;
use dewikura::shim::std::string::String as ShimString;
use dewikura::shim::std::vec::Vec as ShimVec;
use std::cell::Cell;
use std::collections::{self, HashSet};
use std::hash::BuildHasher;
use std::io::{self, BufRead, Cursor, ErrorKind, Read, Seek, SeekFrom, Write};

/// Numbers that look random (xorshift64).
struct Numbers(u64);

impl Numbers {
    fn below(&mut self, limit: u64) -> u64 {
        self.0 ^= self.0 << 13;
        self.0 ^= self.0 >> 7;
        self.0 ^= self.0 << 17;
        self.0 % limit
    }
}

// Inserts and removes keys below `limit`, and compares the map with Rust's after each step.
fn compare_maps(seed: u64, limit: u64, steps: u64) {
    let mut numbers = Numbers(seed);
    let mut map = BTreeMap::new(Global);
    let mut expected = collections::BTreeMap::new();
    for step in 0..steps {
        let key = numbers.below(limit);
        match numbers.below(5) {
            0 | 1 => assert_eq!(map.insert(key, step).expect("memory"), expected.insert(key, step)),
            2 => assert_eq!(map.entry(key).expect("memory").or_insert(step), expected.entry(key).or_insert(step)),
            _ => assert_eq!(map.remove(&key), expected.remove(&key)),
        }
        assert_eq!(map.len(), expected.len());
        assert_eq!(map.get(&key), expected.get(&key));
        assert_eq!(map.contains_key(&(key + 1)), expected.contains_key(&(key + 1)));
        if step % 16 == 0 {
            assert!(map.iter().eq(expected.iter()), "after step {step}");
            assert_eq!(map.first_key_value(), expected.first_key_value());
            assert_eq!(map.last_key_value(), expected.last_key_value());
        }
    }
    assert!(map.into_iter().eq(expected));
}

#[test]
fn btree_map_is_as_that_of_rust() {
    for seed in 1..9 {
        for limit in [3, 40, 700, 100_000] {
            compare_maps(seed * 7919, limit, 4000);
        }
    }
}

#[test]
fn btree_map_grows_and_shrinks_in_each_order() {
    for step in [1, 7919, 9999] {
        let mut map = BTreeMap::new(Global);
        for index in 0..10_000u64 {
            map.insert(index * step % 10_000, index).expect("memory");
        }
        assert_eq!(map.len(), 10_000);
        assert!(map.keys().copied().eq(0..10_000));
        for index in 0..10_000u64 {
            assert_eq!(map.remove(&(index * 3 % 10_000)), Some(index * 3 % 10_000 * inverse(step) % 10_000));
        }
        assert!(map.is_empty() && map.iter().next().is_none());
    }
}

// The number that gives 1 when it is multiplied by `step` modulo 10,000.
fn inverse(step: u64) -> u64 {
    (1..10_000).find(|number| number * step % 10_000 == 1).expect("a step without common factors")
}

#[test]
fn index_map_keeps_the_order_of_insertion() {
    let mut numbers = Numbers(5);
    let mut map = IndexMap::new(Global);
    let mut set = IndexSet::new(Global);
    let mut order: Vec<u64> = Vec::new();
    let mut values = collections::HashMap::new();
    for step in 0..20_000u64 {
        let key = numbers.below(3000);
        if !values.contains_key(&key) {
            order.push(key);
        }
        assert_eq!(set.insert_full(key).expect("memory").1, !values.contains_key(&key));
        assert_eq!(map.insert(key, step).expect("memory"), values.insert(key, step));
        assert_eq!(map.get_index_of(&key), order.iter().position(|found| *found == key));
    }
    assert!(map.keys().eq(&order) && set.iter().eq(&order));
    assert!(order.iter().all(|key| map.get(key) == values.get(key)));
    assert_eq!(map.get(&5000), None);
    assert_eq!(set.into_iter().collect::<Vec<_>>(), order);
}

// Keys are found by slices of them, the empty one too.
#[test]
fn index_sets_are_searched_by_slices() {
    let (mut lists, mut texts) = (IndexSet::new(Global), IndexSet::new(Global));
    for number in 0..300_usize {
        let bytes = vec![b'a' + (number % 3) as u8; number];
        let text = str::from_utf8(&bytes).expect("text");
        assert_eq!((lists.get_index_of(bytes.as_slice()), texts.contains(text)), (None, false), "{number}");
        for is_new in [true, false] {
            let list = ShimVec::from_slice(Global, &bytes).expect("memory");
            assert_eq!(lists.insert_full(list).expect("memory"), (number, is_new));
            let copy = ShimString::from_str(Global, text).expect("memory");
            assert_eq!(texts.insert(copy).expect("memory"), is_new);
        }
        assert_eq!((lists.get_index_of(bytes.as_slice()), texts.get_index_of(text)), (Some(number), Some(number)));
        let list = ShimVec::from_slice(Global, &bytes).expect("memory");
        assert_eq!((lists.get_index_of(&list), &lists[number]), (Some(number), &list));
        assert!(number == 0 || list != lists[number - 1]);
    }
}

// Keys of a type that differ in one place have different hashes, and maps have different secrets.
#[test]
fn hashes_of_other_keys_are_others() {
    let secrets = HashSecrets::new();
    let mut texts = HashSet::new();
    for len in 1..70 {
        for (position, byte) in (0..len).flat_map(|position| (1..4).map(move |byte| (position, byte))) {
            let mut text = vec![0_u8; len];
            text[position] = byte;
            assert!(texts.insert(secrets.hash_one(text.as_slice())), "{text:?}");
        }
    }
    let (mut numbers, mut shifted, mut pairs) = (HashSet::new(), HashSet::new(), HashSet::new());
    for number in 0..5000_u64 {
        assert!(numbers.insert(secrets.hash_one(number)), "{number}");
        assert!(shifted.insert(secrets.hash_one(number << 40)), "{number}");
        assert!(pairs.insert(secrets.hash_one((number / 50, number % 50))), "{number}");
    }
    assert_ne!(secrets.hash_one(1), HashSecrets::new().hash_one(1));
}

#[test]
fn sorts_are_stable() {
    let mut numbers = Numbers(9);
    for len in [0, 1, 2, 21, 500, 5000] {
        let items: Vec<(u64, usize)> = (0..len).map(|index| (numbers.below(50), index)).collect();
        let mut expected = items.clone();
        expected.sort_by_key(|item| item.0);
        let mut sorted = items.clone();
        sorted.sort_by_key_in(Global, |item| item.0).expect("memory");
        assert_eq!(sorted, expected);
        let mut sorted = ShimVec::from_slice(Global, &items).expect("memory");
        sorted.sort_by(|a, b| b.0.cmp(&a.0)).expect("memory");
        expected.sort_by(|a, b| b.0.cmp(&a.0).then(a.1.cmp(&b.1)));
        assert_eq!(sorted.as_slice(), expected);
    }
}

// Ascending keys, some of which are late: by none, by little, and those of several writers in turn.
#[test]
fn late_elements_are_merged() {
    let mut numbers = Numbers(11);
    for len in [2, 3, 40, 3000] {
        let mut inputs: Vec<Vec<u64>> = vec![(0..len).collect(), (0..len).rev().collect()];
        inputs.push((0..len).map(|index| if numbers.below(8) == 0 { 0 } else { index / 3 }).collect());
        inputs.push((0..len).map(|index| index + numbers.below(20)).collect());
        inputs.push((0..len).map(|index| index % (len / 2)).collect());
        inputs.push((0..len).map(|index| if index == 0 { len } else { index }).collect());
        for input in inputs {
            let items: Vec<(u64, usize)> = input.into_iter().enumerate().map(|(position, key)| (key, position)).collect();
            let mut expected = items.clone();
            expected.sort_by_key(|item| item.0);
            let mut sorted = items;
            sorted.sort_by_key_in(Global, |item| item.0).expect("memory");
            assert_eq!(sorted, expected);
        }
    }
}

#[test]
fn owners_share_a_value_that_the_last_one_drops() {
    struct Counted<'a>(&'a Cell<u32>);
    impl Drop for Counted<'_> {
        fn drop(&mut self) {
            self.0.set(self.0.get() + 1);
        }
    }
    let drops = Cell::new(0);
    let first = Rc::new(Global, Counted(&drops)).expect("memory");
    let second = first.try_clone().expect("fewer owners than the greatest number");
    drop(first);
    assert_eq!((drops.get(), second.0.get()), (0, 0));
    drop(second);
    assert_eq!(drops.get(), 1);
}

#[test]
fn numbers_have_their_digits() {
    let mut buffer = itoa::Buffer::new();
    for power in (0..20).map(|exponent| 10_u64.pow(exponent)).chain((0..64).map(|bit| 1 << bit)) {
        for number in [power - 1, power, power + 1] {
            let mut bytes = [0; 20];
            let start = itoa::write_digits(number, &mut bytes, 20);
            assert_eq!(str::from_utf8(&bytes[start..]), Ok(number.to_string().as_str()));
            assert_eq!(itoa::count_digits(number), 20 - start);
        }
    }
    for number in [0, 9, 10, 99, 100, 101, 12345, u64::MAX / 10, u64::MAX] {
        assert_eq!(buffer.format(number), number.to_string());
    }
    for number in [i128::MIN, -10, -1, 0, i128::MAX] {
        assert_eq!(buffer.format(number), number.to_string());
    }
    assert_eq!(buffer.format(i64::MIN), i64::MIN.to_string());
    assert_eq!(buffer.format(-7i8), "-7");
}

// The texts of serde_json, which writes a sign at each exponent above 15.
#[test]
fn floats_are_the_shortest_numbers_of_json() {
    let texts = [
        (0.0, "0.0"), (-0.0, "-0.0"), (1.0, "1.0"), (-2.5, "-2.5"), (0.1, "0.1"), (100.0, "100.0"), (123456.789, "123456.789"),
        (1e15, "1000000000000000.0"), (1e16, "1e+16"), (1.5e300, "1.5e+300"), (1e-5, "0.00001"), (1.25e-5, "0.0000125"),
        (1e-6, "1e-6"), (2.5e-7, "2.5e-7"), (f64::MAX, "1.7976931348623157e+308"),
    ];
    for (number, text) in texts {
        let mut writer = Writer::new(ShimVec::new(Global));
        writer.float_with_plus(number).expect("memory");
        assert_eq!(writer.into_inner().as_slice(), text.as_bytes());
    }
}

#[test]
fn json_has_commas_and_escapes() {
    let mut writer = Writer::new(ShimVec::new(Global));
    let mut write = || {
        writer.begin_object()?;
        writer.key("a\"\\\n\u{1}\u{7f}é")?;
        writer.begin_array()?;
        writer.u64(1)?;
        writer.i64(-2)?;
        writer.null()?;
        writer.boolean(true)?;
        writer.end_array()?;
        writer.key("b")?;
        writer.string("")?;
        writer.end_object()
    };
    write().expect("memory");
    let text = "{\"a\\\"\\\\\\n\\u0001\u{7f}é\":[1,-2,null,true],\"b\":\"\"}";
    assert_eq!(writer.into_inner().as_slice(), text.as_bytes());
}

// Texts of each length up to 40 bytes, with each byte that is escaped, and those beside them, at each position.
#[test]
fn each_text_is_escaped_as_by_its_bytes() {
    let escaped = |byte: u8| match byte {
        b'"' | b'\\' => format!("\\{}", char::from(byte)),
        8 => "\\b".to_string(),
        9 => "\\t".to_string(),
        10 => "\\n".to_string(),
        12 => "\\f".to_string(),
        13 => "\\r".to_string(),
        0..0x20 => format!("\\u{byte:04x}"),
        _ => char::from(byte).to_string(),
    };
    for len in 1..40 {
        for position in 0..len {
            for byte in (0..0x24).chain([b'[', b'\\', b']', 0x7f]) {
                let mut text = vec![b'a'; len];
                text[position] = byte;
                let mut writer = Writer::new(ShimVec::new(Global));
                writer.string(str::from_utf8(&text).expect("UTF-8")).expect("memory");
                let expected: String = text.iter().map(|byte| escaped(*byte)).collect();
                assert_eq!(writer.into_inner().as_slice(), format!("\"{expected}\"").as_bytes());
            }
        }
    }
}

#[test]
fn numbers_of_json_are_known() {
    for text in ["0", "-0", "12", "1.5", "1e5", "-1.25E+10", "0.0e-1"] {
        assert!(is_number(text), "{text}");
    }
    for text in ["", "-", "01", "1.", ".5", "1e", "1e+", "+1", "1 ", "0x1", "NaN"] {
        assert!(!is_number(text), "{text}");
    }
}

#[test]
fn a_long_text_ends_in_dots() {
    assert_eq!(InlineText::<8>::of("12345678").as_str(), "12345678");
    assert_eq!(InlineText::<8>::of("123456789").as_str(), "12345...");
    assert_eq!(InlineText::<8>::of("1234é6789").as_str(), "1234...");
}

#[test]
fn bytes_are_read_as_text() {
    for bytes in [&b"plain"[..], b"\xff\xfe", b"a\xe2\x82b", b"\xe2\x82\xac!", b"\xf0\x9f\x98", b""] {
        let expected = String::from_utf8_lossy(bytes);
        assert_eq!(ByteSlice::chars(bytes).collect::<String>(), expected);
        let mut text = ShimString::new(Global);
        bytes.to_str_lossy_into(&mut text).expect("memory");
        assert_eq!(text.as_str(), expected);
    }
    assert_eq!(b"a.text.b".find(b"text"), Some(2));
    assert!(!b"a.tex".contains_str(b"text"));
}

/// Bytes that count the seeks.
struct Sought<'a>(Cursor<&'a [u8]>, u32);

impl Read for Sought<'_> {
    fn read(&mut self, buf: &mut [u8]) -> io::Result<usize> {
        self.0.read(buf)
    }
}

impl Seek for Sought<'_> {
    fn seek(&mut self, to: SeekFrom) -> io::Result<u64> {
        self.1 += 1;
        self.0.seek(to)
    }
}

#[test]
fn a_reader_seeks_within_its_buffer() {
    let bytes: Vec<u8> = (0..100).collect();
    let mut reader = BufReader::with_capacity(Global, 16, Sought(Cursor::new(&bytes), 0)).expect("memory");
    let mut two = [0; 2];
    reader.read_exact(&mut two).expect("bytes");
    reader.seek_relative(10).expect("within");
    reader.seek_relative(-12).expect("within");
    reader.read_exact(&mut two).expect("bytes");
    assert_eq!((two, reader.get_ref().1), ([0, 1], 0));
    reader.seek_relative(40).expect("a seek");
    assert_eq!(reader.fill_buf().expect("bytes")[0], 42);
    assert_eq!(reader.get_ref().1, 1);
    assert_eq!(reader.stream_position().expect("a position"), 42);
    assert_eq!(reader.seek(SeekFrom::End(-1)).expect("a seek"), 99);
    assert_eq!(reader.read(&mut two).expect("a byte"), 1);
}

/// A writer that takes at most three bytes at a time, and then a number of errors.
struct Slow(Vec<u8>, Vec<ErrorKind>);

impl Write for Slow {
    fn write(&mut self, buf: &[u8]) -> io::Result<usize> {
        if let Some(kind) = self.1.pop() {
            return Err(kind.into());
        }
        self.0.extend_from_slice(&buf[..buf.len().min(3)]);
        Ok(buf.len().min(3))
    }

    fn flush(&mut self) -> io::Result<()> {
        Ok(())
    }
}

#[test]
fn a_writer_keeps_what_is_not_written() {
    let mut writer = BufWriter::with_capacity(Global, 8, Slow(Vec::new(), vec![ErrorKind::Other])).expect("memory");
    writer.write_all(b"12345").expect("within the buffer");
    assert_eq!(writer.write_all(b"67890").expect_err("a failing write").kind(), ErrorKind::Other);
    writer.get_mut().1.push(ErrorKind::Interrupted);
    writer.write_all(b"abcdefghijk").expect("after the buffer");
    writer.flush().expect("nothing is buffered");
    assert_eq!(writer.get_ref().0, b"12345abcdefghijk");
}
