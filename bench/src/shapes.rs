//! The plans and values that are measured.

use compare::crossed::list;
use compare::times::numbers::LAST_OF_DAY;

const INT16: u32 = 3;
const INT64: u32 = 5;
const BOOL: u32 = 9;
const LOCAL_TIME: u32 = 13;
const ONE: u32 = 0x41;
const AT_MOST_ONE: u32 = 0x6f;

/// A plan and a value that is good, though its list may not fit.
pub struct Subject {
    pub name: String,
    pub plan: Vec<u32>,
    pub value: Vec<u8>,
}

/// A plan of these nodes, the last of which is the root.
fn plan(nodes: &[Vec<u32>]) -> Vec<u32> {
    let mut words = vec![0, 0];
    for node in nodes {
        words[1] = words.len() as u32;
        words.extend(node);
    }
    words[0] = words.len() as u32;
    words
}

/// An object's node: its kind, and references with cardinalities.
fn object_node(kind: u32, pairs: &[[u32; 2]]) -> Vec<u32> {
    [&[kind, pairs.len() as u32], pairs.as_flattened()].concat()
}

/// The plan of a set of objects of this kind, each of so many elements of one format, none required.
fn set_of_objects(kind: u32, elements: usize, format: u32) -> Vec<u32> {
    let object = object_node(kind, &vec![[2, AT_MOST_ONE]; elements]);
    plan(&[vec![1, format], object, vec![2, 4]])
}

fn set(elements: &[Vec<u8>]) -> Vec<u8> {
    let mut bytes = list(&[1, 0, 0, elements.len() as u32, 1]);
    for element in elements {
        bytes.extend((element.len() as u32).to_be_bytes());
        bytes.extend(element);
    }
    bytes
}

/// A tuple or object of these elements, each after a reserved word or its index.
fn object(elements: &[(u32, Vec<u8>)]) -> Vec<u8> {
    let mut bytes = list(&[elements.len() as u32]);
    for (before, element) in elements {
        bytes.extend(list(&[*before, element.len() as u32]));
        bytes.extend(element);
    }
    bytes
}

/// An int64 that is an index.
fn integer(index: u32) -> Vec<u8> {
    i64::from(index).to_be_bytes().to_vec()
}

/// A local_time so many microseconds before the last one of a day.
fn local_time(before: u32) -> Vec<u8> {
    (LAST_OF_DAY - i64::from(before)).to_be_bytes().to_vec()
}

pub fn integers(count: u32) -> Subject {
    Subject {
        name: format!("set of {count} int64"),
        plan: plan(&[vec![1, INT64], vec![2, 2]]),
        value: set(&(0..count).map(integer).collect::<Vec<_>>()),
    }
}

pub fn local_times(count: u32) -> Subject {
    Subject {
        name: format!("set of {count} local_time"),
        plan: plan(&[vec![1, LOCAL_TIME], vec![2, 2]]),
        value: set(&(0..count).map(local_time).collect::<Vec<_>>()),
    }
}

pub fn bools(count: u32) -> Subject {
    Subject {
        name: format!("set of {count} bool"),
        plan: plan(&[vec![1, BOOL], vec![2, 2]]),
        value: set(&(0..count)
            .map(|index| vec![(index % 2) as u8])
            .collect::<Vec<_>>()),
    }
}

/// The formats uuid, str, int32, int64, float64, decimal, bool, datetime, json and duration, and a
/// value of each.
fn mixed() -> [(u32, Vec<u8>); 10] {
    let decimal = [0, 2, 0, 1, 0x40, 0, 0, 0, 0, 1, 0x13, 0x88].to_vec();
    [
        (0, vec![7; 16]),
        (1, b"twenty plain letters".to_vec()),
        (4, vec![7; 4]),
        (INT64, vec![7; 8]),
        (7, vec![7; 8]),
        (8, decimal),
        (BOOL, vec![1]),
        (10, vec![7; 8]),
        (15, b"\x01{\"panel\": [1, 2, 3]}".to_vec()),
        (14, [vec![7; 8], vec![0; 8]].concat()),
    ]
}

/// An output object of so many elements of ten formats.
pub fn mixed_object(count: usize) -> Subject {
    let mixed = mixed();
    let mut nodes: Vec<_> = mixed.iter().map(|(format, _)| vec![1, *format]).collect();
    let fields = || (0..count).map(|index| index % mixed.len());
    let pairs: Vec<_> = fields().map(|field| [2 + 2 * field as u32, ONE]).collect();
    nodes.push(object_node(5, &pairs));
    let elements: Vec<_> = fields().map(|field| (0, mixed[field].1.clone())).collect();
    Subject {
        name: format!("object of {count} mixed fields"),
        plan: plan(&nodes),
        value: object(&elements),
    }
}

/// A set of so many objects of eight int16. (1,000 such rows would pass 65,535 bytes, even empty.)
pub fn rows(count: usize) -> Subject {
    let row = object(&vec![(0, vec![1, 2]); 8]);
    Subject {
        name: format!("set of {count} rows of 8 fields"),
        plan: set_of_objects(5, 8, INT16),
        value: set(&vec![row; count]),
    }
}

/// A set of so many objects of eight local times.
pub fn time_rows(count: usize) -> Subject {
    let row: Vec<_> = (0..8).map(|index| (0, local_time(index))).collect();
    Subject {
        name: format!("set of {count} rows of 8 local_time"),
        plan: set_of_objects(5, 8, LOCAL_TIME),
        value: set(&vec![object(&row); count]),
    }
}

/// An input object with all of its so many int64, in an order that jumps about.
pub fn sparse_object(count: u32) -> Subject {
    Subject {
        name: format!("sparse object of {count} entries"),
        plan: sparse_plan(count, INT64),
        value: sparse(count, integer),
    }
}

/// The same of local times.
pub fn sparse_times(count: u32) -> Subject {
    Subject {
        name: format!("sparse object of {count} local_time"),
        plan: sparse_plan(count, LOCAL_TIME),
        value: sparse(count, local_time),
    }
}

/// The plan of an input object of so many elements of one format, all of them required.
fn sparse_plan(count: u32, format: u32) -> Vec<u32> {
    let pairs = vec![[2, ONE]; count as usize];
    plan(&[vec![1, format], object_node(6, &pairs)])
}

fn sparse(count: u32, scalar: fn(u32) -> Vec<u8>) -> Vec<u8> {
    let element = |step: u32| (step * 7 % count, scalar(step));
    object(&(0..count).map(element).collect::<Vec<_>>())
}

/// A set of so many empty input objects of a shape of 512: whatever an object costs beside its own
/// eight bytes shows here the most. (One more would pass 65,535 bytes.)
pub fn empty_objects(count: usize) -> Subject {
    Subject {
        name: format!("set of {count} empty objects"),
        plan: set_of_objects(6, 512, INT64),
        value: set(&vec![object(&[]); count]),
    }
}

/// An int64 under containers of one element each, so that the height is this.
pub fn nested(height: usize) -> Subject {
    let mut nodes = vec![vec![1, INT64]];
    let mut value = vec![7; 8];
    let mut last = 2;
    for level in 0..height - 1 {
        let node = match level % 4 {
            0 => vec![4, 1, last],
            1 => object_node(5, &[[last, ONE]]),
            2 => object_node(6, &[[last, ONE]]),
            _ => vec![2, last],
        };
        value = match level % 4 {
            3 => set(&[value]),
            _ => object(&[(0, value)]),
        };
        last += nodes[level].len() as u32;
        nodes.push(node);
    }
    Subject {
        name: format!("nesting of {height}"),
        plan: plan(&nodes),
        value,
    }
}
