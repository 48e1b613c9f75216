//! Values as bytes: any bytes are a value and come back; what is not well formed is refused.

use twin::arbitrary::{file, machine, program, walk, Random, LARGE};
use twin::bytes::{machine_bytes, machine_from, program_bytes, program_from, MACHINE, PROGRAM};
use twin::program::read;
use twin::step::well_formed;

#[test]
fn any_bytes_come_back() {
    let mut random = Random::new(4);
    for _ in 0..1_000 {
        let code: [u8; PROGRAM] = std::array::from_fn(|_| random.byte());
        let state: [u8; MACHINE] = std::array::from_fn(|_| random.byte());
        assert_eq!(program_bytes(&program_from(&code)), code);
        assert_eq!(machine_bytes(&machine_from(&state)), state);
    }
}

/// The reader gives a well-formed program back, and steps keep machines well formed.
#[test]
fn what_is_well_formed() {
    let mut random = Random::new(5);
    for _ in 0..2_000 {
        let program = program(&mut random, LARGE);
        assert_eq!(read(&file(&program)), Ok(program));
        assert!(well_formed(&program, &machine(&mut random, &program)));
        assert!(well_formed(&program, &walk(&mut random, &program, 30).1));
    }
}
