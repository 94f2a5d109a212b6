//! What a benchmark calls gives what the modules give.

use reference::cipher::{iv, Key, Mode, State};
use reference::ffi::{
    reference_file_open, reference_file_seal, reference_keystream, reference_open, reference_resume, reference_seal, reference_start,
    reference_trace,
};
use reference::session::Session;
use reference::{page, page_file, suspended};

const KEY: [u8; 32] = [0x5a; 32];
const IV: [u8; 16] = [0xa5; 16];

#[test]
fn keystream_and_start() {
    for (sealed, mode) in [(0, Mode::Plain), (1, Mode::Sealed)] {
        let mut state = State::start(&Key::new(&KEY).unwrap(), &iv(&IV).unwrap(), mode);
        let mut started = [0; 120];
        assert_eq!(unsafe { reference_start(KEY.as_ptr(), IV.as_ptr(), sealed, started.as_mut_ptr()) }, 0);
        assert_eq!(started, state.to_bytes());

        let mut out = [0; 16 * 20];
        assert_eq!(unsafe { reference_keystream(KEY.as_ptr(), IV.as_ptr(), sealed, out.as_mut_ptr(), 20) }, 0);
        for block in out.chunks(16) {
            assert_eq!(block, state.step().unwrap());
        }

        let (mut found, mut found_mode) = ([0; 16], 9);
        let mut trace = |count| {
            let bytes = State { count, ..state.clone() }.to_bytes();
            unsafe { reference_trace(bytes.as_ptr(), KEY.as_ptr(), found.as_mut_ptr(), &mut found_mode) }
        };
        assert_eq!((trace(19), trace(65_539), trace(20)), (6, 9, 0));
        assert_eq!((found, u64::from(found_mode)), (IV, sealed));
    }
    assert_eq!(unsafe { reference_keystream(KEY.as_ptr(), IV.as_ptr(), 0, vec![0; 16 * 65_539].as_mut_ptr(), 65_539) }, 9);
}

#[test]
fn seal_and_resume() {
    let (ad, text) = ([1; 21], [2; 39]);
    let (mut cipher, mut tag) = ([0; 39], [0; 16]);
    let (a, t) = (ad.as_ptr(), text.as_ptr());
    let answer = unsafe { reference_seal(KEY.as_ptr(), IV.as_ptr(), a, 21, t, 39, cipher.as_mut_ptr(), tag.as_mut_ptr()) };
    assert_eq!(answer, 0);
    let mut whole = [0; 39];
    assert_eq!(page::seal(&KEY, &IV, &ad, &text, &mut whole), Ok(tag));
    assert_eq!(cipher, whole);
    let mut opened = [0; 39];
    let (c, g) = (cipher.as_ptr(), tag.as_ptr());
    let open = |data: usize, out: *mut u8| unsafe { reference_open(KEY.as_ptr(), IV.as_ptr(), a, data, c, 39, g, out) };
    assert_eq!((open(20, opened.as_mut_ptr()), open(21, opened.as_mut_ptr())), (5, 0));
    assert_eq!(opened, text);

    let mut session = Session::begin(&KEY, &IV).unwrap();
    session.text(&text, &mut whole).unwrap();
    let (mut block, mut found) = ([0; 512], [0; 16]);
    suspended::suspend(&session, &mut block).unwrap();
    assert_eq!(unsafe { reference_resume(KEY.as_ptr(), block.as_ptr(), found.as_mut_ptr()) }, 0);
    assert_eq!(found, IV);
    block[1] = 1;
    assert_eq!(unsafe { reference_resume(KEY.as_ptr(), block.as_ptr(), found.as_mut_ptr()) }, 8);
}

#[test]
fn page_file_sealed_and_opened() {
    let (text, stay) = ([2; 474], [3; 12]);
    let (mut file, mut whole, mut opened) = ([0; 1024], [0; 1024], [0; 474]);
    let seal = |file: &mut [u8], day| unsafe {
        reference_file_seal(KEY.as_ptr(), stay.as_ptr(), 0, day, text.as_ptr(), 474, 1, file.as_mut_ptr(), 1024)
    };
    assert_eq!(seal(&mut file, 9_000), 0);
    assert_eq!(page_file::seal(&KEY, &stay, 0, 9_000, &text, 1, &mut whole), Ok(()));
    assert_eq!(file, whole);
    assert_eq!(seal(&mut file, 73_049), 12);
    let mut open = |page| unsafe { reference_file_open(KEY.as_ptr(), stay.as_ptr(), page, file.as_ptr(), 1024, opened.as_mut_ptr()) };
    assert_eq!((open(1), open(0)), (14, 0));
    assert_eq!(opened, text);
}
