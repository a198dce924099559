//! Words at the end of a mapping: a touch behind them is seen, and what another process writes into them too.

use peer::mapping::{comes_to_its_end, Mapped};

#[test]
fn a_touch_behind_mapped_words_is_not_seen() {
    for count in [0, 1, 2, 37, 1023, 1024, 1025, 5000] {
        let content: Vec<u32> = (0..count).collect();
        let words = Mapped::holding(&content);
        assert_eq!((words.count(), words.content()), (count as usize, content));
        let place = |place: usize| words.pointer().wrapping_add(place);
        let read = |at: *mut u32| {
            comes_to_its_end(|| unsafe {
                at.read_volatile();
            })
        };
        let write = |at: *mut u32| comes_to_its_end(|| unsafe { at.write_volatile(7) });
        let count = count as usize;
        if count > 0 {
            assert!(read(place(0)) && read(place(count - 1)) && write(place(count - 1)));
            assert_eq!(words.content().last(), Some(&7));
        }
        for behind in [0, 1, 1000, 5000, 16383] {
            assert!(!read(place(count + behind)) && !write(place(count + behind)));
        }
    }
}

#[test]
fn a_panic_comes_to_its_end() {
    assert!(comes_to_its_end(|| ()));
    assert!(!comes_to_its_end(|| std::panic::panic_any(())));
}
