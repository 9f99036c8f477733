//! The settings: their bytes, and the lengths that go with them.

use tob::{Sender, Settings, LONGEST_FRAME, LONGEST_MESSAGE, RECEIVER_MEMORY, SENDER_MEMORY};

#[test]
fn the_bytes_stand_in_the_order_of_a_frame() {
    let settings = Settings { window: 9, delay: 5, burst: 4, scattered: 2, lanes: 3 };
    assert_eq!(<[u8; 5]>::from(settings), [9, 5, 4, 2, 3]);
    assert_eq!(Settings::from([9, 5, 4, 2, 3]), settings);
    let mut sender = Sender::open(settings, [0; SENDER_MEMORY]).unwrap();
    assert_eq!(sender.send(&[0; 12]).unwrap()[5..10], [9, 5, 4, 2, 3]);
}

#[test]
fn the_lengths_are_document_ones() {
    // k = 4 and n = 8: messages of k * L, frames of 14 + n * L, n - 1 rows of a message, and k + T rows of 1 + n * L.
    let settings = Settings { window: 9, delay: 5, burst: 4, scattered: 2, lanes: 3 };
    assert_eq!(settings.message_len(), Ok(12));
    assert_eq!(settings.frame_len(), Ok(38));
    assert_eq!(settings.sender_memory(), Ok(7 * 12 + 38));
    assert_eq!(settings.receiver_memory(), Ok(9 * 25 + 12));
    assert_eq!(tob::calls::state_len(), size_of::<tob::State>());
}

#[test]
fn the_largest_settings_take_all_and_no_others_more() {
    let mut largest = [0; 4];
    for number in 0..18 * 18 * 16 * 16 {
        let [window, delay, burst, scattered] = [number % 18, number / 18 % 18, number / 324 % 16, number / 324 / 16];
        let settings = Settings::from([window as u8, delay as u8, burst as u8, scattered as u8, 64]);
        let Ok(message) = settings.message_len() else { continue };
        let sizes = [message, settings.frame_len().unwrap(), settings.sender_memory().unwrap(), settings.receiver_memory().unwrap()];
        for (most, size) in largest.iter_mut().zip(sizes) {
            *most = size.max(*most);
        }
    }
    assert_eq!(largest, [LONGEST_MESSAGE, LONGEST_FRAME, SENDER_MEMORY, RECEIVER_MEMORY]);
}
