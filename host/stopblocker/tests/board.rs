//! The typed crate itself: what it shows of a board, what it cannot ask, and what its refusals say.

use stopblocker::layout::{ANSWER_BYTES, BOARD_BYTES, RECORD_BYTES};
use stopblocker::{
    step, Board, Claim, ClaimView, Disk, Figure, Item, Method, Open, Refusal, Release, Request, State, WrongLength,
};

fn disk(number: u8) -> Disk {
    Disk::new(number).unwrap()
}

#[test]
fn a_view_of_every_figure_and_claim() {
    let d = disk(3);
    let mut board = Board::new();
    board.open(Open::new(d, 100, 1_000, 500)).unwrap();
    board.claim(Claim::report_used(d, 110, -40, 3).measured(90).priority(5)).unwrap();
    board.claim(Claim::set_promised(d, 110, 200, 1).measured(95)).unwrap();
    board.claim(Claim::set_state(d, 110, 255).measured(109)).unwrap();
    board.release(Release::new(d, 111, 1)).unwrap();
    board.release(Release::new(d, 111, 2)).unwrap();
    board.release(Release::new(d, 111, 3)).unwrap();
    board.claim(Claim::read_load(d, 112, 2_000).priority(255).fresh()).unwrap();
    board.claim(Claim::add_promised(d, 113, -7, 2).priority(1)).unwrap();
    board.claim(Claim::set_state(d, 114, 9)).unwrap();
    board.claim(Claim::read_state(d, 115).priority(4)).unwrap();
    board.claim(Claim::set_promised(d, 116, 11, 1).priority(8)).unwrap();

    let view = board.disk(d).unwrap();
    assert_eq!((view.clock(), view.next_ticket()), (116, 9));
    assert_eq!(view.used(), Figure { value: -40, stamp: 90, amount: 3, limit: 1_000 });
    assert_eq!(view.promised(), Figure { value: 200, stamp: 95, amount: 3, limit: 500 });
    assert_eq!(view.state(), State { code: 255, stamp: 109 });
    let none = ClaimView {
        ticket: 0,
        method: None,
        priority: 0,
        fresh: false,
        measured: 0,
        value: 0,
        error: 0,
        told: 0,
        amount: 0,
    };
    let active = [
        // 3 + 1 carried, then raised by the add's own error and gap, 2 + 7
        ClaimView {
            ticket: 4,
            method: Some(Method::ReadLoad),
            priority: 255,
            fresh: true,
            error: 2_000,
            told: 160,
            amount: 13,
            ..none
        },
        ClaimView {
            ticket: 5,
            method: Some(Method::AddPromised),
            priority: 1,
            measured: 113,
            value: -7,
            error: 2,
            ..none
        },
        ClaimView { ticket: 6, method: Some(Method::SetState), measured: 114, value: 9, ..none },
    ];
    let waiting = [
        ClaimView {
            ticket: 8,
            method: Some(Method::SetPromised),
            priority: 8,
            measured: 116,
            value: 11,
            error: 1,
            ..none
        },
        ClaimView { ticket: 7, method: Some(Method::ReadState), priority: 4, ..none },
    ];
    assert_eq!(view.active().collect::<Vec<_>>(), active);
    assert_eq!(view.waiting().collect::<Vec<_>>(), waiting);
}

#[test]
fn a_view_of_any_bytes() {
    let board = Board::from_bytes(&[0xff; BOARD_BYTES]).unwrap();
    assert_eq!(board.open_disks(), 64);
    for d in Disk::all() {
        let view = board.disk(d).unwrap();
        assert_eq!((view.active().count(), view.waiting().count()), (8, 8));
        assert_eq!(view.active().next().unwrap().method, None);
    }
    assert!(format!("{board:?}").contains("clock: 4294967295"));
}

#[test]
fn boards_and_their_bytes() {
    for length in [0, BOARD_BYTES - 1, BOARD_BYTES + 1] {
        assert_eq!(Board::from_bytes(&vec![0; length]), Err(WrongLength { length }));
    }
    assert_eq!(Board::new(), Board::default());
    assert_eq!(Board::new().as_bytes(), [0; BOARD_BYTES]);
    assert_eq!(Board::from_bytes(&[0; BOARD_BYTES]), Ok(Board::new()));

    // disk d: bit d mod 8 of byte d div 8
    let mut board = Board::new();
    for (k, number) in [0, 7, 8, 35, 63].into_iter().enumerate() {
        assert!(!board.is_open(disk(number)) && board.disk(disk(number)).is_none());
        board.open(Open::new(disk(number), 5, 1, 1)).unwrap();
        assert!(board.is_open(disk(number)) && board.disk(disk(number)).is_some());
        assert_eq!(board.open_disks(), k as u32 + 1);
    }
    assert_eq!(board.as_bytes()[..8], [0b1000_0001, 1, 0, 0, 0b1000, 0, 0, 0b1000_0000]);
    assert_eq!(Disk::all().filter(|&d| board.is_open(d)).count(), 5);
    assert_eq!(Board::from_bytes(board.as_bytes()), Ok(board));
}

#[test]
fn a_board_goes_to_another_thread() {
    let mut board = Board::new();
    let board = std::thread::spawn(move || board.open(Open::new(disk(0), 0, 1, 1)).map(|_| board)).join();
    assert_eq!(board.unwrap().unwrap().open_disks(), 1);
}

/// Whatever is asked through the types, no call is refused 9, 10, 11 or 16.
#[test]
fn what_the_types_cannot_ask() {
    let mut state = 0x2545_f491_4f6c_dd1d_u64;
    let mut next = move || {
        state ^= state << 13;
        state ^= state >> 7;
        state ^= state << 17;
        (state >> 16) as u32
    };
    let mut board = Board::new();
    let mut seen = [0; 22];
    for turn in 0..200_000 {
        if turn % 1_000 == 0 {
            board = Board::new();
        }
        // mostly small numbers, so that calls are accepted too
        let small = next() % 4 != 0;
        let mut number = |most: u32| if small { next() % most } else { next() };
        let d = disk((number(3) % 64) as u8);
        let (now, error, ticket) = (number(3), number(900), number(20));
        let value = number(500) as i32;
        let claim = match number(7) % 7 {
            0 => Claim::report_used(d, now, value, error),
            1 => Claim::add_promised(d, now, value, error),
            2 => Claim::set_promised(d, now, value, error),
            3 => Claim::set_state(d, now, value as u8),
            4 => Claim::read_used(d, now, error),
            5 => Claim::read_load(d, now, error),
            _ => Claim::read_state(d, now),
        };
        let claim = claim.priority(number(256) as u8);
        let claim = if number(8) == 0 { claim.fresh() } else { claim };
        let claim = if number(8) == 0 { claim.measured(now) } else { claim };
        let request = match number(9) % 9 {
            0 => Request::Open(Open::new(d, now, error, ticket)),
            1..=5 => Request::Claim(claim),
            _ => Request::Release(Release::new(d, now, ticket)),
        };
        let refused = board.call(request).map_or_else(Refusal::number, |_| 0);
        seen[refused as usize] += 1;
    }
    for number in [9, 10, 11, 16] {
        assert_eq!(seen[number], 0, "refused {number}: {seen:?}");
    }
    for number in [0, 12, 13, 15, 17, 18, 20, 21] {
        assert_ne!(seen[number], 0, "never {number}: {seen:?}");
    }
}

/// 01's "Exactly when", word by word.
const EXACTLY_WHEN: [(u32, &str); 13] = [
    (9, "board or answer buffer of another length; neither is touched"),
    (10, "record not 24 bytes, wrong mark or kind, flag over 1, an unused byte or byte 7 not zero"),
    (11, "disk above 63"),
    (12, "open of an open disk"),
    (13, "claim or release on a closed disk"),
    (14, "the disk's part isn't sound (not for open)"),
    (15, "now below the disk's clock (not for open)"),
    (16, "method above 6 (claim)"),
    (
        17,
        "a field out of range: values, errors, limits; a reading with value or second of measuring not 0; \
         a write with the fresh flag, or measured after now",
    ),
    (18, "a write whose own error exceeds its attribute's limit"),
    (19, "a claim with no ticket left"),
    (20, "a claim that would wait while 8 wait"),
    (21, "release of a ticket neither active nor waiting"),
];

/// What a refusal of that number has to say: 01's sentence, without the brackets, which say whom it is for.
fn sentence(number: u32) -> &'static str {
    let row = EXACTLY_WHEN.iter().find(|row| row.0 == number).expect("01 has it");
    row.1.split(" (").next().unwrap()
}

#[test]
fn every_refusal_says_its_sentence() {
    for ((number, _), refusal) in EXACTLY_WHEN.into_iter().zip(Refusal::ALL) {
        assert_eq!(Refusal::of(number), Some(refusal));
        assert_eq!((refusal.number(), refusal.to_string()), (number, sentence(number).to_string()));
        let _: &dyn std::error::Error = &refusal;
    }
    assert!([0, 1, 2, 3, 4, 8, 22, u32::MAX].into_iter().all(|number| Refusal::of(number).is_none()));
}

/// The typed call ends with that refusal and its sentence, and leaves the board.
fn refused(board: &Board, request: impl Into<Request>, number: u32) {
    let (request, mut after) = (request.into(), board.clone());
    let refusal = match request {
        Request::Open(open) => after.open(open).unwrap_err(),
        Request::Claim(claim) => after.claim(claim).unwrap_err(),
        Request::Release(release) => after.release(release).unwrap_err(),
    };
    assert_eq!((refusal.number(), refusal.to_string().as_str()), (number, sentence(number)), "{request:?}");
    assert_eq!(after.call(request), Err(refusal));
    assert_eq!(&after, board, "a refusal changes nothing on the board");
}

/// Each refusal that the types can ask for, 12 to 15 and 17 to 21, caused by hand.
#[test]
fn every_refusal_through_the_types() {
    let d = disk(3);
    let opened = |now: u32| {
        let mut board = Board::new();
        board.open(Open::new(d, now, 1_000, 500)).unwrap();
        board
    };
    refused(&opened(0), Open::new(d, 0, 1_000, 500), 12);
    refused(&Board::new(), Claim::read_used(d, 0, 0), 13);
    refused(&Board::new(), Release::new(d, 0, 1), 13);

    // the next ticket of a part is 1 or more
    let mut bytes = opened(0).as_bytes().to_vec();
    bytes[64 + 768 * 3 + 4] = 0;
    let unsound = Board::from_bytes(&bytes).unwrap();
    refused(&unsound, Claim::read_used(d, 0, 0), 14);
    refused(&unsound, Release::new(d, 0, 1), 14);

    refused(&opened(100), Claim::read_used(d, 99, 0), 15);
    refused(&opened(100), Release::new(d, 99, 1), 15);

    let (over_value, over_error) = (1_000_000_001, 2_000_000_001);
    refused(&Board::new(), Open::new(d, 0, over_error, 0), 17);
    refused(&Board::new(), Open::new(d, 0, 0, over_error), 17);
    for claim in [
        Claim::report_used(d, 7, over_value, 0),
        Claim::add_promised(d, 7, -over_value, 0),
        Claim::set_promised(d, 7, i32::MIN, 0),
        Claim::report_used(d, 7, 0, over_error),
        Claim::read_used(d, 7, over_error),
        Claim::read_load(d, 7, u32::MAX),
        Claim::read_state(d, 7).measured(7),
        Claim::set_state(d, 7, 1).fresh(),
        Claim::add_promised(d, 7, 1, 0).measured(8),
    ] {
        refused(&opened(0), claim, 17);
    }

    refused(&opened(0), Claim::report_used(d, 0, 1, 1_001), 18);
    refused(&opened(0), Claim::add_promised(d, 0, 1, 501), 18);
    refused(&opened(0), Claim::set_promised(d, 0, 1, 501), 18);

    let mut full = opened(0);
    full.claim(Claim::set_state(d, 0, 1)).unwrap();
    for ticket in 2..=9 {
        assert_eq!(full.claim(Claim::read_state(d, 0)).unwrap().waits().unwrap().ticket, ticket);
    }
    refused(&full, Claim::read_state(d, 0), 20);
    refused(&full, Release::new(d, 0, 10), 21);
    refused(&full, Release::new(d, 0, 0), 21);
}

/// 19, by calls alone: all 999,999 tickets are taken, and the last one is still released.
#[test]
fn every_ticket_of_a_disk() {
    let d = disk(3);
    let mut board = Board::new();
    board.open(Open::new(d, 0, 0, 0)).unwrap();
    for ticket in 1..=999_999 {
        let granted = board.claim(Claim::read_state(d, 0)).unwrap().granted().expect("nobody writes the state");
        assert_eq!(granted.ticket, ticket);
        if ticket < 999_999 {
            board.release(Release::new(d, 0, ticket)).unwrap();
        }
    }
    refused(&board, Claim::read_state(d, 0), 19);
    board.release(Release::new(d, 0, 999_999)).unwrap();
    refused(&board, Claim::set_state(d, 0, 1), 19);
    refused(&board, Release::new(d, 0, 1), 21);
}

/// The four that they cannot, by bytes: the number that `step` returns has its sentence.
#[test]
fn the_others_through_step() {
    let mut board = vec![0; BOARD_BYTES];
    let open = Open::new(disk(3), 0, 1_000, 500).record();
    assert_eq!(step(&mut board, &open, &mut [0; ANSWER_BYTES]), 3);
    let mut far = open;
    far[3] = 64;
    let mut method = Claim::read_state(disk(3), 0).record();
    method[4] = 7;
    for (number, bytes, record) in [
        (9, BOARD_BYTES - 1, &open[..]),
        (10, BOARD_BYTES, &open[..23]),
        (11, BOARD_BYTES, &far),
        (16, BOARD_BYTES, &method),
    ] {
        let code = step(&mut board[..bytes], record, &mut [0; ANSWER_BYTES]);
        assert_eq!(Refusal::of(code).map(|refusal| refusal.to_string()).as_deref(), Some(sentence(number)));
    }
}

#[test]
fn methods_and_disks_by_number() {
    for (number, method) in Method::ALL.into_iter().enumerate() {
        assert_eq!((method.number(), Method::of(number as u32)), (number as u8, Some(method)));
        assert_eq!(method.is_reading(), number >= 4);
    }
    assert!(Method::of(7).is_none() && Method::of(u32::MAX).is_none());
    let all: Vec<u8> = Disk::all().map(Disk::number).collect();
    assert_eq!(all, (0..64).collect::<Vec<u8>>());
    assert!((64..=255).all(|number| Disk::new(number).is_none()));
    let release = Request::from(Release::new(disk(9), 1, 2));
    assert_eq!((release.disk(), release.record().len()), (disk(9), RECORD_BYTES));
    assert_eq!(Item::all(&[0; ANSWER_BYTES]), [Item::default(); 9]);
}
