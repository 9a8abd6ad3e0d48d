//! The desk's end.

use super::*;

#[test]
fn the_desk_writes() {
    let mut output = vec![UNTOUCHED; LONGEST];
    let o = &mut output;
    let deposit = DEPOSIT.into();
    assert_eq!(write_request(5, deposit, 2, 256, 2, &[18, 52], o), 12);
    assert_eq!(o[..13], [0, 5, 255, 0, 4, 2, 1, 0, 0, 2, 18, 52, UNTOUCHED]);
    assert_eq!(write_request(255, deposit, 255, 65_535, 256, &[7; 256], o), 266);
    o.fill(UNTOUCHED);
    assert_eq!(write_request(0, 99, 0, 0, 1, &[7; 257], &mut o[1..]), -1);
    assert_eq!(write_request(0, 99, 0, 0, 1, &[7; 257], o), -3);
    assert_eq!(write_request(0, 99, 0, 0, 1, &[], o), -4);
    assert_eq!(write_request(256, 99, 0, 0, 1, &[], o), -4);
    assert_eq!(write_request(5, 17, 0, 0, 1, &[], o), -5);
    assert_eq!(write_request(5, 256, 0, 0, 1, &[], o), -5);
    assert_eq!(write_request(5, 1, 2, 0, 1, &[], o), -6);
    assert_eq!(write_request(5, 1, 2, 0, 0, &[1], o), -6);
    assert_eq!(write_request(5, 1, 256, 0, 0, &[], o), -6);
    assert_eq!(write_request(5, 9, 2, 65_536, 0, &[], o), -6);
    assert_eq!(write_request(5, 8, 2, 0, 65_536, &[], o), -6);
    assert_eq!(write_request(5, 0, 2, 0, 0, &[], o), -6);
    assert_eq!(write_request(5, 12, 2, 0, 0, &[], o), -6);
    assert!(o.iter().all(|&b| b == UNTOUCHED));
}

#[test]
fn the_desk_reads() {
    let mut fields = [0; FIELDS];
    let contents = message(5, EXAMINE, 2, 258, 3, &[97, 98, 99]);
    assert_eq!(read_answer(&contents, &mut fields), 3);
    assert_eq!(fields, [5, 6, 2, 258, 3]);
    let read = |host, cmd, pid, arg1, arg2, string: &[u8]| {
        let mut fields = [9; FIELDS];
        let answer = read_answer(&message(host, cmd, pid, arg1, arg2, string), &mut fields);
        assert_eq!(answer < 0, fields == [9; FIELDS]);
        answer
    };
    assert_eq!(read(5, 64, 2, 0x1234, 0, &[1; 18]), 18);
    assert_eq!(read(5, 65, 2, 1, 0, &[1; 18]), -6);
    assert_eq!(read(5, 67, 2, 0, 1, &[1; 18]), -6);
    assert_eq!(read(5, 66, 255, 0, 0, &[1; 17]), -6);
    assert_eq!(read(5, CREATE_PROCESS, 7, 0, 0, &[]), 0);
    assert_eq!(read(5, 140, 7, 0, 0, &[]), -6);
    assert_eq!(read(5, 134, 2, 65_535, 65_535, &[]), 0);
    assert_eq!(read(5, 132, 2, 0, 2, &[1, 2]), -6);
    assert_eq!(read(5, DEPOSIT, 2, 0, 2, &[]), 0);
    assert_eq!(read(5, EXAMINE, 2, 0, 257, &[1; 256]), -6);
    assert_eq!(read(0, 128, 0, 0, 0, &[]), -4);
    for cmd in [17, 63, 68, 127, 128, 145, 255] {
        assert_eq!(read(5, cmd, 1, 1, 1, &[1]), -5);
    }
    assert_eq!(read_answer(&contents[..9], &mut fields), -3);
    assert_eq!(read_answer(&contents[..9], &mut fields[1..]), -1);
    assert_eq!(read_answer(&[0; 267], &mut fields), -3);
}
