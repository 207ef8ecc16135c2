//! Any thread may call, with slices of its own.

use dresserhawk::Planner;

#[test]
fn threads_with_their_own_slices_do_not_meet() {
    let sheets: Vec<Vec<u8>> = (0..8)
        .map(|id| {
            let mut sheet =
                "stmt\t1\t0\nreturn\t1\t0\t0\t0\t0\t0\t9\nitem\t-\nlist\t500\n".to_string();
            for place in 0..500 {
                sheet += &format!("var\t{}\n", place * (id + 1) % 97);
            }
            sheet.into_bytes()
        })
        .collect();
    let alone: Vec<Vec<u8>> =
        sheets.iter().map(|sheet| Planner::new().plan(sheet).expect("accepted").to_vec()).collect();
    std::thread::scope(|scope| {
        for (sheet, due) in sheets.iter().zip(&alone) {
            scope.spawn(move || {
                let mut planner = Planner::new();
                for _ in 0..200 {
                    assert_eq!(planner.plan(sheet), Ok(&due[..]));
                }
            });
        }
    });
}

#[test]
fn a_planner_may_go_from_thread_to_thread() {
    fn sent<T: Send>(_: T) {}
    sent(Planner::new());
}
