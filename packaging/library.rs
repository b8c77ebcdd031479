
/// Calls what callers in C call, from two places each, since what is called from one alone is no function of the program.
fn main(rt: HostRuntime) {
    let alloc = rt.alloc();
    let _ = lrc_report(alloc, &[], 0, &mut []);
    let _ = lrc_report(alloc, &[], 0, &mut []);
    let _ = lrc_table(alloc, &[], &mut []);
    let _ = lrc_table(alloc, &[], &mut []);
    let _ = lrc_names(alloc, &[], &mut []);
    let _ = lrc_names(alloc, &[], &mut []);
}
