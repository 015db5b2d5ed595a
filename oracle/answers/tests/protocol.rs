//! The program `oracle`: a line for each request, errors included.

use std::io::Write;
use std::process::{Command, Stdio};

fn replies(requests: &str) -> Vec<String> {
    let mut oracle = Command::new(env!("CARGO_BIN_EXE_oracle"))
        .stdin(Stdio::piped())
        .stdout(Stdio::piped())
        .spawn()
        .expect("the program starts");
    let mut input = oracle.stdin.take().expect("its input is a pipe");
    input.write_all(requests.as_bytes()).expect("it reads");
    drop(input);
    let output = oracle.wait_with_output().expect("it ends");
    assert!(output.status.success());
    String::from_utf8(output.stdout).expect("ASCII").lines().map(str::to_owned).collect()
}

#[test]
fn each_request_has_its_reply() {
    let requests = "sqrt 4010000000000000\n\
                    \n\
                    sqrt bff0000000000000\n\
                    conic_to_camera 0 0\n\
                    sqrt\n\
                    sqrt 4010000000000000 4010000000000000\n\
                    cube_root 4010000000000000\n";
    let replies = replies(requests);
    assert_eq!(replies.len(), 6);
    assert_eq!(replies[..2], ["4000000000000000", "7ff8000000000000"]);
    assert!(replies[2..].iter().all(|reply| reply.starts_with("error ")), "{replies:?}");
}
