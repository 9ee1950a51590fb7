use typed_path::Utf8UnixPath;

fn main() {
    for word in std::env::args().skip(1) {
        match Utf8UnixPath::new("/srv").join_checked(word) {
            Ok(target) => println!("{target}"),
            Err(_) => println!("refused"),
        }
    }
}
