fn main() {
    source::build_script("vision-geometry");
}
