fn main() {
    source::build_script("vision-calibration-linear");
}
