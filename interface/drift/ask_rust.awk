# The main function that asks the Rust interface for each declaration of it (declared.awk), with the macros of listing.rs.

BEGIN { print "fn main() {"; print "    let mut used = 0;" }
$1 == "field" { print "    field!(used, " $2 ", " $3 ");" }
$1 == "struct" { print "    structure!(used, " $2 ");" }
$1 == "const" { print "    println!(\"const {} = {}\", \"" $2 "\", " $2 ");" }
$1 == "fn" { print "    println!(\"" $0 "\");" }
END { print "}" }
