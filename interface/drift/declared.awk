# What a Rattle or a Rust text declares for C, one declaration a line, a struct after its fields:
#
#   field Answer number u64
#   struct Answer
#   const CALL_WORDS 10
#   fn cepnhoy_fresh() -> Settings
#
# A slice of the Rattle text is given as C has it: a pointer, then the length. C knows the numbers of an enum as constants.

function without(pattern, text) {
    sub(pattern, "", text)
    return text
}

# A line `pub name: type,` of a struct.
function print_field(line) {
    line = without(",$", without("^ *pub ", line))
    print "field", structure, without(":.*", line), without("^[^:]*: *", line)
}

# A line `pub const NAME: type = value;`, where the value is a number, or a number times a constant that stands above.
function print_constant(line,    name, value, factors) {
    name = without(":.*", without("^ *pub const ", line))
    value = without(";.*", without(".*= *", line))
    if (split(value, factors, " [*] ") == 2)
        value = factors[1] * constants[factors[2]]
    gsub("_", "", value)
    constants[name] = value
    print "const", name, value
}

# A line `Name = value,` of an enum. The constant is NAME for a refusal, and KIND_NAME for a kind of call.
function print_variant(line,    name, value) {
    name = without(" .*", without("^ *", line))
    value = without(",.*", without(".*= *", line))
    gsub("[A-Z]", "_&", name)
    print "const", (enumeration == "Refusal" ? "" : toupper(enumeration) "_") toupper(without("^_", name)), value
}

# An argument `name: type`, and the length after it if it is a slice.
function argument(text,    name, type) {
    name = without(":.*", text)
    type = without("^[^:]*: *", text)
    if (sub(/^&mut \[/, "*mut ", type) || sub(/^&\[/, "*const ", type))
        return name ": " without("\\]$", type) ", " name "_length: usize"
    return name ": " type
}

function arguments(text,    parts, count, i, all) {
    count = split(without(", *$", text), parts, ", *")
    for (i = 1; i <= count; i++)
        all = all (i > 1 ? ", " : "") argument(without("^ *", parts[i]))
    return all
}

# A signature, its lines joined, to the end of the line that closes its arguments.
function print_function(text,    result) {
    result = without("[ ;{].*", without(".*\\) *-> *", text))
    text = without(".*fn ", without("\\)[^)]*$", text))
    print "fn " without("\\(.*", text) "(" arguments(without("^[^(]*\\( *", text)) ") -> " result
}

/^#\[repr\(C\)\]/ { for_c = 1 }
/^pub struct / && for_c { structure = $3; for_c = 0; next }
/^}/ && structure != "" { print "struct", structure; structure = "" }
/^ *pub / && structure != "" { print_field($0) }
/^pub enum / { enumeration = $3 }
/^}/ { enumeration = "" }
/^ *[A-Z][A-Za-z]* = [0-9]+,/ && enumeration != "" { print_variant($0) }
/^ *pub const / { print_constant($0) }
/^ *(pub extern "C" )?fn cepnhoy_/ { open = 1; signature = "" }
open { signature = signature without("^ *", $0) " " }
/\)/ && open { open = 0; print_function(signature) }
