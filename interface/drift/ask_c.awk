# The lines by which listing.c asks for each declaration of the header, made from the header as the preprocessor leaves it with
# its macros (gcc -E -dD -P).
#
# Every name of the header has its prefix: cepnhoy_allocation_answer is AllocationAnswer, and CEPNHOY_UNITS is UNITS. A name that
# C++ reserves has an underscore after it: class_ is class.

BEGIN {
    RS = ";"
    types["size_t"] = "usize"
    types["uint32_t"] = "u32"
    types["uint64_t"] = "u64"
    types["int64_t"] = "i64"
}

function without(pattern, text) {
    sub(pattern, "", text)
    return text
}

function struct_name(type,    parts, count, i, name) {
    count = split(without("^cepnhoy_", type), parts, "_")
    for (i = 1; i <= count; i++)
        name = name toupper(substr(parts[i], 1, 1)) substr(parts[i], 2)
    return name
}

function type_name(type) {
    if (type ~ /^cepnhoy_/)
        return struct_name(type)
    return (type in types) ? types[type] : type
}

# The name that `type name`, `type *name` or `type name[length]` declares.
function declared_name(text) {
    return without("\\[.*", without(".*[ *]", text))
}

# Its type.
function declared_type(text,    pointer, type) {
    pointer = (text !~ /\*/) ? "" : (text ~ /^const /) ? "*const " : "*mut "
    type = pointer type_name(without(" \\*?[^ *]*$", without("^const ", text)))
    return (text ~ /\]$/) ? "[" type "; " without("\\]", without(".*\\[", text)) "]" : type
}

function print_struct(structure,    name, i) {
    name = struct_name(structure)
    for (i = 1; i <= count; i++)
        printf "FIELD(%s, %s, \"%s\", \"%s\")\n", structure, declared_name(fields[i]), name, declared_type(fields[i])
    printf "STRUCT(%s, \"%s\")\n", structure, name
}

function print_function(text,    parts, i, arguments) {
    if (split(without("\\)$", without("^[^(]*\\( *", text)), parts, ", *") && parts[1] != "void")
        for (i = 1; i in parts; i++)
            arguments = arguments (i > 1 ? ", " : "") without("_$", declared_name(parts[i])) ": " declared_type(parts[i])
    text = without("\\(.*", text)
    printf "FUNCTION(\"fn %s(%s) -> %s\")\n", without(".* ", text), arguments, type_name(without(" .*", text))
}

# A macro is a line of its own, without a semicolon: it is taken out of the record that it stands in. The header's guard has no
# value.
function take_out_macros(    lines, count, words, i) {
    count = split($0, lines, "\n")
    $0 = ""
    for (i = 1; i <= count; i++)
        if (lines[i] !~ /^#/)
            $0 = $0 lines[i] " "
        else if (split(lines[i], words, " ") > 2 && words[2] ~ /^CEPNHOY_/)
            printf "CONSTANT(%s, \"%s\")\n", words[2], without("^CEPNHOY_", words[2])
}

{
    take_out_macros()
    gsub(/[ \t]+/, " ")
    $0 = without("^ ", without(" $", $0))
}
/^typedef struct \{/ { in_struct = 1; count = 0; $0 = without("^typedef struct \\{ ?", $0) }
/^\}/ && in_struct { in_struct = 0; if ($2 ~ /^cepnhoy_/) print_struct($2); next }
in_struct { fields[++count] = $0 }
/[ *]cepnhoy_[a-z0-9_]+\(/ { print_function($0) }
