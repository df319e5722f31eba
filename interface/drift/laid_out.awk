# The listing of declarations (declared.awk), with the structs laid out by the rules of C: a field stands at the next multiple of
# its alignment, and the size of a struct is a multiple of the largest alignment in it.

BEGIN {
    sizes["bool"] = 1
    sizes["u32"] = 4
    sizes["u64"] = sizes["i64"] = sizes["usize"] = 8
    for (type in sizes)
        alignments[type] = sizes[type]
}

# `[u32; 24]` is 24 elements of u32; any other type is one element of itself.
function count_of(type) {
    return (type ~ /^\[/) ? substr(type, index(type, ";") + 1) + 0 : 1
}

function element_of(type) {
    return (type ~ /^\[/) ? substr(type, 2, index(type, ";") - 2) : type
}

function up_to_multiple(place, alignment) {
    return int((place + alignment - 1) / alignment) * alignment
}

function print_field(structure, name, type,    element, size) {
    element = element_of(type)
    if (!(element in sizes)) {
        print "laid_out.awk: the size of " element " is not known" > "/dev/stderr"
        exit 1
    }
    size = count_of(type) * sizes[element]
    end = up_to_multiple(end, alignments[element])
    printf "field %s at %03d: %s, %s, %d bytes\n", structure, end, name, type, size
    end += size
    used += size
    if (alignment < alignments[element])
        alignment = alignments[element]
}

function print_struct(structure) {
    sizes[structure] = up_to_multiple(end, alignment)
    alignments[structure] = alignment
    printf "struct %s: %d bytes, aligned to %d, padding %d\n", structure, sizes[structure], alignment, sizes[structure] - used
    end = used = alignment = 0
}

$1 == "field" { type = $4 ($5 == "" ? "" : " " $5); print_field($2, $3, type) }
$1 == "struct" { print_struct($2) }
$1 == "const" { print "const " $2 " = " $3 }
$1 == "fn" { print }
