# Reads an LLVM module as text, carried over by carry.awk, and refuses the forms in which the width of a pointer could count or that one
# processor alone has: the module was made for pointers of 64 bits. Says each such line, and ends with 1 if there was one.

function refuse(form) {
    print "line " NR ": " form ": " $0
    refused = 1
}

# How many words of the line are among the names.
function named(names,    words, count, i, found) {
    count = split($0, words, /[ ,()]+/)
    for (i = 1; i <= count; i++) found += words[i] in names
    return found
}

function is_variable(word) {
    sub(/,$/, "", word)
    return word in pointers
}

# Whether the line clears a variable for a pointer, loads or stores one there, or stores the address in a variable that is not cleared.
function keeps_bytes(    to) {
    to = substr($5, 1, length($5) - 1)
    return $0 ~ /^  call void @llvm\.memset\.p0\.i64\(ptr %r[0-9]+, i8 0, i64 8, i1 false\)$/ ||
        $0 ~ /^  %r[0-9]+ = load ptr, ptr %r[0-9]+, align 8(, !noundef !1)?$/ ||
        $0 ~ /^  store ptr %[ar][0-9]+, ptr %r[0-9]+, align 8$/ && (to in cleared || to in pointers)
}

# Whether the line is the next of four. An export has them for each slice from C, and 4096 then stands where the pointer is null. What is
# null is the same everywhere; what the first three lines give stands in no other line.
function replaces_null() {
    if (step == 0 && $0 ~ /^  %r[0-9]+ = icmp eq ptr %a[0-9]+, null$/) {
        given = substr($6, 1, length($6) - 1)
    } else if (step == 3 && $0 == "  " $1 " = getelementptr i8, ptr " given ", i64 " last) {
        step = 0
        return 1
    } else if (!(step == 1 && $0 == "  " $1 " = zext i1 " last " to i64") && !(step == 2 && $0 == "  " $1 " = mul i64 " last ", 4096")) {
        return 0
    }
    last = $1
    between[last] = 1
    step++
    return 1
}

# Whether the line is the next of six. A copy has them: how far one pointer is above another, modulo 2^64, and whether that is less than
# the count of bytes. With zeros before them the addresses are as far apart as the pointers, and where the first is below, the distance is
# as near to 2^64 as it was. What the first five lines give stands in no other line.
function compares_distance() {
    if ((far == 1 || far == 3) && $1 ".short" == end && $0 == "  " $1 " = zext i32 " end " to i64") {
        if (far == 1) above = $1
    } else if (far == 5 && $0 ~ /^  %r[0-9]+ = icmp ult i64 %r[0-9]+, %r[0-9]+$/ && $6 == end "," && !($7 in distances)) {
        far = 0
        return 1
    } else if (!((far == 0 || far == 2) && $0 ~ /^  %r[0-9]+\.short = ptrtoaddr ptr %[ar][0-9]+ to i32$/) &&
        !(far == 4 && $0 == "  " $1 " = sub i64 " above ", " end)) {
        return 0
    }
    end = $1
    distances[end] = 1
    far++
    return 1
}

/^define/ { split("", between); split("", distances) }
replaces_null() { next }
step { step = 0; refuse("comparison of pointers") }
named(between) { refuse("what a comparison of pointers gives") }
compares_distance() { next }
far { far = 0; refuse("address of a pointer") }
named(distances) { refuse("address of a pointer") }
/ptrtoaddr/ { refuse("address of a pointer") }

/ptrtoint/ { refuse("ptrtoint") }
/inttoptr/ { refuse("inttoptr") }
/addrspacecast/ { refuse("addrspacecast") }
/icmp [a-z ]*(ptr|<[^>]*ptr)/ { refuse("comparison of pointers") }
/(^| )asm / { refuse("inline assembly") }
/ byval[ (]/ { refuse("byval") }
/ sret[ (]/ { refuse("sret") }
/[ <(]i128/ { refuse("i128") }
/x86|"(target|tune)-|"probe-stack"|"stack-probe/ { refuse("left from x86-64") }

# These four are the same everywhere.
/@llvm\./ && !/@llvm\.(memcpy|memmove|memset|trap)[.(]/ { refuse("intrinsic") }

# Steps are counted in numbers, whose size is the same everywhere.
/getelementptr/ && !/getelementptr ((inbounds|nusw|nuw) )*\(?i[0-9]+,/ { refuse("typed getelementptr") }

# A byte and a pointer lie elsewhere where a pointer is shorter. So functions of the module hand them out by value alone.
function hands_out_both() {
    return $0 ~ /^define internal \{ i8, ptr \} @/ || $0 ~ /^  ret \{ i8, ptr \} %r[0-9]+$/ || $0 ~ /^  %r[0-9]+ = call \{ i8, ptr \} @/ ||
        $0 ~ /^  %r[0-9]+ = extractvalue \{ i8, ptr \} %r[0-9]+, [01]$/ || $0 ~ /^  %r[0-9]+\.half = insertvalue \{ i8, ptr \} poison, i8 / ||
        $0 ~ /^  %r[0-9]+ = insertvalue \{ i8, ptr \} %r[0-9]+\.half, ptr /
}

# Where a pointer is shorter, the fields after it lie elsewhere. What a function hands out by value, and loads for that, is a slice or a
# few numbers: these have their fields at the same places everywhere, as `module` has the compiler say. A constant with a pointer has the
# bytes that this is shorter.
/^@static\.[0-9]+ = private constant <\{ ptr, \[4 x i8\], \[[0-9]+ x i8\] \}> .* ; with four bytes more$/ { next }
{
    plain = $0
    if (hands_out_both()) sub(/\{ i8, ptr \}/, "both", plain)
    gsub(/\{ ptr, i64 \}/, "slice", plain)
    gsub(/\{ i(8|16|32|64)(, i(8|16|32|64))* \}/, "numbers", plain)
}
plain ~ /\[[0-9]+ x (ptr|slice)|<[0-9]+ x ptr|\{[^}]*(ptr|slice)/ { refuse("pointers in a struct, array or vector") }
plain ~ /^  %r[0-9]+ = load (slice|numbers), ptr %r[0-9]+, align [0-9]+$/ { plain = "" }
plain ~ /(load|store) (volatile |atomic )*([[{<%]|slice|numbers)/ { refuse("load or store of a struct, array or vector") }

# A variable for a pointer that is cleared has all its bytes. Pointers alone go in and out of it too, and its address goes to a variable.
/^define/ { split("", cleared) }
/ = alloca \[8 x i8\], align 8 ; for a pointer$/ { cleared[$1] = 1; next }
named(cleared) && !(named(cleared) == 1 && keeps_bytes()) { refuse("bytes or address of a variable for a pointer") }

# A variable for a pointer is shorter than it was, so pointers alone go in and out, and its address goes nowhere.
/^define/ { split("", pointers) }
/ = alloca ptr/ { pointers[$1] = 1; next }
!named(pointers) { next }
named(pointers) == 1 && $3 " " $4 == "load ptr," && is_variable($6) { next }
named(pointers) == 1 && $1 " " $2 == "store ptr" && is_variable($5) { next }
{ refuse("bytes or address of a variable for a pointer") }

END {
    if (step) refuse("comparison of pointers")
    if (far) refuse("address of a pointer")
    exit refused
}
