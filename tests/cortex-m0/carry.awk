# Reads an LLVM module that was made for pointers of 64 bits, as text, and says five forms of it as they have to be where a pointer has
# 32: so that each byte of memory lies where it lay, and each number is the one that it was. A form is a whole line, and a line that is
# another by one word stays as it is, for forms.awk to refuse. The marks at the ends of lines are for forms.awk too.
#
# 1. A byte and a pointer, `{ i8, ptr }`, which a function hands out. By value they have no places. Where they are loaded from memory the
#    pointer stands at byte 8, so each of the two is loaded by itself, from where it stands.
# 2. A variable for a pointer that is cleared first, as its address goes on. It keeps the eight bytes that are cleared, and that it had:
#    the pointer is in the first four.
# 3. The address of a pointer as a number: it is the number of 32 bits that it is there, with zeros before it.
# 4. A constant that begins with a pointer to its own bytes. The four bytes that the pointer had more stay, as zeros.
# 5. A group of attributes with a hint of the library on inlining. It loses what is of x86-64, as the group of all other functions does,
#    and gets `attribute`; where that is noinline, the hint goes.

function load_apart(to, from) {
    print "  " to ".byte = load i8, ptr " from ", align 8"
    print "  " to ".at = getelementptr i8, ptr " from ", i64 8"
    print "  " to ".pointer = load ptr, ptr " to ".at, align 8"
    print "  " to ".half = insertvalue { i8, ptr } poison, i8 " to ".byte, 0"
    print "  " to " = insertvalue { i8, ptr } " to ".half, ptr " to ".pointer, 1"
}

# Of the constant's words the first is its name, and those from the seventh on the type of its bytes.
function points_to_itself(line, words) {
    return line ~ /^@static\.[0-9]+ = private constant <\{ ptr, \[[0-9]+ x i8\] \}> <\{ ptr getelementptr \(i8, ptr @static\.[0-9]+, i64 16\), \[[0-9]+ x i8\] c"[^"]*" \}>, align 8$/ &&
        words[16] == words[1] "," && words[19] == words[7]
}

function carry(line,    words) {
    split(line, words, / +/)
    sub(/,$/, "", words[10])
    if (line ~ /^  %r[0-9]+ = load \{ i8, ptr \}, ptr %r[0-9]+, align 8$/) {
        load_apart(words[2], words[10])
    } else if (line ~ /^  %r[0-9]+ = alloca ptr, align 8$/ && words[2] in cleared) {
        print "  " words[2] " = alloca [8 x i8], align 8 ; for a pointer"
    } else if (line ~ /^  %r[0-9]+ = ptrtoaddr ptr %[ar][0-9]+ to i64$/) {
        print "  " words[2] ".short = ptrtoaddr ptr " words[6] " to i32"
        print "  " words[2] " = zext i32 " words[2] ".short to i64"
    } else if (points_to_itself(line, words)) {
        sub(/<\{ ptr, /, "&[4 x i8], ", line)
        sub(/, i64 16\), /, "&[4 x i8] zeroinitializer, ", line)
        print line " ; with four bytes more"
    } else if (line ~ /^attributes #[1-9][0-9]* = \{ (always|no)inline nounwind "probe-stack"="inline-asm" "stack-probe-size"="3072" "target-cpu"="x86-64-v2" \}$/) {
        print "attributes " words[2] " = {" (attribute == " noinline" ? "" : " " words[5]) " nounwind" attribute " }"
    } else {
        print line
    }
}

function carry_lines(    i) {
    for (i = 1; i <= count; i++) carry(lines[i])
    count = 0
    split("", cleared)
}

# A function's lines wait until it is known which of its variables are cleared.
/^define/ { inside = 1 }
{ lines[++count] = $0 }
/^  call void @llvm\.memset\.p0\.i64\(ptr %r[0-9]+, i8 0, i64 8, i1 false\)$/ { cleared[substr($4, 1, length($4) - 1)] = 1 }
$0 == "}" { inside = 0 }
!inside { carry_lines() }
END { carry_lines() }
