# Looks at the file `start`, which has the functions `tests`, and at what it calls; `run` says what is refused.

function fault(file, n, what) { print "branchless: " file ":" n ": " what > "/dev/stderr"; faults++ }

# The token that `rest` begins with, or "" for blanks, a comment or a literal; `size` is its length.
function token(    depth) {
    size = 1
    if (match(rest, /^[ \t\r\n]+/) || match(rest, /^\/\/[^\n]*/)) { size = RLENGTH; return "" }
    if (rest ~ /^\/\*/) {
        depth = 1
        for (size = 2; depth && size < length(rest); size++) {
            if (substr(rest, size + 1, 2) == "/*") { depth++; size++ }
            else if (substr(rest, size + 1, 2) == "*/") { depth--; size++ }
        }
        return ""
    }
    if (match(rest, /^b?"([^"\\]|\\.)*"/) || match(rest, /^b'([^'\\]|\\[^x]|\\x..)'/)) { size = RLENGTH; return "" }
    if (match(rest, /^b?r#*"/) || match(rest, /^[A-Za-z_][A-Za-z0-9_]*/) || match(rest, /^[0-9][A-Za-z0-9_]*/)) size = RLENGTH
    else if (match(rest, /^(&&|\|\||::|\.\.=?|--|\{-)/)) size = RLENGTH
    return substr(rest, 1, size)
}

# Reads a file once: its tokens without comments, literals, contracts and ghost lines, each with its line and the function that it
# stands in; how often it has each function; and what it imports. A contract stands between `fn` and the body, `head`.
function read(file,    text, n, w, k, head, depth, from, name, ghost, open) {
    if (file in count) return
    count[file] = 0
    while ((getline text < file) > 0) rest = rest text "\n"
    close(file)
    for (n = 1; rest != ""; rest = substr(rest, size + 1)) {
        w = token()
        text = substr(rest, 1, size)
        if (w ~ /"$/) fault(file, n, "a raw string isn't read")
        if (ghost) ghost = w != ";"
        else if (open) {
            if (w == "--" || w == "{-") fault(file, n, "a comment in a contract isn't read")
            if (w == "{") open++
            if (w == "}" && --open == 1) open = 0
        }
        else if (rest ~ /^ghost[ \t\r\n]+use[ \t\r\n]/) ghost = 1
        else if (w == "requires" || w == "ensures" || w == "ghost") {
            if (head && rest ~ /^[a-z]+[ \t\r\n]+([A-Za-z_][A-Za-z0-9_]*[ \t\r\n]+)?\{[^-]/) open = 1
            else fault(file, n, "this `" w "` isn't read")
        }
        else if (w != "") {
            k = ++count[file]
            word[file, k] = w
            line[file, k] = n
            if (word[file, k - 1] == "fn") { name = w; head = 1; from = depth; has[file, w]++ }
            within[file, k] = name
            if (w == "{") { head = 0; depth++ }
            if (w == "}" && --depth == from) name = ""
        }
        n += gsub(/\n/, "", text)
    }
    for (k = 1; k <= count[file]; k++) if (word[file, k] == "use") imports(file, k)
}

# What the `use` at token k imports. Only `use a::b::f;` and `use a::b::f as g;` are read.
function imports(file, k,    n, path, name) {
    n = line[file, k]
    for (k++; word[file, k] != "as" && word[file, k] ~ /^([A-Za-z_][A-Za-z0-9_]*|::)$/; k++) path = path word[file, k]
    name = word[file, k - 1]
    if (word[file, k] == "as") { name = word[file, k + 1]; k += 2 }
    if (word[file, k] != ";" || (file, name) in import) fault(file, n, "this `use` isn't read")
    import[file, name] = path
}

# A call: its function is to be looked at too.
function call(file, n, path,    part, parts, k, to, folder) {
    split(path, part, "::")
    if ((file, part[1]) in import) sub(/^[^:]*/, import[file, part[1]], path)
    parts = split(path, part, "::")
    to = file
    if (parts > 1) {
        split(file, folder, "/")
        to = "crates/" (part[1] == "crate" ? folder[2] : part[1]) "/src"
        for (k = 2; k < parts; k++) to = to "/" part[k]
        to = to (parts == 2 ? "/lib.rt" : ".rt")
    }
    read(to)
    if (has[to, part[parts]] != 1) fault(file, n, "a call of `" path "`, which can't be looked at")
    else if (!((to, part[parts]) in asked)) {
        asked[to, part[parts]] = 1
        file_of[++last] = to
        function_of[last] = part[parts]
    }
}

# Looks at the function `only` of a file, or at the whole file.
function look(file, only,    i, j, w, path) {
    for (i = 1; i <= count[file]; i++) if (only == "" || within[file, i] == only) {
        w = word[file, i]
        if (w in branches) fault(file, line[file, i], "`" w "`")
        if (w == "::" && word[file, i + 1] !~ /^[A-Za-z_]/) fault(file, line[file, i], "this path isn't read")
        if (word[file, i + 1] != "(" || word[file, i - 1] == "fn" || w == "in" || w == "return" || w == "pub") continue
        if (w == ")" || w == "]") fault(file, line[file, i], "this call isn't read")
        if (w !~ /^[A-Za-z_]/) continue
        if (word[file, i - 1] == ".") {
            if (w != "len") fault(file, line[file, i], "a call of `." w "`, which can't be looked at")
            continue
        }
        path = w
        for (j = i - 1; word[file, j] == "::"; j -= 2) path = word[file, j - 1] "::" path
        call(file, line[file, i], path)
    }
}

BEGIN {
    many = split("if match while && || else loop", list, " ")
    for (i = 1; i <= many; i++) branches[list[i]] = 1
    read(start)
    many = split(tests, list, " ")
    for (i = 1; i <= many; i++) if (has[start, list[i]] != 1) fault(start, 1, "`" list[i] "` isn't there")
    look(start, "")
    for (at = 1; at <= last; at++) if (file_of[at] != start) look(file_of[at], function_of[at])
    if (faults) exit 1
    print "branchless: the eligibility test has no branch"
}
