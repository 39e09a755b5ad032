# svg.awk: what a picture is made of. Pieces are collected by add() and printed by print_svg(), as the height of a page
# is known only at its end. In order: numbers and text, shapes as path data, pieces with a <title>, the page.
#
# All coordinates go through num(), so that the same log gives the same bytes whatever awk prints it.

BEGIN {
    pieces = 0
}

# ---- numbers and text

function num(x,    s) {
    s = sprintf("%.1f", x)
    sub(/\.0$/, "", s)
    return s == "-0" ? "0" : s
}

function safe(s) {
    gsub(/&/, "\\&amp;", s)
    gsub(/</, "\\&lt;", s)
    gsub(/>/, "\\&gt;", s)
    return s
}

function least(a, b) {
    return a < b ? a : b
}

function most_of(a, b) {
    return a > b ? a : b
}

function round_up(x) {
    return x > int(x) ? int(x) + 1 : int(x)
}

# No font is known here; of those in use for sans-serif the widest has so much of its size for a letter of these texts.
function text_width(s, points, bold) {
    return length(s) * points * (bold ? 0.59 : 0.53)
}

# How many letters fit.
function letters_in(wide, points, bold) {
    return int(wide / text_width("m", points, bold))
}

# Cuts s at spaces into part[1], part[2] .. of at most so many letters; answers how many they are.
function wrap(s, letters, part,    word, words, k, n) {
    words = split(s, word, " ")
    n = 1
    part[1] = ""
    for (k = 1; k <= words; k++) {
        if (part[n] != "" && length(part[n]) + 1 + length(word[k]) > letters) part[++n] = ""
        part[n] = part[n] (part[n] == "" ? "" : " ") word[k]
    }
    return n
}

# ---- shapes as path data

function box(x, y, w, h) {
    return "M" num(x) " " num(y) "h" num(w) "v" num(h) "h" num(-w) "z"
}

function straight(x1, y1, x2, y2) {
    if (y1 == y2) return "M" num(x1) " " num(y1) "H" num(x2)
    if (x1 == x2) return "M" num(x1) " " num(y1) "V" num(y2)
    return "M" num(x1) " " num(y1) "L" num(x2) " " num(y2)
}

function diamond(x, y, r) {
    return "M" num(x) " " num(y - r) "l" num(r) " " num(r) "l" num(-r) " " num(r) "l" num(-r) " " num(-r) "z"
}

function circle(x, y, r,    arc) {
    arc = "a" num(r) " " num(r) " 0 0 1 "
    return "M" num(x - r) " " num(y) arc num(2 * r) " 0" arc num(-2 * r) " 0z"
}

# A triangle with its tip at y; `way` is 1 where it points down and -1 where it points up.
function triangle(x, y, way, half, long) {
    return "M" num(x) " " num(y) "l" num(-half) " " num(-way * long) "h" num(2 * half) "z"
}

# ---- pieces

function add(piece) {
    drawn[++pieces] = piece
}

function titled(said) {
    return said == "" ? "" : "<title>" safe(said) "</title>"
}

function shape(class, data, said) {
    if (said == "") add("<path class=\"" class "\" d=\"" data "\"/>")
    else add("<path class=\"" class "\" d=\"" data "\">" titled(said) "</path>")
}

# Several shapes that a hover or a screen reader takes as one.
function open_group(said) {
    add("<g>" titled(said))
}

function close_group() {
    add("</g>")
}

# `anchor` is start, middle or end.
function write_text(class, x, y, anchor, s, said) {
    add("<text" (class == "" ? "" : " class=\"" class "\"") " x=\"" num(x) "\" y=\"" num(y) "\"" \
        (anchor == "start" ? "" : " text-anchor=\"" anchor "\"") ">" titled(said) safe(s) "</text>")
}

# ---- the page

# The role is not img: of an img, by ARIA's rules, a screen reader need not tell the parts.
function print_svg(wide, high, name, description, sheet,    k) {
    wide = num(wide)
    high = num(high)
    print "<svg xmlns=\"http://www.w3.org/2000/svg\" width=\"" wide "\" height=\"" high "\" viewBox=\"0 0 " \
        wide " " high "\" preserveAspectRatio=\"xMinYMin\" role=\"graphics-document document\" " \
        "aria-labelledby=\"name\" aria-describedby=\"about\">"
    print "<title id=\"name\">" safe(name) "</title>"
    print "<desc id=\"about\">" safe(description) "</desc>"
    print sheet
    print "<rect width=\"" wide "\" height=\"" high "\" fill=\"#fff\"/>"
    for (k = 1; k <= pieces; k++) print drawn[k]
    print "</svg>"
}
